//! Sheets with a byte changed, put in or taken out, and inputs cut, at every place.

use boundary::run_kinds::{note_printed, Met, Met::*};
use boundary::texts::{at_every_place, spliced, taken_out_and_turned_round};
use boundary::{Runs, Tally};
use oracle::reasons::{OUT_OF_RANGE, SHEET_FORM, TEXT_CUT};

/// Numbers of one to ten digits, such that a digit more or another digit may be out of range.
const SHEETS: [&[u8]; 3] = [
    b"seed=1\nflips=10\nwalks=1\nbias=400\n",
    b"seed=4294967295\nflips=100000\nwalks=1000\nbias=1000\n",
    b"seed=999999999\nflips=0\nwalks=999\nbias=0\n",
];
/// Soon found, whatever the numbers.
const TEXT: &[u8] = b"a b\n~a b\n~b c\n";

/// The ends of the digits and those past them, the ends of a line, an equals sign, a letter, and the ends of all bytes.
const BYTES: [u8; 13] = [
    b'0', b'1', b'9', b'/', b':', 9, 10, 13, 32, b'=', b's', 0, 255,
];

/// Runs each sheet with the text after it; what was met.
fn met_by(sheets: &[Vec<u8>], text: &[u8]) -> Tally<Met> {
    let mut runs = Runs::start();
    let mut met = Tally::default();
    for sheet in sheets {
        let input = [&sheet[..], text].concat();
        note_printed(&runs.run(&input), &mut met);
    }
    met
}

/// Each line was refused for its form so often, and for its number so often; some sheets were walked by.
fn expect(met: &Tally<Met>, form: u64, range: u64, found: u64) {
    met.expect((1..=4).map(|line| (SheetLine(SHEET_FORM, line), form)));
    met.expect((1..=4).map(|line| (SheetLine(OUT_OF_RANGE, line), range)));
    met.expect([(Found, found)]);
}

#[test]
fn a_byte_of_a_sheet_changed_at_every_place() {
    let sheets = at_every_place(&SHEETS, |sheet, place| {
        BYTES.map(|byte| spliced(sheet, place, 1, &[byte])).into()
    });
    expect(&met_by(&sheets, TEXT), 200, 1, 50);
}

#[test]
fn a_byte_put_into_a_sheet_at_every_place() {
    let sheets = at_every_place(&SHEETS, |sheet, place| {
        BYTES.map(|byte| spliced(sheet, place, 0, &[byte])).into()
    });
    expect(&met_by(&sheets, TEXT), 200, 1, 20);
}

#[test]
fn a_byte_of_a_sheet_taken_out_and_two_turned_round_at_every_place() {
    let sheets = at_every_place(&SHEETS, taken_out_and_turned_round);
    expect(&met_by(&sheets, TEXT), 20, 0, 10);
}

#[test]
fn inputs_cut_at_every_place() {
    let inputs = SHEETS.map(|sheet| [sheet, TEXT].concat());
    let inputs = inputs.each_ref().map(Vec::as_slice);
    let cut = at_every_place(&inputs, |input, place| vec![input[..place].to_vec()]);
    let met = met_by(&cut, b"");
    expect(&met, 15, 0, 3);
    met.expect([(Refused(TEXT_CUT), 20), (Refused(9), 3)]);
}

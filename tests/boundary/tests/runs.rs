//! Inputs of every kind that the generator knows, run whole.

use boundary::run_kinds::{compare, note_printed, Met, Met::*};
use boundary::tally::share_out;
use boundary::texts::texts_over;
use boundary::{Runs, Tally, ORDER};
use oracle::generate::{good_sheet, InputKind};
use oracle::reasons::{BLANK_LINE, OUT_OF_RANGE, SHEET_FORM, TEXT_TOO_LONG};
use oracle::Order;

/// The most inputs of one kind.
const MOST: u64 = 3_200;

fn inputs_of(kind: InputKind) -> u64 {
    match kind {
        InputKind::ToWalk => MOST,
        InputKind::FewLetters => 1_200,
        InputKind::AnySheetAnyText | InputKind::AnyBytes => 400,
        InputKind::BytesAtLimit | InputKind::BytesPastLimit | InputKind::Empty => 50,
        _ => 800,
    }
}

/// Runs the inputs of these seeds.
fn compare_inputs(seeds: &[u64]) -> Tally<Met> {
    let mut runs = Runs::start();
    let mut met = Tally::default();
    for kind in InputKind::ALL {
        for seed in seeds.iter().filter(|seed| **seed < inputs_of(kind)) {
            let report = compare(&mut runs, kind, *seed, &mut met).ran.report;
            assert!(report.is_empty(), "{report}");
        }
    }
    met
}

#[test]
fn ten_thousand_inputs_of_every_kind_are_run_as_the_independent_program_runs_them() {
    let met = share_out(MOST, compare_inputs);
    let inputs = InputKind::ALL.map(|kind| met.times(Input(kind)));
    assert!(inputs.iter().sum::<u64>() >= 10_000, "{met:?}");
    met.expect(InputKind::ALL.map(|kind| (Input(kind), inputs_of(kind))));
    met.expect([Found, GaveUp].map(|result| (result, 1_500)));
    let reasons = (TEXT_TOO_LONG..=OUT_OF_RANGE).chain([BLANK_LINE]);
    met.expect(reasons.map(|reason| (Refused(reason), 10)));
    met.expect((1..=4).map(|line| (SheetLine(SHEET_FORM, line), 500)));
    met.expect([(SheetLine(SHEET_FORM, 5), 150)]);
    met.expect((1..=4).map(|line| (SheetLine(OUT_OF_RANGE, line), 20)));
    met.expect([(NoneChosen, 5), (SomeChosen, 1_000)]);
    met.expect([(OneTerm, 30), (SomeTerms, 1_000), (HundredsOfTerms, 100)]);
    met.expect([(OneWalk, 1_000), (SeveralWalks, 100)]);
    met.expect([(NoFlip, 100), (SomeFlips, 1_000)]);
}

/// Each twice, with seeds of its own, so that the first values differ.
#[test]
fn every_text_of_up_to_four_bytes_out_of_five_is_run_as_the_independent_program_runs_it() {
    let mut runs = Runs::start();
    let mut met = Tally::default();
    let lengths = [0, 1, 2, 3, 4].repeat(2).into_iter();
    let texts = lengths.flat_map(|length| texts_over(b"ab~ \n", length));
    for (seed, text) in (1..).zip(texts) {
        let sheet = good_sheet(&Order { seed, ..ORDER });
        note_printed(&runs.run(&[sheet, text].concat()), &mut met);
    }
    met.expect([
        (Found, 400),
        (GaveUp, 4),
        (Refused(4), 200),
        (Refused(9), 100),
        (Refused(BLANK_LINE), 500),
    ]);
    met.expect([(OneTerm, 100), (NoneChosen, 50), (SomeChosen, 100)]);
}

//! Texts with a byte changed, put in or taken out, and texts cut, at every place.

use boundary::texts::{at_every_place, spliced, taken_out_and_turned_round, then};
use boundary::{Readings, NARROW};
use oracle::generate::limit_texts::text_full_of_all;
use oracle::generate::Random;
use oracle::reasons::*;

/// Lines of every form: kept, dropped in both ways, and comments, with repeats, runs of spaces, and names of one and eight bytes.
const FORMS: [&[u8]; 3] = [
    b"a b ~c\n~a  bb\n ~ note\nc ~c x\n~\nabcdefgh ~abcdefg\nd d a\n",
    b"~ x\n~! ~}\n ! ~ y\n} ~ABCDEFGH abcdefgh \n! !\n",
    b"one two\n~one three\n~two ~three one\n",
];

/// Short enough for every byte at every place.
const SHORT: [&[u8]; 2] = [b"a ~b a\nc\n", b"~ b\n~a c\n"];

/// A tab, the two that close a name, the ends of a name's bytes, those past them, the ends of all bytes, and a letter.
const BYTES: [u8; 10] = [9, 10, 32, 33, 125, 126, 127, 0, 255, b'a'];

#[test]
fn a_byte_changed_at_every_place() {
    let texts = at_every_place(&FORMS, |text, place| {
        BYTES.map(|byte| spliced(text, place, 1, &[byte])).into()
    });
    let met = Readings::start("a byte changed").reasons_of(&texts);
    let reasons = [NONE, TEXT_CUT, BYTE_NOT_ALLOWED, NINTH_BYTE, BLANK_LINE];
    assert_eq!(met, reasons.into());
}

#[test]
fn a_byte_put_in_at_every_place() {
    let texts = at_every_place(&FORMS, |text, place| {
        BYTES.map(|byte| spliced(text, place, 0, &[byte])).into()
    });
    let met = Readings::start("a byte put in").reasons_of(&texts);
    let reasons = [NONE, BYTE_NOT_ALLOWED, NINTH_BYTE, BLANK_LINE];
    assert_eq!(met, reasons.into());
}

#[test]
fn a_byte_taken_out_and_two_turned_round_at_every_place() {
    let texts = at_every_place(&FORMS, taken_out_and_turned_round);
    let met = Readings::start("a byte taken out, or two turned round").reasons_of(&texts);
    let reasons = [NONE, TEXT_CUT, BYTE_NOT_ALLOWED, NINTH_BYTE, BLANK_LINE];
    assert_eq!(met, reasons.into());
}

#[test]
fn texts_cut_at_every_place_and_closed_there() {
    let texts = at_every_place(&FORMS, |text, place| {
        let cut = &text[..place];
        vec![cut.to_vec(), then(cut, b"\n")]
    });
    let met = Readings::start("cut").reasons_of(&texts);
    assert_eq!(met, [NONE, TEXT_CUT, NO_CLAUSE, BLANK_LINE].into());
}

#[test]
fn every_byte_at_every_place_of_short_texts() {
    let texts = at_every_place(&SHORT, |text, place| {
        let bytes = 0..=255;
        bytes.map(|byte| spliced(text, place, 1, &[byte])).collect()
    });
    let met = Readings::start("every byte").reasons_of(&texts);
    let reasons = [NONE, TEXT_CUT, BYTE_NOT_ALLOWED, NO_CLAUSE, BLANK_LINE];
    assert_eq!(met, reasons.into());
}

#[test]
fn every_byte_after_a_name_of_eight() {
    let mut readings = Readings::start("after a name of eight");
    for byte in 0..=255 {
        let text = [b"kept\nabcdefgh", &[byte][..], b"\n"].concat();
        match byte {
            b' ' => assert_eq!(readings.accept(&text).clauses, 2),
            b'\n' => readings.refuse(&text, BLANK_LINE, 3),
            33..=125 => readings.refuse(&text, NINTH_BYTE, 2),
            _ => readings.refuse(&text, BYTE_NOT_ALLOWED, 2),
        }
    }
}

#[test]
fn every_byte_after_a_tilde() {
    let mut readings = Readings::start("after a tilde");
    for byte in 0..=255 {
        let text = [b"kept\n~", &[byte][..], b"\n"].concat();
        match byte {
            b' ' => assert_eq!(readings.accept(&text).clauses, 1),
            b'\n' => readings.refuse(&text, BLANK_LINE, 3),
            33..=125 => assert_eq!(readings.accept(&text).clauses, 2),
            _ => readings.refuse(&text, BYTE_NOT_ALLOWED, 2),
        }
    }
}

#[test]
fn a_text_full_to_the_limits_with_a_byte_changed() {
    let random = &mut Random::new(3);
    let full = text_full_of_all(&NARROW, random);
    let last = full.len() - 1;
    let between = (0..60).map(|_| random.between(0, last));
    let places = between.chain([0, 1, last - 1, last]);
    let changes = places
        .flat_map(|place| [place; 4])
        .zip(BYTES.iter().cycle());
    let texts: Vec<_> = changes
        .map(|(place, byte)| spliced(&full, place, 1, &[*byte]))
        .collect();
    let met = Readings::start("full").reasons_of(&texts);
    let some = [NONE, TEXT_CUT, BYTE_NOT_ALLOWED, TOO_MANY_CLAUSES];
    assert!(met.is_superset(&some.into()), "{met:?}");
}

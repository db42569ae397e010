//! Numbered texts with a byte changed, put in or taken out, and texts cut, at every place.

use boundary::texts::{at_every_place, spliced, taken_out_and_turned_round, then};
use boundary::{Readings, NARROW};
use oracle::generate::{numbered_text_of, NumberedKind, Random};
use oracle::reasons::*;

/// Texts of every form: with comments, clauses across lines, runs of gaps, repeats, dropped clauses and numbers of several digits.
const FORMS: [&[u8]; 3] = [
    b"c a comment\nc\np cnf 12 4\n1 -2 0\n12 -11 3 0\n1 -1 2 0 2\n2 -3\n0\n",
    b"p\tcnf  3 3\n\n1\t2 0 -3 \n\n-1 0\t\n 3 3 1 0\n\n",
    b"p cnf 2048 2\n2048 -100 0\n-2048 7 0\n",
];

/// Short enough for every byte at every place.
const SHORT: [&[u8]; 2] = [b"p cnf 2 2\n1 -2 0\n2 0\n", b"c\np cnf 1 2\n-1 1 0 1\n0\n"];

/// The gaps, the ends of the digits and the bytes beside them, the sign, the ends of all bytes, and what files from elsewhere have.
const BYTES: [u8; 14] = [
    9, 10, 13, 32, b'/', b'0', b'1', b'9', b':', b'-', b'%', b'c', 0, 255,
];

fn reasons_of(case: &str, texts: &[Vec<u8>]) -> Vec<u64> {
    let met = Readings::start_numbered(case).reasons_of(texts);
    met.into_iter().collect()
}

#[test]
fn a_byte_changed_at_every_place() {
    let texts = at_every_place(&FORMS, |text, place| {
        BYTES.map(|byte| spliced(text, place, 1, &[byte])).into()
    });
    let reasons = [
        NONE,
        TEXT_CUT,
        BYTE_NOT_ALLOWED,
        TOO_MANY_TERMS,
        BLANK_LINE,
        HEADER_FORM,
        CLAUSE_COUNT,
        PAST_HEADER,
    ];
    assert_eq!(reasons_of("a byte changed", &texts), reasons);
}

#[test]
fn a_byte_put_in_at_every_place() {
    let texts = at_every_place(&FORMS, |text, place| {
        BYTES.map(|byte| spliced(text, place, 0, &[byte])).into()
    });
    let reasons = [
        NONE,
        BYTE_NOT_ALLOWED,
        TOO_MANY_TERMS,
        BLANK_LINE,
        HEADER_FORM,
        CLAUSE_COUNT,
        PAST_HEADER,
    ];
    assert_eq!(reasons_of("a byte put in", &texts), reasons);
}

#[test]
fn a_byte_taken_out_and_two_turned_round_at_every_place() {
    let texts = at_every_place(&FORMS, taken_out_and_turned_round);
    let reasons = [
        NONE,
        TEXT_CUT,
        BYTE_NOT_ALLOWED,
        TOO_MANY_TERMS,
        HEADER_FORM,
        CLAUSE_COUNT,
        PAST_HEADER,
    ];
    assert_eq!(
        reasons_of("a byte taken out, or two turned round", &texts),
        reasons
    );
}

#[test]
fn texts_cut_at_every_place_and_closed_there() {
    let texts = at_every_place(&FORMS, |text, place| {
        let cut = &text[..place];
        vec![cut.to_vec(), then(cut, b"\n")]
    });
    let reasons = [NONE, TEXT_CUT, BYTE_NOT_ALLOWED, HEADER_FORM, CLAUSE_COUNT];
    assert_eq!(reasons_of("cut", &texts), reasons);
}

#[test]
fn every_byte_at_every_place_of_short_texts() {
    let texts = at_every_place(&SHORT, |text, place| {
        let bytes = 0..=255;
        bytes.map(|byte| spliced(text, place, 1, &[byte])).collect()
    });
    let reasons = [
        NONE,
        TEXT_CUT,
        BYTE_NOT_ALLOWED,
        BLANK_LINE,
        HEADER_FORM,
        CLAUSE_COUNT,
        PAST_HEADER,
    ];
    assert_eq!(reasons_of("every byte", &texts), reasons);
}

/// A text with some of its bytes changed, one in each; the counts of its header and its end among them.
fn changed_here_and_there(text: &[u8], random: &mut Random) -> Vec<Vec<u8>> {
    let last = text.len() - 1;
    let between = (0..240).map(|_| random.between(0, last));
    let places: Vec<usize> = between.chain([0, 6, 8, 11, last - 1, last]).collect();
    let changes = places.into_iter().zip(BYTES.iter().cycle());
    changes
        .map(|(place, byte)| spliced(text, place, 1, &[*byte]))
        .collect()
}

#[test]
fn texts_full_to_a_limit_with_a_byte_changed() {
    let random = &mut Random::new(3);
    for kind in [NumberedKind::ClausesAtLimit, NumberedKind::LiteralsAtLimit] {
        let text = numbered_text_of(kind, &NARROW, random);
        let met = reasons_of("full", &changed_here_and_there(&text, random));
        let some = [NONE, BYTE_NOT_ALLOWED, HEADER_FORM, CLAUSE_COUNT];
        assert!(some.iter().all(|reason| met.contains(reason)), "{met:?}");
    }
}

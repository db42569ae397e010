//! The examples of document 01 and its points that are easy to get wrong, one by one.

use boundary::differences::begins;
use boundary::texts::{last_line, then};
use boundary::{Readings, NARROW};
use oracle::generate::limit_texts::*;
use oracle::generate::Random;
use oracle::reader::pack;
use oracle::reasons::*;
use oracle::Counts;

/// Terms, clauses, literals, uncovered.
fn counts(terms: u64, clauses: u64, literals: u64, uncovered: u64) -> Counts {
    Counts {
        terms,
        clauses,
        literals,
        uncovered,
    }
}

/// Reads each text, which must hold so much.
fn accept_each(readings: &mut Readings, cases: &[(&str, Counts)]) {
    for (text, counts) in cases {
        assert_eq!(readings.accept(text.as_bytes()), *counts, "{text:?}");
    }
}

/// Reads each text, which must be refused so.
fn refuse_each(readings: &mut Readings, cases: &[(&str, u64, u64)]) {
    for (text, reason, line) in cases {
        readings.refuse(text.as_bytes(), *reason, *line);
    }
}

#[test]
fn the_examples_of_the_document() {
    let readings = &mut Readings::start("examples");
    accept_each(
        readings,
        &[
            ("a b\n~a b\n", counts(2, 2, 4, 1)),
            ("a\n~a\n", counts(1, 2, 2, 1)),
            ("a a\n", counts(1, 1, 1, 1)),
            ("a ~a\nb\n", counts(2, 1, 1, 1)),
            ("abcdefgh\n", counts(1, 1, 1, 1)),
        ],
    );
    refuse_each(
        readings,
        &[
            ("~ note\n", NO_CLAUSE, 0),
            ("", NO_CLAUSE, 0),
            ("abcdefghi\n", NINTH_BYTE, 1),
            ("a~b\n", BYTE_NOT_ALLOWED, 1),
            ("a", TEXT_CUT, 0),
            ("\n", BLANK_LINE, 1),
            ("a\n\n", BLANK_LINE, 2),
            ("a ~ \t\n", NO_CLAUSE, 0),
            ("a ~\t\n", BYTE_NOT_ALLOWED, 1),
        ],
    );
}

#[test]
fn point_1_a_cut_text_is_reason_3_whatever_stands_in_it() {
    let readings = &mut Readings::start("cut");
    let short = ["a", "~", "a ", "~ ", " ", "\t", "~~", "a\n\n ", "a\n~b"];
    for text in short.into_iter().chain(["a\tb", "abcdefghi"]) {
        readings.refuse(text.as_bytes(), TEXT_CUT, 0);
    }
    let mut full = text_full_of_all(&NARROW, &mut Random::new(1));
    full.pop();
    readings.refuse(&full, TEXT_CUT, 0);
}

#[test]
fn point_2_what_follows_eight_bytes_or_a_tilde() {
    let readings = &mut Readings::start("bytes after");
    refuse_each(
        readings,
        &[
            ("abcdefgh~\n", BYTE_NOT_ALLOWED, 1),
            ("abcdefgh\x7f\n", BYTE_NOT_ALLOWED, 1),
            ("abcdefgh\0\n", BYTE_NOT_ALLOWED, 1),
            ("~abcdefghi\n", NINTH_BYTE, 1),
            ("~~\n", BYTE_NOT_ALLOWED, 1),
            ("~~a\n", BYTE_NOT_ALLOWED, 1),
            ("~\t\n", BYTE_NOT_ALLOWED, 1),
            ("a\n~\x7f\n", BYTE_NOT_ALLOWED, 2),
        ],
    );
    accept_each(
        readings,
        &[
            ("~abcdefgh\n", counts(1, 1, 1, 0)),
            ("!!!!!!!! }}}}}}}}\n", counts(2, 1, 2, 1)),
        ],
    );
}

#[test]
fn point_3_the_byte_after_a_literal_is_judged_before_it_drops_or_is_skipped() {
    let readings = &mut Readings::start("byte after");
    refuse_each(
        readings,
        &[
            ("a a\t\nb\n", BYTE_NOT_ALLOWED, 1),
            ("a ~a\t\nb\n", BYTE_NOT_ALLOWED, 1),
            ("b\n~a a~\n", BYTE_NOT_ALLOWED, 2),
            ("b\n~a ~a\0\n", BYTE_NOT_ALLOWED, 2),
        ],
    );
    accept_each(
        readings,
        &[
            ("a ~a \t\nb\n", counts(2, 1, 1, 1)),
            ("a ~a abcdefghi ~~\nb\n", counts(2, 1, 1, 1)),
            ("~ \0 \nb\n", counts(1, 1, 1, 1)),
        ],
    );
}

#[test]
fn point_4_the_terms_of_a_dropped_line_stay_known_up_to_the_drop() {
    let readings = &mut Readings::start("dropped");
    let cases: [(&str, Counts, &[&str]); 6] = [
        ("a ~ b\nc\n", counts(2, 1, 1, 1), &["a", "c"]),
        ("a ~a b\nc\n", counts(2, 1, 1, 1), &["a", "c"]),
        ("a b ~\nb c\n", counts(3, 1, 2, 1), &["a", "b", "c"]),
        ("a b ~a x\nc ~b\n", counts(3, 1, 2, 0), &["a", "b", "c"]),
        ("a b c ~b\nc a\n~c\n", counts(3, 2, 3, 1), &["a", "b", "c"]),
        ("c\nb a ~b\n", counts(3, 1, 1, 1), &["c", "b", "a"]),
    ];
    for (text, counts, names) in cases {
        assert_eq!(readings.accept(text.as_bytes()), counts, "{text:?}");
        let packed = names.iter().map(|name| pack(name.as_bytes()));
        let expected: Vec<u64> = packed.chain([0]).collect();
        begins(&readings.sides.tables.names, &expected);
    }
}

/// A text that is full, with lines to put after it; ! and " are known there, newterm1 not.
struct Full<'a> {
    readings: &'a mut Readings,
    text: Vec<u8>,
}

impl Full<'_> {
    fn accepts(&mut self, lines: &[&str]) {
        for lines in lines {
            self.readings.accept(&then(&self.text, lines.as_bytes()));
        }
    }

    /// The fault stands in the last line.
    fn refuses(&mut self, lines: &[&str], reason: u64) {
        for lines in lines {
            let text = then(&self.text, lines.as_bytes());
            self.readings.refuse(&text, reason, last_line(&text));
        }
    }
}

/// Tries some texts of this making.
fn try_full(make: impl Fn(&mut Random) -> Vec<u8>, tried: impl Fn(Full)) {
    let mut readings = Readings::start("full");
    for seed in 0..4 {
        tried(Full {
            text: make(&mut Random::new(seed)),
            readings: &mut readings,
        });
    }
}

#[test]
fn point_5_with_16_383_literals_held() {
    let make = |random: &mut Random| text_of_literals(NARROW.literals - 1, &NARROW, random);
    try_full(make, |mut full| {
        full.accepts(&["! ~!\n", "! ! ~!\n", "~! ~! ! \"\n", "! ~ \"\n"]);
        full.refuses(&["! \" ~!\n", "! \"\n", "! newterm1\n"], TOO_MANY_LITERALS);
        full.accepts(&["! ~!\n\" ~\"\n!\n"]);
        full.refuses(&["! ~!\n\" ~\"\n!\n\"\n"], TOO_MANY_LITERALS);
    });
}

#[test]
fn point_5_with_16_384_literals_held() {
    let make = |random: &mut Random| text_of_literals(NARROW.literals, &NARROW, random);
    try_full(make, |mut full| {
        full.accepts(&["~ x\n", "~\n", "~\n  ~\n"]);
        full.refuses(&["! !\n", "! ~!\n", "~ x\n~\n! ~\n"], TOO_MANY_LITERALS);
        full.refuses(&["newterm1 ~\n"], TOO_MANY_LITERALS);
        full.refuses(&["\n", "~ x\n  \n"], BLANK_LINE);
    });
}

#[test]
fn point_5_with_2_048_terms_known() {
    let make = |random: &mut Random| text_of_terms(NARROW.terms, &NARROW, random);
    try_full(make, |mut full| {
        full.accepts(&["! ~ newterm1\n", "! ~! newterm1\n", "~ newterm1\n"]);
        full.refuses(&["newterm1 ~\n", "! newterm1 ~!\n"], TOO_MANY_TERMS);
        full.refuses(&["newterm1\t\n"], BYTE_NOT_ALLOWED);
    });
}

#[test]
fn point_6_reason_6_before_7_where_both_are_full() {
    let make = |random: &mut Random| text_full_of_terms_and_literals(&NARROW, random);
    try_full(make, |mut full| {
        full.refuses(&["newterm1\n", "~newterm1 ~\n"], TOO_MANY_TERMS);
        full.refuses(&["!\n", "~! newterm1\n"], TOO_MANY_LITERALS);
        full.refuses(&["!\t\n", "newterm1~\n"], BYTE_NOT_ALLOWED);
        full.refuses(&["newterm12\n"], NINTH_BYTE);
    });
}

#[test]
fn point_6_reason_8_only_at_the_end_of_a_kept_line() {
    let make = |random: &mut Random| text_of_clauses(NARROW.clauses, &NARROW, random);
    try_full(make, |mut full| {
        full.accepts(&["! ~!\n", "! newterm1 ~\n", "~\n   ~\n~ !\n"]);
        full.refuses(&["!\t\n"], BYTE_NOT_ALLOWED);
        full.refuses(&["! abcdefghi\n"], NINTH_BYTE);
        full.refuses(&["!\n", "~\n! ~!\n! newterm1  \n"], TOO_MANY_CLAUSES);
        full.refuses(&["\n", "! ~!\n   \n"], BLANK_LINE);
    });
}

#[test]
fn point_7_reason_9_after_terms_were_met_leaves_zeros() {
    let readings = &mut Readings::start("nothing kept");
    for text in ["a ~a\n", "a ~\nb c ~ d\n", "~a b a \t\n~ \n~\n"] {
        readings.refuse(text.as_bytes(), NO_CLAUSE, 0);
        assert_eq!(readings.sides.tables.names[..NARROW.terms], [0; 2_048]);
    }
}

#[test]
fn point_8_places_count_from_0() {
    let readings = &mut Readings::start("places");
    assert_eq!(readings.accept(b"a\n~b\nc\n"), counts(3, 3, 3, 2));
    let tables = &readings.sides.tables;
    begins(&tables.values, &[0, 0]);
    begins(&tables.trues, &[0, 1, 0, 0]);
    begins(&tables.breaks, &[0, 1, 0, 0]);
    begins(&tables.uncovered, &[0, 2, 0]);
    begins(&tables.places, &[0, 0, 1, 0]);
}

#[test]
fn point_9_starts_past_the_last_are_0_and_occurrences_rise() {
    let readings = &mut Readings::start("starts");
    assert_eq!(readings.accept(b"b a\na\n~b a\n"), counts(2, 3, 5, 2));
    let tables = &readings.sides.tables;
    begins(&tables.names, &[98, 97, 0]);
    begins(&tables.starts, &[0, 2, 3, 5, 0, 0]);
    begins(&tables.literals, &[0, 2, 2, 1, 2, 0]);
    begins(&tables.occurrence_starts, &[0, 1, 2, 5, 5, 0, 0]);
    begins(&tables.occurrences, &[0, 2, 0, 1, 2, 0]);
}

#[test]
fn point_32_a_blank_line_is_met_at_its_end_and_a_dropped_line_is_none() {
    let readings = &mut Readings::start("blank lines");
    refuse_each(
        readings,
        &[
            ("  \n", BLANK_LINE, 1),
            ("a\n  \t\n", BYTE_NOT_ALLOWED, 2),
            ("a\n\nb", TEXT_CUT, 0),
            ("a ~a\n\n", BLANK_LINE, 2),
            ("a\nb ~ \t\n \nabcdefghi\n", BLANK_LINE, 3),
        ],
    );
    let dropped = "~\n~ \n  ~\nb ~b \n~b b  \na\n";
    accept_each(readings, &[(dropped, counts(2, 1, 1, 1))]);
}

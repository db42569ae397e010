//! Numbered texts of every kind that the generator knows, every short one after a header, and headers of every form.

use boundary::tally::share_out;
use boundary::texts::texts_over;
use boundary::{Readings, Tally, NARROW};
use oracle::generate::*;
use oracle::reasons::*;

/// Texts of each kind far from the limits, and of each that meets one.
const SMALL_TEXTS: u64 = 720;
const LIMIT_TEXTS: u64 = 320;

/// Each reason of a text is met so often.
const EACH_REASON: u64 = 300;

/// Every kind with the number of its texts.
fn kinds() -> impl Iterator<Item = (NumberedKind, u64)> {
    let small = NumberedKind::VALID.into_iter().chain(NumberedKind::FAULTY);
    let limit = NumberedKind::AT_LIMITS.map(|kind| (kind, LIMIT_TEXTS));
    small.map(|kind| (kind, SMALL_TEXTS)).chain(limit)
}

/// Reads the texts of these seeds; counts each reason, and whether it had a line.
fn compare_files(seeds: &[u64]) -> Tally<(u64, bool)> {
    let mut readings = Readings::start_numbered("");
    let mut met = Tally::default();
    for (kind, texts) in kinds() {
        for seed in seeds.iter().filter(|seed| **seed < texts) {
            let text = numbered_text_of(kind, &NARROW, &mut Random::new(*seed));
            let answer = readings.of(format!("{kind:?}, seed {seed}")).read(&text);
            met.note((answer.reason, answer.line > 0));
        }
    }
    met
}

#[test]
fn twenty_thousand_texts_of_every_kind_are_read_as_the_independent_program_reads_them() {
    let met = share_out(SMALL_TEXTS, compare_files);
    assert!(met.total() >= 20_000, "{met:?}");
    met.expect([((NONE, false), 7_000)]);
    let without_line = [
        TEXT_TOO_LONG,
        TEXT_CUT,
        NO_CLAUSE,
        HEADER_FORM,
        CLAUSE_COUNT,
    ];
    let with_line = [
        BYTE_NOT_ALLOWED,
        TOO_MANY_TERMS,
        TOO_MANY_LITERALS,
        TOO_MANY_CLAUSES,
        BLANK_LINE,
        HEADER_FORM,
        CLAUSE_COUNT,
        PAST_HEADER,
    ];
    met.expect(without_line.map(|reason| ((reason, false), EACH_REASON)));
    met.expect(with_line.map(|reason| ((reason, true), EACH_REASON)));
    assert_eq!(
        met.kinds().len(),
        1 + without_line.len() + with_line.len(),
        "{met}"
    );
}

#[test]
fn every_text_of_up_to_five_bytes_out_of_six_after_a_header() {
    let mut readings = Readings::start_numbered("short texts");
    let mut met = Tally::default();
    for text in (0..=5).flat_map(|length| texts_over(b"120- \n", length)) {
        let text = [b"p cnf 1 1\n", &text[..]].concat();
        met.note(readings.read(&text).reason);
    }
    assert_eq!(met.total(), 9_331);
    let reasons = [
        NONE,
        BYTE_NOT_ALLOWED,
        BLANK_LINE,
        CLAUSE_COUNT,
        PAST_HEADER,
    ];
    assert_eq!(met.kinds(), reasons);
}

/// The parts of a header one after the other: first what may stand there, then other things, of which some may too.
const PARTS: [&[&str]; 9] = [
    &["", " ", "\t", "c", "\n", "c\n"],
    &["p", "P", "", "pp", "q"],
    &[" ", "\t", " \t ", "", "\n", "\r", "\0", "\u{b}"],
    &["cnf", "CNF", "cn", "cnff", ""],
    &[" ", "\t", " \t ", "", "\n", "\r"],
    &[
        "2",
        "0",
        "02",
        "-2",
        "+2",
        "",
        "x",
        "2048",
        "2049",
        "9999999999",
        "10000000000",
    ],
    &[" ", "\t", " \t ", "", "\n", "\r"],
    &[
        "1",
        "0",
        "01",
        "-1",
        "+1",
        "",
        "x",
        "8193",
        "4294967297",
        "9999999999",
        "10000000000",
    ],
    &["", " ", "\t", "\r", " 0", "\n", "\0"],
];

/// The good header with these two parts in the places of its own.
fn header_with(one: (usize, &str), other: (usize, &str)) -> String {
    let mut parts = PARTS.map(|part| part[0]);
    parts[one.0] = one.1;
    parts[other.0] = other.1;
    parts.concat()
}

/// All that come of the good header by changing one part or two, itself among them.
fn headers() -> Vec<String> {
    let places = 0..PARTS.len();
    let parts = places.flat_map(|place| PARTS[place].iter().map(move |part| (place, *part)));
    let parts: Vec<(usize, &str)> = parts.collect();
    let with_each = |one| parts.iter().map(move |other| header_with(one, *other));
    parts.iter().flat_map(|one| with_each(*one)).collect()
}

#[test]
fn headers_with_any_two_of_their_parts_changed() {
    let mut readings = Readings::start_numbered("headers");
    let mut met = Tally::default();
    for header in headers() {
        let text = format!("{header}\n1 0\n");
        met.note(readings.read(text.as_bytes()).reason);
    }
    let reasons = [NONE, TOO_MANY_TERMS, HEADER_FORM, CLAUSE_COUNT, PAST_HEADER];
    assert_eq!(met.kinds(), reasons, "{met}");
    met.expect(reasons.map(|reason| (reason, 50)));
}

/// No fault stands on a later line: the header and the fault take twelve bytes, each line between them one.
#[test]
fn lines_are_counted_up_to_the_highest_that_a_fault_can_have() {
    let mut readings = Readings::start_numbered("empty lines");
    for between in [0, 1, 254, 255, 256, 32_765, 32_766, 65_524] {
        let text = [b"p cnf 0 0\n", &b"\n".repeat(between)[..], b"x\n"].concat();
        readings.refuse(&text, BYTE_NOT_ALLOWED, between as u64 + 2);
    }
}

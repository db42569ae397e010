//! Texts of every kind that the generator knows, and every short text.

use boundary::tally::share_out;
use boundary::texts::texts_over;
use boundary::{Readings, Tally, NARROW};
use oracle::generate::*;
use oracle::reasons::{BLANK_LINE, BYTE_NOT_ALLOWED, NONE, NO_CLAUSE, TEXT_TOO_LONG};

/// Texts of each kind far from the limits, and of each that meets one.
const SMALL_TEXTS: u64 = 640;
const LIMIT_TEXTS: u64 = 120;

/// Every kind with the number of its texts.
fn kinds() -> impl Iterator<Item = (TextKind, u64)> {
    let valid = ValidKind::ALL.map(TextKind::Valid).into_iter();
    let small = valid.chain(TextKind::FAULTY);
    let limit = TextKind::AT_LIMITS.map(|kind| (kind, LIMIT_TEXTS));
    small.map(|kind| (kind, SMALL_TEXTS)).chain(limit)
}

/// Reads the texts of these seeds; counts each reason.
fn compare_files(seeds: &[u64]) -> Tally<u64> {
    let mut readings = Readings::start("");
    let mut met = Tally::default();
    for (kind, texts) in kinds() {
        for seed in seeds.iter().filter(|seed| **seed < texts) {
            let text = clause_text_of(kind, &NARROW, &mut Random::new(*seed));
            let answer = readings.of(format!("{kind:?}, seed {seed}")).read(&text);
            met.note(answer.reason);
        }
    }
    met
}

#[test]
fn twenty_thousand_texts_of_every_kind_are_read_as_the_independent_program_reads_them() {
    let met = share_out(SMALL_TEXTS, compare_files);
    assert!(met.total() >= 20_000, "{met:?}");
    met.expect([(NONE, 10_000)]);
    let reasons = (TEXT_TOO_LONG..=NO_CLAUSE).chain([BLANK_LINE]);
    met.expect(reasons.map(|reason| (reason, 100)));
}

#[test]
fn every_text_of_up_to_five_bytes_out_of_five_is_read_as_the_independent_program_reads_it() {
    let mut readings = Readings::start("short texts");
    let mut met = Tally::default();
    for text in (0..=5).flat_map(|length| texts_over(b"ab~ \n", length)) {
        met.note(readings.read(&text).reason);
    }
    assert_eq!(met.total(), 3_906);
    assert_eq!(met.kinds(), [NONE, BYTE_NOT_ALLOWED, NO_CLAUSE, BLANK_LINE]);
}

//! The reader and the cursor that it is thin over, told what to do step by step.

use boundary::scanners::case_of;
use boundary::tally::share_out;
use boundary::texts::texts_over;
use boundary::{Scanners, Tally, NARROW};
use oracle::generate::{reader_case, Random, ReaderCase};
use oracle::reader::{pack, ReaderStep, Row};
use oracle::reasons::{BYTE_NOT_ALLOWED, NINTH_BYTE, NONE, TEXT_CUT};

/// The kinds of what is told.
const FAULT: u64 = 0;
const LITERAL: u64 = 1;
const TRUE: u64 = 2;
const LINE_END: u64 = 3;
const TEXT_END: u64 = 4;

const LAST: u64 = u64::MAX;

/// What a step told beside a literal, and the place and the line where reading goes on.
fn told(kind: u64, reason: u64, line: u64, at: u64, below: u64) -> Row {
    [kind, reason, line, 0, 0, at, below]
}

fn literal(name: &str, negated: u64, line: u64, at: u64) -> Row {
    let name = pack(name.as_bytes());
    [LITERAL, NONE, line, name, negated, at, line]
}

/// Passing tells nothing.
fn passed(at: u64, line: u64) -> Row {
    told(0, NONE, 0, at, line)
}

fn expect(text: &str, script: &str, rows: &[Row]) {
    let case = case_of(text.as_bytes(), script);
    assert_eq!(Scanners::start().follow(&case), rows, "{text:?}");
}

/// The same from a place and a line made by hand.
fn expect_from(at: usize, line: u64, text: &str, script: &str, rows: &[Row]) {
    let begun = case_of(text.as_bytes(), script);
    let case = ReaderCase { at, line, ..begun };
    assert_eq!(Scanners::start().follow(&case), rows, "{text:?}");
}

#[test]
fn point_12_literals_true_and_both_ends_are_told_with_their_lines() {
    let rows = [
        literal("a", 0, 1, 1),
        literal("bcdefghi", 1, 1, 11),
        told(LINE_END, NONE, 1, 13, 2),
        told(TRUE, NONE, 2, 16, 2),
        told(LINE_END, NONE, 2, 17, 3),
        told(TEXT_END, NONE, 3, 17, 3),
        told(TEXT_END, NONE, 3, 17, 3),
    ];
    expect("a ~bcdefghi \n~ \t\n", "nnnnnnn", &rows);
}

#[test]
fn point_11_a_fault_repeats_until_it_is_passed_and_its_lines_end_is_told_then() {
    let rows = [
        told(FAULT, BYTE_NOT_ALLOWED, 1, 0, 1),
        told(FAULT, BYTE_NOT_ALLOWED, 1, 0, 1),
        passed(1, 1),
        told(LINE_END, NONE, 1, 2, 2),
        told(TEXT_END, NONE, 2, 2, 2),
    ];
    expect("\t\n", "nnpnn", &rows);
}

#[test]
fn point_11_after_a_fault_the_reader_stands_where_it_stood_before_the_spaces() {
    let rows = [
        literal("a", 0, 1, 1),
        told(FAULT, BYTE_NOT_ALLOWED, 1, 1, 1),
        passed(6, 1),
        told(LINE_END, NONE, 1, 7, 2),
    ];
    expect("a  ~~b\n", "nnpn", &rows);
}

#[test]
fn point_13_true_is_told_before_the_cut() {
    let cut = told(FAULT, TEXT_CUT, 1, 2, 1);
    let rows = [told(TRUE, NONE, 1, 2, 1), cut, passed(2, 1), cut];
    expect("~ ", "nnpn", &rows);
}

#[test]
fn point_13_nine_bytes_cut_are_reason_5_and_once_passed_reason_3() {
    let rows = [
        told(FAULT, NINTH_BYTE, 1, 0, 1),
        passed(9, 1),
        told(FAULT, TEXT_CUT, 1, 9, 1),
    ];
    expect("abcdefghi", "npn", &rows);
}

#[test]
fn point_11_passing_at_the_texts_end_changes_nothing() {
    let end = told(TEXT_END, NONE, 2, 1, 2);
    let rows = [told(LINE_END, NONE, 1, 1, 2), end, passed(1, 2), end];
    expect("\n", "nnpn", &rows);
}

#[test]
fn point_12_an_empty_text_has_its_end_on_line_1() {
    let end = told(TEXT_END, NONE, 1, 0, 1);
    expect("", "nnpn", &[end, end, passed(0, 1), end]);
}

#[test]
fn point_12_a_place_past_the_end_is_the_end() {
    let end = told(TEXT_END, NONE, 7, LAST, 7);
    let rows = [end, passed(LAST, 7), end];
    expect_from(usize::MAX, 7, "a\n", "npn", &rows);
    let cut = told(FAULT, TEXT_CUT, 7, 3, 7);
    expect_from(3, 7, "a", "npn", &[cut, passed(3, 7), cut]);
}

#[test]
fn point_12_the_highest_line_is_not_left() {
    let rows = [
        told(LINE_END, NONE, LAST - 1, 1, LAST),
        told(LINE_END, NONE, LAST, 2, LAST),
        told(TEXT_END, NONE, LAST, 2, LAST),
    ];
    expect_from(0, LAST - 1, "\n\n", "nnn", &rows);
}

#[test]
fn point_10_after_true_and_after_passing_the_lines_end_is_told() {
    let rows = [
        told(TRUE, NONE, 1, 3, 1),
        told(LINE_END, NONE, 1, 4, 2),
        literal("a", 0, 2, 5),
        passed(7, 2),
        told(LINE_END, NONE, 2, 8, 3),
    ];
    expect("~ \t\na \t\n", "nnnpn", &rows);
}

#[test]
fn point_11_passing_right_after_a_lines_end_passes_the_next_line() {
    let rows = [
        told(LINE_END, NONE, 1, 1, 2),
        passed(2, 2),
        told(LINE_END, NONE, 2, 3, 3),
        literal("b", 0, 3, 4),
    ];
    expect("\na\nb\n", "npnn", &rows);
}

#[test]
fn point_14_a_text_of_any_length_is_read() {
    let spaces = " ".repeat(NARROW.text);
    let place = NARROW.text as u64 + 1;
    expect(&(spaces + "a\n"), "n", &[literal("a", 0, 1, place)]);
}

/// With its last byte 10 and without.
#[test]
fn every_text_of_up_to_four_bytes_out_of_six_is_told_as_the_independent_reader_tells_it() {
    let mut scanners = Scanners::start();
    let mut followed = 0;
    for ended in (0..=4).flat_map(|length| texts_over(b"ab~ \n\t", length)) {
        for text in [&ended[..], &ended[..ended.len() - 1]] {
            for script in ["nnnnnn", "npnpnpn"] {
                scanners.follow(&case_of(text, script));
                followed += 1;
            }
        }
    }
    assert_eq!(followed, 4 * 1_555);
}

/// Follows the cases of these seeds; counts what was told, and before what was passed.
fn compare_cases(seeds: &[u64]) -> Tally<(Option<ReaderStep>, u64, u64)> {
    let mut scanners = Scanners::start();
    let mut met = Tally::default();
    for seed in seeds {
        let case = reader_case(&mut Random::new(*seed));
        let rows = scanners.follow(&case);
        let before = [None]
            .into_iter()
            .chain(case.script.iter().copied().map(Some));
        for ((before, step), [kind, reason, ..]) in before.zip(&case.script).zip(rows) {
            if *step == ReaderStep::Next {
                met.note((before, kind, reason));
            }
        }
    }
    met
}

#[test]
fn twenty_thousand_random_scripts_are_followed_as_the_independent_reader_follows_them() {
    let met = share_out(20_000, compare_cases);
    let kinds = [LITERAL, TRUE, LINE_END, TEXT_END].map(|kind| (kind, NONE));
    let faults = [TEXT_CUT, BYTE_NOT_ALLOWED, NINTH_BYTE].map(|reason| (FAULT, reason));
    for (kind, reason) in kinds.into_iter().chain(faults) {
        met.expect([None, Some(ReaderStep::Next)].map(|before| ((before, kind, reason), 300)));
    }
    met.expect([LINE_END, TEXT_END].map(|kind| ((Some(ReaderStep::Pass), kind, NONE), 1_000)));
    met.expect([((Some(ReaderStep::Pass), FAULT, TEXT_CUT), 1_000)]);
}

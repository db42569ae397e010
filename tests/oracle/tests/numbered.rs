//! Numbered texts: the rows that request 4 lists, the kinds of the generator, and what must hold on every text.

mod common;

use std::collections::{BTreeMap, BTreeSet};

use common::*;
use oracle::agree::agree;
use oracle::generate::*;
use oracle::limits::TABLES;
use oracle::numbered::read_numbered;
use oracle::numbered_rows::{rows, Said};
use oracle::reading::{read, ReadAnswer};
use oracle::reasons::*;
use oracle::{Counts, Limits, Tables};
use NumberedKind::*;

/// Vectors in request 4's table, those apart by `;` or `/` counted each.
const ROWS: usize = 61;

/// A reading into full-size tables that are not 0 before.
fn numbered(limits: &Limits, text: &[u8]) -> (ReadAnswer, Tables) {
    let mut tables = full_of(limits, 7);
    let answer = read_numbered(limits, text, &mut tables);
    (answer, tables)
}

fn said(answer: &ReadAnswer) -> Said {
    match answer.result {
        1 => Said::Holds(held(answer.counts)),
        _ => Said::Refused(answer.reason, answer.line),
    }
}

/// What the reading of lines, each of them ended, answers.
fn said_of(lines: &[&str]) -> Said {
    let text = lines.iter().map(|line| format!("{line}\n"));
    said(&numbered(&NARROW, text.collect::<String>().as_bytes()).0)
}

#[test]
fn every_row_of_request_4_is_read_as_it_says() {
    let rows = rows();
    assert_eq!(rows.len(), ROWS);
    for row in rows {
        let (answer, _) = numbered(&NARROW, &row.text);
        let end = &row.text[row.text.len().saturating_sub(60)..];
        assert_eq!(said(&answer), row.said, "{}", end.escape_ascii());
    }
}

#[test]
fn the_whole_text_is_tested_for_2_and_3_first() {
    let long = [b"x".repeat(NARROW.text), b"\n".to_vec()].concat();
    assert_eq!(said(&numbered(&NARROW, &long).0), Said::Refused(2, 0));
    assert_eq!(said(&numbered(&NARROW, &long[1..]).0), Said::Refused(16, 1));
    for cut in ["p cnf 1 1\n1 0", "x", "p cnf 1 1", "c", "p cnf 1 1\nx"] {
        let (answer, _) = numbered(&NARROW, cut.as_bytes());
        assert_eq!(said(&answer), Said::Refused(3, 0), "{cut}");
    }
}

#[test]
fn a_comment_may_hold_any_byte_but_stands_before_the_header_only() {
    let one = Said::Holds([1, 1, 1]);
    assert_eq!(said_of(&["c\r\0%\u{7f}", "p cnf 1 1", "1 0"]), one);
    assert_eq!(said_of(&["cp cnf 9 9", "c", "p cnf 1 1", "1 0"]), one);
    assert_eq!(
        said_of(&["c", " c", "p cnf 1 1", "1 0"]),
        Said::Refused(16, 2)
    );
    assert_eq!(said_of(&["p cnf 1 1", "1", "c", "0"]), Said::Refused(4, 3));
}

/// Numbers are compared whole: cut to 32 bits each of these would be 1.
#[test]
fn no_number_is_cut_to_32_bits() {
    let huge = "4294967297";
    let variables = format!("p cnf {huge} 1");
    assert_eq!(said_of(&[&variables, "1 0"]), Said::Refused(6, 1));
    let clauses = format!("p cnf 1 {huge}");
    assert_eq!(said_of(&[&clauses, "1 0"]), Said::Refused(17, 0));
    for sign in ["", "-"] {
        let number = format!("{sign}{huge} 0");
        assert_eq!(said_of(&["p cnf 1 1", &number]), Said::Refused(18, 2));
    }
}

#[test]
fn a_dropped_clause_counts_and_is_read_on_for_4_and_18_alone() {
    assert_eq!(said_of(&["p cnf 2 1", "1 -1 2", "0"]), Said::Refused(9, 0));
    assert_eq!(
        said_of(&["p cnf 2 2", "1 -1 1 1 -1 0", "2 0"]),
        Said::Holds([2, 1, 1])
    );
    assert_eq!(said_of(&["p cnf 2 1", "1 -1", "3"]), Said::Refused(18, 3));
    assert_eq!(said_of(&["p cnf 2 1", "1 -1", "-0"]), Said::Refused(4, 3));
    assert_eq!(said_of(&["p cnf 2 1", "1 -1"]), Said::Refused(17, 0));
}

/// The kinds with the reasons of their texts, and whether they are refused in a line.
const REASONS: [(NumberedKind, u64, bool); 12] = [
    (NoHeader, HEADER_FORM, false),
    (HeaderMalformed, HEADER_FORM, true),
    (VariablesPastLimit, TOO_MANY_TERMS, true),
    (NotANumber, BYTE_NOT_ALLOWED, true),
    (AboveTheHeader, PAST_HEADER, true),
    (FewerClausesSaid, CLAUSE_COUNT, true),
    (MoreClausesSaid, CLAUSE_COUNT, false),
    (LastNotEnded, CLAUSE_COUNT, false),
    (LoneZero, BLANK_LINE, true),
    (NothingKept, NO_CLAUSE, false),
    (ClausesPastLimit, TOO_MANY_CLAUSES, true),
    (LiteralsPastLimit, TOO_MANY_LITERALS, true),
];

fn answer_of(kind: NumberedKind, seed: u64) -> ReadAnswer {
    let text = numbered_text_of(kind, &NARROW, &mut Random::new(seed));
    numbered(&NARROW, &text).0
}

#[test]
fn texts_with_one_fault_are_refused_for_it() {
    for (kind, reason, has_line) in REASONS {
        for seed in 0..60 {
            let answer = answer_of(kind, seed);
            let told = (answer.reason, answer.line > 0);
            assert_eq!(told, (reason, has_line), "{kind:?}, seed {seed}");
        }
    }
}

#[test]
fn valid_texts_are_accepted_and_those_at_the_limits_hold_them() {
    for seed in 0..60 {
        for kind in NumberedKind::VALID {
            assert_eq!(answer_of(kind, seed).result, 1, "{kind:?}, seed {seed}");
        }
    }
    for seed in 0..12 {
        let counts = |kind| answer_of(kind, seed).counts;
        assert_eq!(counts(VariablesAtLimit).terms, NARROW.terms as u64);
        assert_eq!(counts(ClausesAtLimit).clauses, NARROW.clauses as u64);
        assert_eq!(counts(LiteralsAtLimit).literals, NARROW.literals as u64);
        assert_eq!(answer_of(BytesAtLimit, seed).result, 1);
        assert_eq!(answer_of(BytesPastLimit, seed).reason, TEXT_TOO_LONG);
        for (kind, bytes) in [(BytesAtLimit, 65_536), (BytesPastLimit, 65_537)] {
            let text = numbered_text_of(kind, &NARROW, &mut Random::new(seed));
            assert_eq!(text.len(), bytes);
        }
    }
}

#[test]
fn damaged_texts_and_clauses_after_a_full_limit_meet_their_faults() {
    let expected: [(NumberedKind, &[u64]); 9] = [
        (Cut, &[3, 16]),
        (ChangedBytes, &[0, 3, 4, 16, 17, 18]),
        (InsertedByte, &[0, 4, 16, 18]),
        (RemovedByte, &[0, 3, 16, 17]),
        (FewLetters, &[0, 4, 15, 17, 18]),
        (AnyBytes, &[4, 16]),
        (ClausesFullThenMore, &[0, 4, 8, 15, 17, 18]),
        (LiteralsFullThenMore, &[4, 7, 15, 17, 18]),
        (LiteralsNearlyFullThenMore, &[0, 4, 7, 15, 17, 18]),
    ];
    for (kind, reasons) in expected {
        let met: BTreeSet<u64> = (0..400).map(|seed| answer_of(kind, seed).reason).collect();
        assert!(
            reasons.iter().all(|reason| met.contains(reason)),
            "{kind:?} {met:?}"
        );
    }
}

/// So many texts of each kind but those at the limits.
fn for_each_text(seeds: u64, mut see: impl FnMut(NumberedKind, u64, &[u8])) {
    for kind in [&NumberedKind::VALID[..], &NumberedKind::FAULTY].concat() {
        for seed in 0..seeds {
            see(
                kind,
                seed,
                &numbered_text_of(kind, &NARROW, &mut Random::new(seed)),
            );
        }
    }
}

#[test]
fn a_reading_is_accepted_with_agreeing_tables_or_refused_with_zeros() {
    for_each_text(200, |kind, seed, text| {
        for limits in [&NARROW, &SMALL] {
            let (answer, tables) = numbered(limits, text);
            match answer.result {
                1 => assert!(agree(limits, &answer.counts, &tables), "{kind:?} {seed}"),
                _ => {
                    assert_eq!(answer.counts, Counts::default());
                    assert!(tables == Tables::zeros(limits), "{kind:?}, seed {seed}");
                }
            }
        }
    });
}

#[test]
fn an_accepted_text_leaves_what_its_own_text_leaves() {
    let mut compared = 0;
    for_each_text(300, |kind, seed, text| {
        let (answer, tables) = numbered(&NARROW, text);
        if answer.result == 1 {
            let mut expected = full_of(&NARROW, 3);
            let own = read(&NARROW, &as_own_text(text), &mut expected);
            assert_eq!(answer, own, "{kind:?}, seed {seed}");
            assert!(tables == expected, "{kind:?}, seed {seed}");
            compared += 1;
        }
    });
    assert!(compared > 2_700, "{compared}");
}

/// The lines up to one of them, that one included.
fn up_to_line(text: &[u8], line: u64) -> Vec<u8> {
    let lines = text.split_inclusive(|byte| *byte == b'\n');
    lines.take(line as usize).flatten().copied().collect()
}

#[test]
fn the_line_told_is_the_first_that_the_fault_needs() {
    let mut met = BTreeMap::new();
    for_each_text(200, |kind, seed, text| {
        let (answer, _) = numbered(&NARROW, text);
        if answer.line > 0 {
            let at = numbered(&NARROW, &up_to_line(text, answer.line)).0;
            let before = numbered(&NARROW, &up_to_line(text, answer.line - 1)).0;
            assert_eq!(at, answer, "{kind:?}, seed {seed}");
            assert_eq!(before.line, 0, "{kind:?}, seed {seed}");
            *met.entry(answer.reason).or_insert(0) += 1;
        }
    });
    let expected = [4, 6, 15, 16, 17, 18];
    assert!(
        met.keys().copied().eq(expected) && met.values().all(|met| *met > 100),
        "{met:?}"
    );
}

#[test]
fn what_stands_between_numbers_does_not_matter() {
    for seed in 0..500 {
        let text = numbered_text_of(Scattered, &NARROW, &mut Random::new(seed));
        let head = text.iter().position(|byte| *byte == b'\n').unwrap() + 1;
        let spaced = text[head..].iter().map(|byte| match byte {
            b'\t' | b'\n' => b' ',
            byte => *byte,
        });
        let mut on_one_line = text[..head].to_vec();
        on_one_line.extend(spaced);
        on_one_line.push(b'\n');
        assert!(
            numbered(&NARROW, &text) == numbered(&NARROW, &on_one_line),
            "seed {seed}"
        );
    }
}

#[test]
fn a_short_table_is_reason_1_before_all_else_and_changes_nothing() {
    for table in 0..TABLES {
        let mut tables = full_of(&NARROW, 7);
        tables.all_mut()[table].pop();
        let before = tables.clone();
        for text in [&b"p cnf 1 1\n1 0\n"[..], b"", b"x", b"p cnf 2049 1\n"] {
            let answer = read_numbered(&NARROW, text, &mut tables);
            assert_eq!(said(&answer), Said::Refused(TABLE_TOO_SHORT, 0));
            assert_eq!(answer.counts, Counts::default());
            assert!(tables == before, "table {table}");
        }
    }
}

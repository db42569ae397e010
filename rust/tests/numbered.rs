//! Numbered files: what is read of them, and why they are refused.

mod common;

use std::collections::HashMap;

use common::*;
use ngiyarumba::{Counts, Order, Reason, Tables};

fn read_numbered(text: &str) -> Tables {
    let mut tables = Tables::new();
    tables
        .read_numbered(text)
        .unwrap_or_else(|error| panic!("{text:?} was refused: {error}"));
    tables
}

/// Reads this over tables that held something, and sees that nothing is left.
fn assert_refused(text: &str, reason: Reason, line: Option<u32>) {
    let mut tables = read(TEXT);
    let error = tables.read_numbered(text).unwrap_err();
    assert_eq!((error.reason(), error.line()), (reason, line), "{text:?}");
    assert_eq!(tables, Tables::new());
    assert_eq!(tables.counts(), Counts::default());
}

#[test]
fn every_variable_is_a_term_named_by_its_number() {
    let tables = read_numbered("c a comment\np cnf 4 2\n1 -3 0 3\n-1 1 0\n");
    let names: Vec<String> = tables.terms().map(|(name, _)| name).collect();
    assert_eq!(names, ["1", "2", "3", "4"]);
    assert_eq!(tables.counts().clauses, 1);
    assert!(tables.clauses().eq(["1 ~3"]));
}

/// A random text's terms are named t0, t1 and so on: here by numbers from 1, with this sign and this end of a clause.
fn renamed(text: &str, sign: &str, end: &str) -> String {
    let word = |word: &str| {
        let (before, number) = word.split_once('t').unwrap();
        let number: u32 = number.parse().unwrap();
        format!("{}{}", before.replace('~', sign), number + 1)
    };
    let clause = |line: &str| {
        let words: Vec<String> = line.split(' ').map(word).collect();
        words.join(" ") + end
    };
    text.lines().map(clause).collect()
}

#[test]
fn the_same_clauses_as_own_text_leave_the_same() {
    let mut random = Random(4);
    for terms in [3, 40, 300] {
        let clauses = 4 * terms;
        let text = random.text(terms, clauses);
        let known: String = (1..=terms)
            .map(|name| format!("{name} ~{name}\n"))
            .collect();
        let own = read(&(known + &renamed(&text, "~", "\n")));
        let header = format!("p cnf {terms} {clauses}\n");
        assert_eq!(read_numbered(&(header + &renamed(&text, "-", " 0\n"))), own);
    }
}

#[test]
fn a_found_answer_covers_every_clause() {
    let mut tables = read_numbered("p cnf 5 4\n1 2 0 -1 3 0\n-2 -3\n0 4 -5 0\n");
    let order = Order {
        flips: 1_000,
        ..Order::default()
    };
    assert!(tables.walk(order).unwrap().is_found());
    let values: HashMap<String, bool> = values_of(&tables);
    let text = "1 2\n~1 3\n~2 ~3\n4 ~5\n";
    assert!(true_literals(text, &values)
        .into_iter()
        .all(|count| count > 0));
}

#[test]
fn reason_16_the_form_of_the_header() {
    assert_refused("", Reason::HeaderForm, None);
    assert_refused("c only\n", Reason::HeaderForm, None);
    assert_refused("p cnf 1 1 \n1 0\n", Reason::HeaderForm, Some(1));
    assert_refused("c\n\np cnf 1 1\n1 0\n", Reason::HeaderForm, Some(2));
    assert_refused("p cnf 1 1\r\n1 0\r\n", Reason::HeaderForm, Some(1));
}

#[test]
fn reason_17_the_number_of_clauses() {
    assert_refused("p cnf 1 1\n1 0\n1 0\n", Reason::ClauseCount, Some(3));
    assert_refused("p cnf 1 2\n1 0\n", Reason::ClauseCount, None);
    assert_refused("p cnf 1 1\n1\n", Reason::ClauseCount, None);
}

#[test]
fn reason_18_a_number_above_the_header() {
    assert_refused("p cnf 1 1\n2 0\n", Reason::PastHeader, Some(2));
    assert_refused("p cnf 1 1\n4294967297 0\n", Reason::PastHeader, Some(2));
}

#[test]
fn the_other_reasons_of_a_numbered_file() {
    assert_refused("p cnf 1 1\n1 0", Reason::TextCut, None);
    assert_refused("p cnf 1 1\n1 0\n%\n0\n", Reason::ByteNotAllowed, Some(3));
    assert_refused("p cnf 2049 1\n1 0\n", Reason::TooManyTerms, Some(1));
    assert_refused("p cnf 1 1\n0\n", Reason::BlankLine, Some(2));
    assert_refused("p cnf 3 0\n", Reason::NoClause, None);
    let long = "c".repeat(65_536) + "\n";
    assert_refused(&long, Reason::TextTooLong, None);
}

#[test]
fn a_refusal_says_its_line_and_its_words() {
    let error = Tables::new().read_numbered("p cnf 1 1\n2 0\n").unwrap_err();
    let words = "line 2: a number is above the header's number of variables";
    assert_eq!(error.to_string(), words);
}

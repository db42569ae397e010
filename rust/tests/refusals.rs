//! Every reason that a call of this crate can give, its words, its line and what it leaves.

mod common;

use std::fmt::Debug;

use common::*;
use ngiyarumba::{run, Counts, Error, Generator, Order, Reason, Tables};

/// Reads this over tables that held something, and sees that nothing is left.
fn refused(text: &str) -> Error {
    let mut tables = read(TEXT);
    let error = tables.read(text).unwrap_err();
    assert_eq!(tables, Tables::new());
    assert_eq!(tables.counts(), Counts::default());
    error
}

fn assert_refused(text: &str, reason: Reason, line: Option<u32>) {
    let error = refused(text);
    assert_eq!((error.reason(), error.line()), (reason, line));
}

/// The reason of a call that is refused.
fn reason_of<T: Debug>(answer: Result<T, Error>) -> Reason {
    answer.unwrap_err().reason()
}

#[test]
fn reason_2_a_long_text() {
    assert_refused(&"~".repeat(65_537), Reason::TextTooLong, None);
    let longest = format!("a{}\n", " ".repeat(65_534));
    assert_eq!(read(&longest).counts().clauses, 1);
}

#[test]
fn reason_3_an_open_end() {
    assert_refused("a b\n~a b", Reason::TextCut, None);
}

#[test]
fn reason_4_a_bad_byte() {
    assert_refused("a\n~\na\tb\n", Reason::ByteNotAllowed, Some(3));
    assert_refused("a~b\n", Reason::ByteNotAllowed, Some(1));
}

#[test]
fn reason_5_a_long_name() {
    assert_refused("~ note\ncreek billabong\n", Reason::NinthByte, Some(2));
}

#[test]
fn reason_6_no_room_for_a_term() {
    let names = |count| (1..=count).map(|name| format!("{name}\n")).collect();
    let most: String = names(2_048);
    assert_eq!(read(&most).counts().terms, 2_048);
    let more: String = names(2_049);
    assert_refused(&more, Reason::TooManyTerms, Some(2_049));
}

#[test]
fn reason_7_no_room_for_a_literal() {
    let most = "a b c\n".repeat(5_461) + "a\n";
    assert_eq!(read(&most).counts().literals, 16_384);
    assert_refused(&(most + "~a\n"), Reason::TooManyLiterals, Some(5_463));
}

#[test]
fn reason_8_no_room_for_a_clause() {
    let most = "a\n".repeat(8_192);
    assert_eq!(read(&most).counts().clauses, 8_192);
    assert_refused(&(most + "a\n"), Reason::TooManyClauses, Some(8_193));
}

#[test]
fn reason_9_no_clause() {
    assert_refused("", Reason::NoClause, None);
    assert_refused("~ note\na ~a\n", Reason::NoClause, None);
}

#[test]
fn reason_15_a_blank_line() {
    assert_refused("\n", Reason::BlankLine, Some(1));
    assert_refused("a b\n~ note\n   \n~a b\n", Reason::BlankLine, Some(3));
    assert_eq!(read("a b\n~\n~a b\n").counts().clauses, 2);
}

/// A sheet is read by a run alone.
#[test]
fn reason_10_the_form_of_the_sheet() {
    let fifth = format!("{SHEET}choice=odd\n");
    for (sheet, line) in [
        ("", 1),
        ("seed=1\nflips=10\nwalks=01\nbias=400\n", 3),
        (&fifth, 5),
    ] {
        let printed = run(format!("{sheet}{TEXT}")).unwrap();
        assert_eq!(printed, format!("result=refused\nreason=10\nline={line}\n"));
    }
}

#[test]
fn reason_11_numbers_out_of_range() {
    let mut tables = read(TEXT);
    let before = tables.clone();
    let orders = [
        Order { seed: 0, ..ORDER },
        Order {
            flips: 100_001,
            ..ORDER
        },
        Order { walks: 0, ..ORDER },
        Order {
            walks: 1_001,
            ..ORDER
        },
        Order {
            bias: 1_001,
            ..ORDER
        },
    ];
    for order in orders {
        let error = tables.walk(order).unwrap_err();
        assert_eq!((error.reason(), error.line()), (Reason::OutOfRange, None));
        assert_eq!(tables, before);
    }
}

#[test]
fn reason_11_draws_out_of_range() {
    assert_eq!(reason_of(Generator::new(0)), Reason::OutOfRange);
    let mut generator = Generator::new(7).unwrap();
    assert_eq!(reason_of(generator.choice(0)), Reason::OutOfRange);
    assert_eq!(reason_of(generator.choice_even(0)), Reason::OutOfRange);
    assert_eq!(reason_of(generator.heads(1_001)), Reason::OutOfRange);
    assert_eq!(generator.state(), 7);
}

#[test]
fn reason_12_no_clause_stands() {
    let mut tables = Tables::new();
    assert_eq!(reason_of(tables.walk(ORDER)), Reason::TablesDisagree);
    assert_eq!(reason_of(tables.flip(&[])), Reason::TablesDisagree);
    tables.read("a\tb\n").unwrap_err();
    assert_eq!(reason_of(tables.walk(ORDER)), Reason::TablesDisagree);
    assert_eq!(tables.answer(), None);
}

#[test]
fn reason_13_an_unknown_term() {
    let mut tables = read(TEXT);
    let before = tables.clone();
    assert_eq!(reason_of(tables.flip(&[1, 0, 2])), Reason::UnknownTerm);
    assert_eq!(tables, before);
}

#[test]
fn reason_14_a_long_list() {
    let mut tables = read(TEXT);
    let before = tables.clone();
    assert_eq!(reason_of(tables.flip(&[0; 65_537])), Reason::ListTooLong);
    assert_eq!(tables, before);
    assert!(tables.flip(&[0; 65_536]).is_ok());
}

#[test]
fn reason_20_a_pinned_term() {
    let mut tables = read(TEXT);
    tables.pin(1, true).unwrap();
    let before = tables.clone();
    assert_eq!(reason_of(tables.flip(&[0, 1])), Reason::PinnedTerm);
    assert_eq!(tables, before);
}

#[test]
fn the_program_prints_the_same_reasons() {
    for text in ["a b", "a~b\n", "billabong\n", "", "~ note\n"] {
        let error = refused(text);
        let (reason, line) = (error.reason().number(), error.line().unwrap_or(0));
        let lines = format!("result=refused\nreason={reason}\nline={line}\n");
        assert_eq!(run(format!("{SHEET}{text}")), Ok(lines));
    }
}

#[test]
fn the_reasons_are_in_the_order_of_their_numbers_and_have_words_of_their_own() {
    let numbers = Reason::ALL.map(Reason::number);
    assert!(numbers.into_iter().eq((1..=18).chain([20])));
    let mut words = Reason::ALL.map(Reason::words).to_vec();
    words.sort_unstable();
    words.dedup();
    assert_eq!(words.len(), Reason::ALL.len());
}

#[test]
fn an_error_says_its_line_where_it_has_one() {
    let error: Box<dyn std::error::Error> = Box::new(refused("a\nabcdefghi\n"));
    assert_eq!(error.to_string(), "line 2: a name is longer than 8 bytes");
    assert_eq!(refused("").to_string(), "no clause was kept");
}

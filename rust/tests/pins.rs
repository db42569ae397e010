//! Pins: a pinned term has its value and keeps it, by walks and flip lists, until its pin is lifted.

mod common;
#[allow(dead_code)]
#[path = "../examples/pins.rs"]
mod example;

use common::*;
use ngiyarumba::{Choice, Order, Outcome, Reason, Tables};

/// Terms a to d, of which b decides about the first two clauses.
const PINNING_TEXT: &str = "a b\n~a b\nc d\n";
const A: u16 = 0;
const B: u16 = 1;
const D: u16 = 3;
const UNKNOWN: u16 = 4;

fn read_and_pin(text: &str, term: u16, value: bool) -> Tables {
    let mut tables = read(text);
    tables.pin(term, value).unwrap();
    tables
}

fn order(seed: u32, flips: u32, walks: u32, bias: u32) -> Order {
    Order {
        seed,
        flips,
        walks,
        bias,
        choice: Choice::Remainder,
    }
}

/// The values as the library has them in their first word: term 0 is its lowest bit.
fn word_of(tables: &Tables) -> u32 {
    let bits = tables.terms().zip(0..);
    bits.map(|((_, value), at)| u32::from(value) << at).sum()
}

fn gave_up(walks: u32, flips: u32, uncovered: u32) -> Outcome {
    Outcome::GaveUp {
        walks,
        flips,
        uncovered,
    }
}

#[test]
fn a_pin_at_the_value_that_stands_is_the_mark_alone() {
    let mut tables = read_and_pin(PINNING_TEXT, B, false);
    assert_eq!(tables.marks(), [0, 1, 0, 0]);
    assert_eq!(tables.counts().uncovered, 2);
    assert_ne!(tables, read(PINNING_TEXT));
    tables.lift(B).unwrap();
    assert_eq!(tables, read(PINNING_TEXT));
}

#[test]
fn a_pin_at_the_other_value_turns_the_term() {
    let mut tables = read_and_pin(PINNING_TEXT, B, false);
    assert_eq!(tables.pin(B, true).unwrap().uncovered, 1); // pinned anew
    assert_eq!((word_of(&tables), tables.marks()), (2, &[0, 2, 0, 0][..]));
    assert_eq!(tables.true_counts(), [1, 2, 0]);
    assert_eq!(tables.break_counts(), [0, 1, 0, 0]);
    assert_eq!(tables.uncovered(), [2]);
    assert_eq!(tables.pin(D, true).unwrap().uncovered, 0);
    assert_eq!(tables.marks(), [0, 2, 0, 2]);
}

#[test]
fn a_walk_is_held_by_a_pin() {
    let mut tables = read_and_pin(PINNING_TEXT, B, false);
    let fifty = order(1, 50, 3, 400);
    assert_eq!(tables.walk(fifty), Ok(gave_up(3, 150, 1)));
    assert_eq!((word_of(&tables), tables.uncovered()), (9, &[1][..]));
    assert_eq!(tables.true_counts(), [1, 0, 1]);
    assert_eq!(tables.break_counts(), [1, 0, 0, 1]);
    let mut tables = read_and_pin(PINNING_TEXT, B, true);
    let found = Outcome::Found {
        walks: 1,
        flips: 1,
        chosen: 3,
    };
    assert_eq!(tables.walk(fifty), Ok(found));
    assert_eq!(word_of(&tables), 11);
    assert_eq!(tables.true_counts(), [2, 1, 1]);
    assert_eq!(tables.break_counts(), [0, 1, 0, 1]);
}

#[test]
fn a_walk_ends_where_the_clause_chosen_has_no_free_term() {
    let mut tables = read_and_pin("a\n", A, false);
    assert_eq!(tables.walk(order(1, 50, 3, 400)), Ok(gave_up(3, 0, 1)));
    let mut tables = read_and_pin("a b\n~a b\nb\n", B, false);
    assert_eq!(tables.walk(order(2, 20, 2, 500)), Ok(gave_up(2, 1, 2)));
    assert_eq!((word_of(&tables), tables.uncovered()), (0, &[0, 2][..]));
    assert_eq!(tables.walk(order(1, 20, 2, 500)), Ok(gave_up(2, 0, 2)));
    assert_eq!((word_of(&tables), tables.uncovered()), (1, &[1, 2][..]));
    tables.pin(B, true).unwrap();
    let found = Outcome::Found {
        walks: 1,
        flips: 0,
        chosen: 1,
    };
    assert_eq!(tables.walk(order(2, 20, 2, 500)), Ok(found));
    assert_eq!(word_of(&tables), 2);
}

#[test]
fn flips_go_on_where_each_clause_has_a_free_term() {
    let mut tables = read_and_pin("a b\n~a c\n~c ~a\nd ~b\n", A, true);
    assert_eq!(tables.walk(order(3, 20, 2, 500)), Ok(gave_up(2, 40, 1)));
    assert_eq!((word_of(&tables), tables.uncovered()), (15, &[2][..]));
}

#[test]
fn a_lifted_term_keeps_its_value_and_is_free() {
    let mut tables = read_and_pin(PINNING_TEXT, B, true);
    assert_eq!(tables.lift(B).unwrap().uncovered, 1);
    assert_eq!((word_of(&tables), tables.marks()), (2, &[0, 0, 0, 0][..]));
    let before = tables.clone();
    assert_eq!(tables.lift(B), Ok(before.counts())); // what is free may be lifted too
    assert_eq!(tables, before);
    assert_eq!(tables.flip(&[B]).unwrap().uncovered, 2);
}

#[test]
fn a_reading_leaves_every_term_free() {
    let mut tables = read_and_pin(PINNING_TEXT, D, true);
    tables.read(PINNING_TEXT).unwrap();
    assert_eq!(tables, read(PINNING_TEXT));
    let mut tables = read_and_pin(PINNING_TEXT, D, true);
    tables.read("a\tb\n").unwrap_err();
    assert_eq!(tables, Tables::new());
}

#[test]
fn refusals_come_in_their_order_and_change_nothing() {
    let mut tables = read_and_pin(PINNING_TEXT, B, true);
    let before = tables.clone();
    let long = [B; 65_537];
    for (list, reason) in [
        (&[B, UNKNOWN][..], Reason::UnknownTerm),
        (&[A, B], Reason::PinnedTerm),
        (&[A, UNKNOWN], Reason::UnknownTerm),
        (&long, Reason::ListTooLong),
    ] {
        assert_eq!(tables.flip(list).unwrap_err().reason(), reason);
    }
    for refused in [tables.pin(UNKNOWN, true), tables.lift(UNKNOWN)] {
        let error = refused.unwrap_err();
        assert_eq!((error.reason(), error.line()), (Reason::UnknownTerm, None));
    }
    assert_eq!(tables, before);
    let mut none = Tables::new();
    for refused in [none.pin(0, true), none.lift(0), none.flip(&[0])] {
        assert_eq!(refused.unwrap_err().reason(), Reason::TablesDisagree);
    }
    assert_eq!(none, Tables::new());
}

#[test]
fn a_pin_is_a_flip_list_of_one_where_the_value_differs() {
    let mut random = Random(7);
    let mut tables = read(&random.text(40, 160));
    for _ in 0..200 {
        let term = random.below(tables.counts().terms as usize);
        let stands = tables.terms().nth(term).unwrap().1;
        let term = term as u16;
        let mut flipped = tables.clone();
        flipped.flip(&[term]).unwrap();
        tables.pin(term, !stands).unwrap();
        assert_eq!(tables.marks()[usize::from(term)], 2 - u8::from(stands));
        tables.lift(term).unwrap();
        assert_eq!(tables, flipped);
    }
}

/// Pins some of the terms at values of their own; what they are pinned at.
fn pin_some(random: &mut Random, tables: &mut Tables) -> Vec<(String, bool)> {
    let names: Vec<String> = tables.terms().map(|(name, _)| name).collect();
    let one_in = 1 + random.below(8);
    let mut pinned = Vec::new();
    for (name, term) in names.into_iter().zip(0..) {
        if random.below(one_in) == 0 {
            let value = random.below(2) == 1;
            tables.pin(term, value).unwrap();
            pinned.push((name, value));
        }
    }
    pinned
}

#[test]
fn pinned_terms_stand_through_every_walk() {
    let mut random = Random(8);
    let (mut found, mut stuck) = (0, 0);
    for seed in 1..=300 {
        let (terms, clauses) = (10 + random.below(20), 1 + random.below(60));
        let text = random.text(terms, clauses);
        let mut tables = read(&text);
        let pinned = pin_some(&mut random, &mut tables);
        let marks = tables.marks().to_vec();
        let outcome = tables.walk(order(seed, 100, 2, 400)).unwrap();
        let values = values_of(&tables);
        assert!(pinned.iter().all(|(name, value)| values[name] == *value));
        assert_eq!(tables.marks(), marks);
        assert_eq!(tables.true_counts(), true_literals(&text, &values));
        match outcome {
            Outcome::Found { .. } => found += 1,
            Outcome::GaveUp { flips, .. } => stuck += u32::from(flips < 200),
        }
    }
    assert!(found > 50 && stuck > 50, "{found} found, {stuck} stuck");
}

#[test]
fn walks_after_every_pin_is_lifted_are_those_without_pins() {
    let mut random = Random(9);
    let text = random.text(30, 120);
    let mut once = read(&text);
    let mut after_pins = read(&text);
    pin_some(&mut random, &mut after_pins);
    after_pins.walk(order(5, 50, 2, 400)).unwrap();
    for term in 0..after_pins.counts().terms as u16 {
        after_pins.lift(term).unwrap();
    }
    let second = order(6, 50, 2, 400);
    assert_eq!(after_pins.walk(second), once.walk(second));
    assert_eq!(after_pins, once);
}

#[test]
fn the_example_prints_what_the_one_in_c_does() {
    let printed = include_str!("../../examples/pins.out");
    assert_eq!(example::pins().unwrap(), printed);
}

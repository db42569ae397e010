//! Walks: what is found covers every clause, as judged here, and one walk after another does the same.

mod common;

use common::*;
use ngiyarumba::{Choice, Order, Outcome};

#[test]
fn every_answer_that_is_found_covers_every_clause() {
    let mut random = Random(1);
    let mut found = 0;
    for seed in 1..=200 {
        let terms = 4 + random.below(60);
        let clauses = 1 + random.below(5 * terms);
        let text = random.text(terms, clauses);
        let order = Order {
            seed,
            flips: 200,
            walks: 3,
            choice: [Choice::Remainder, Choice::Even][seed as usize % 2],
            ..ORDER
        };
        let mut tables = read(&text);
        let outcome = tables.walk(order).unwrap();
        let true_literals = true_literals(&text, &values_of(&tables));
        let uncovered = true_literals.iter().filter(|count| **count == 0).count();
        assert_eq!(tables.true_counts(), true_literals);
        assert_eq!(tables.counts().uncovered as usize, uncovered);
        assert_eq!(outcome.is_found(), uncovered == 0);
        assert_eq!(tables.answer().is_some(), uncovered == 0);
        found += usize::from(outcome.is_found());
    }
    assert!(found > 20 && found < 190, "{found} of 200 were found");
}

/// After one flip on this file each mode has turned another term.
#[test]
fn the_choice_decides_how_a_walk_goes() {
    let mut tables = read("~a\n~b\n");
    let order = Order {
        seed: 3_764_646_662,
        flips: 1,
        ..ORDER
    };
    for (choice, values) in [
        (Choice::Remainder, [true, false]),
        (Choice::Even, [false, true]),
    ] {
        assert!(!tables.walk(Order { choice, ..order }).unwrap().is_found());
        assert!(tables.terms().map(|(_, value)| value).eq(values));
    }
}

#[test]
fn the_default_order_is_in_range() {
    assert!(read("a b\n~a b\n")
        .walk(Order::default())
        .unwrap()
        .is_found());
    assert_eq!(Order::default().choice, Choice::Remainder);
}

#[test]
fn an_answer_names_every_term_once_in_order() {
    let mut tables = read(&Random(2).text(20, 40));
    assert!(tables
        .walk(Order {
            flips: 1_000,
            ..ORDER
        })
        .unwrap()
        .is_found());
    let literals = tables.terms().map(|(name, value)| match value {
        true => name,
        false => format!("~{name}"),
    });
    let line = literals.collect::<Vec<_>>().join(" ");
    assert_eq!(tables.answer(), Some(line));
    let chosen = tables.terms().filter(|(_, value)| *value).count();
    assert_eq!(tables.chosen() as usize, chosen);
}

#[test]
fn a_walk_after_a_walk_ends_as_after_the_reading() {
    let text = Random(3).text(30, 120);
    let [first, second] = [7, 8].map(|seed| Order {
        seed,
        flips: 50,
        ..ORDER
    });
    let mut once = read(&text);
    let outcome = once.walk(second);
    let mut after_another = read(&text);
    after_another.walk(first).unwrap();
    after_another.flip(&[3, 1, 4]).unwrap();
    assert_eq!(after_another.walk(second), outcome);
    assert_eq!(after_another, once);
}

#[test]
fn giving_up_leaves_the_end_of_the_last_walk() {
    let mut tables = read("a\n~a\n");
    let gave_up = Outcome::GaveUp {
        walks: 3,
        flips: 6,
        uncovered: 1,
    };
    let order = Order {
        flips: 2,
        walks: 3,
        ..ORDER
    };
    assert_eq!(tables.walk(order), Ok(gave_up));
    assert_eq!(tables.uncovered().len(), 1);
    assert_eq!(tables.answer(), None);
}

#[test]
fn no_flips_with_a_covering_start_are_found() {
    let found = Outcome::Found {
        walks: 1,
        flips: 0,
        chosen: 1,
    };
    assert_eq!(read("a b\n").walk(Order { flips: 0, ..ORDER }), Ok(found));
}

#[test]
fn tables_may_be_moved_to_another_thread() {
    let mut tables = read(TEXT);
    let walker = std::thread::spawn(move || tables.walk(ORDER).map(|_| tables.answer()));
    assert_eq!(walker.join().unwrap(), Ok(Some("a b".to_string())));
}

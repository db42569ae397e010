//! Flip lists: values turn by parity, counts are those worked out afresh, and a refused list does nothing.

mod common;

use common::*;
use ngiyarumba::{Counts, Reason, Tables};

const TERMS: usize = 40;

fn some_tables(random: &mut Random) -> (String, Tables) {
    let names: Vec<String> = (0..TERMS).map(|name| format!("t{name}")).collect();
    let text = format!("{}\n{}", names.join(" "), random.text(TERMS, 160));
    let tables = read(&text);
    (text, tables)
}

fn some_list(random: &mut Random) -> Vec<u16> {
    let length = random.below(500);
    (0..length).map(|_| random.below(TERMS) as u16).collect()
}

/// The break count of each term, from the clauses' lines: those covered by its literal alone.
fn break_counts(tables: &Tables, text: &str) -> Vec<u16> {
    let now = values_of(tables);
    let counts = true_literals(text, &now);
    let lines_lost = |name: String| {
        let mut turned = now.clone();
        turned.entry(name).and_modify(|value| *value = !*value);
        let after = true_literals(text, &turned);
        let lost = counts
            .iter()
            .zip(after)
            .filter(|(before, after)| **before == 1 && *after == 0);
        lost.count() as u16
    };
    tables.terms().map(|(name, _)| lines_lost(name)).collect()
}

#[test]
fn a_value_turns_where_the_list_names_its_term_an_odd_number_of_times() {
    let mut random = Random(4);
    let (text, mut tables) = some_tables(&mut random);
    for _ in 0..50 {
        let list = some_list(&mut random);
        let before: Vec<bool> = tables.terms().map(|(_, value)| value).collect();
        tables.flip(&list).unwrap();
        for (term, (name, value)) in tables.terms().enumerate() {
            let times = list
                .iter()
                .filter(|named| usize::from(**named) == term)
                .count();
            assert_eq!(value, before[term] ^ (times % 2 == 1), "{name}");
        }
        assert_eq!(
            tables.true_counts(),
            true_literals(&text, &values_of(&tables))
        );
        assert_eq!(tables.break_counts(), break_counts(&tables, &text));
    }
}

#[test]
fn lists_that_name_each_term_equally_often_leave_the_same() {
    let mut random = Random(5);
    let (_, start) = some_tables(&mut random);
    for _ in 0..50 {
        let list = some_list(&mut random);
        let mut forwards = start.clone();
        let mut sorted = start.clone();
        forwards.flip(&list).unwrap();
        let mut in_order = list.clone();
        in_order.sort_unstable();
        sorted.flip(&in_order).unwrap();
        assert!(forwards.terms().eq(sorted.terms()));
        assert_eq!(forwards.counts(), sorted.counts());
        assert_eq!(forwards.true_counts(), sorted.true_counts());
        assert_eq!(forwards.break_counts(), sorted.break_counts());
        let mut uncovered = [forwards.uncovered().to_vec(), sorted.uncovered().to_vec()];
        uncovered.iter_mut().for_each(|list| list.sort_unstable());
        assert_eq!(uncovered[0], uncovered[1]);
    }
}

#[test]
fn the_empty_list_is_applied_and_changes_nothing() {
    let mut tables = read(TEXT);
    let before = tables.clone();
    let counts = Counts {
        terms: 2,
        clauses: 2,
        literals: 4,
        uncovered: 1,
    };
    assert_eq!(tables.flip(&[]), Ok(counts));
    assert_eq!(tables, before);
}

#[test]
fn a_refused_list_changes_nothing_wherever_its_unknown_term_stands() {
    let mut random = Random(6);
    let (_, mut tables) = some_tables(&mut random);
    tables.flip(&some_list(&mut random)).unwrap();
    let before = tables.clone();
    for at in [0, 1, 250, 499, 500] {
        let mut list: Vec<u16> = (0..500).map(|entry| entry % TERMS as u16).collect();
        list.insert(at, TERMS as u16);
        let error = tables.flip(&list).unwrap_err();
        assert_eq!(error.reason(), Reason::UnknownTerm);
        assert_eq!(tables, before);
    }
    tables.flip(&[0]).unwrap();
    assert_ne!(tables, before);
}

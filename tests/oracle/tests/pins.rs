//! Pinned terms: the rows that request 8 lists, and what must hold on every case.

mod common;

use std::collections::BTreeMap;

use common::*;
use oracle::agree::agree;
use oracle::flips::{flip, FlipAnswer};
use oracle::generate::*;
use oracle::marks::{mark_of, FREE};
use oracle::pin_rows::ROWS;
use oracle::pins::{lift, pin};
use oracle::reasons::*;
use oracle::walk::walk;
use oracle::{Counts, Tables};

const CASES: u64 = 2_000;
const CALLS: u64 = 10;

#[test]
fn every_row_of_request_8_is_answered_as_it_says_and_leaves_what_it_says() {
    for row in ROWS {
        let (mut counts, mut tables) = accepted(row.text);
        for call in row.before {
            let told = call.make(&NARROW, counts, &mut tables);
            assert_eq!(told.reason, NONE, "{row:?}");
            counts = told.counts;
        }
        row.spoil(&mut tables);
        let before = (counts, tables.clone());
        let told = row.call.make(&NARROW, counts, &mut tables);
        row.judge(&told, &before, &(told.counts, tables));
    }
}

/// Tables with pins, and a term of theirs.
fn pinned_case(seed: u64) -> (Lent, u64, Random) {
    let mut random = Random::new(seed);
    let lent = pinned_tables(&SMALL, &mut random);
    let term = random.bits() % lent.0.terms;
    (lent, term, random)
}

fn assert_applied(answer: &FlipAnswer, tables: &Tables, seed: u64) {
    assert_eq!((answer.result, answer.reason), (1, NONE), "seed {seed}");
    assert!(agree(&SMALL, &answer.counts, tables), "seed {seed}");
    assert_counted_afresh(&answer.counts, tables);
}

/// Marking apart, a pin is no list where the value stands already, else the list of its term.
#[test]
fn a_pin_marks_its_term_and_flips_it_where_its_value_differs() {
    let mut flipped = [0; 2];
    for seed in 0..CASES {
        let ((counts, before), term, mut random) = pinned_case(seed);
        let value = random.coin();
        let mut after = before.clone();
        let answer = pin(&SMALL, term, u64::from(value), counts, &mut after);
        assert_applied(&answer, &after, seed);
        let differs = bit(&before, term as usize) != u64::from(value);
        let list = if differs { vec![term] } else { Vec::new() };
        let mut expected = before;
        expected.marks[term as usize] = FREE;
        let listed = flip(&SMALL, &list, counts, &mut expected);
        expected.marks[term as usize] = mark_of(Some(value));
        assert_eq!(answer, listed, "seed {seed}");
        assert!(after == expected, "seed {seed}");
        flipped[usize::from(differs)] += 1;
    }
    assert!(flipped.iter().all(|met| *met > 500), "{flipped:?}");
}

#[test]
fn a_lift_clears_the_mark_and_nothing_else() {
    let mut lifted = [0; 2];
    for seed in 0..CASES {
        let ((counts, before), term, _) = pinned_case(seed);
        let mut after = before.clone();
        let answer = lift(&SMALL, term, counts, &mut after);
        assert_applied(&answer, &after, seed);
        assert_eq!(answer.counts, counts, "seed {seed}");
        lifted[usize::from(before.marks[term as usize] != FREE)] += 1;
        after.marks[term as usize] = before.marks[term as usize];
        assert!(after == before, "seed {seed}");
    }
    assert!(lifted.iter().all(|met| *met > 500), "{lifted:?}");
}

/// A few terms, most of them free, seldom an unknown one.
fn some_list(counts: &Counts, tables: &Tables, random: &mut Random) -> Vec<u64> {
    let list = flip_list_of(FlipListKind::Few, &SMALL, counts.terms, random);
    let mut list = if random.one_in(3) {
        list
    } else {
        without_pinned(list, tables)
    };
    if random.one_in(6) {
        list.push(counts.terms);
    }
    list
}

/// Any of the four calls: its name and its reason.
fn some_call(lent: &mut Lent, random: &mut Random) -> (&'static str, u64) {
    let (counts, tables) = lent;
    let term = random.bits() % (counts.terms + 1);
    let (name, reason, after) = match random.below(4) {
        0 => {
            let answer = pin(&SMALL, term, random.bits() % 2, *counts, tables);
            ("pin", answer.reason, answer.counts)
        }
        1 => {
            let answer = lift(&SMALL, term, *counts, tables);
            ("lift", answer.reason, answer.counts)
        }
        2 => {
            let list = some_list(counts, tables, random);
            let answer = flip(&SMALL, &list, *counts, tables);
            ("list", answer.reason, answer.counts)
        }
        _ => {
            let order = order_of(OrderKind::FewFlips, random);
            let answer = walk(&SMALL, &order, *counts, tables);
            ("walk", answer.reason, answer.counts)
        }
    };
    *counts = after;
    (name, reason)
}

/// The marks and values of the pinned terms.
fn pins(lent: &Lent) -> BTreeMap<usize, [u64; 2]> {
    let pinned = (0..lent.0.terms as usize).filter(|term| lent.1.marks[*term] != FREE);
    pinned
        .map(|term| (term, [lent.1.marks[term], bit(&lent.1, term)]))
        .collect()
}

#[test]
fn tables_agree_after_every_call_and_only_a_pin_or_a_lift_touches_a_pin() {
    let mut met: BTreeMap<(&str, u64), u64> = BTreeMap::new();
    for seed in 0..CASES {
        let (mut lent, _, mut random) = pinned_case(seed);
        for call in 0..CALLS {
            let before = lent.clone();
            let (name, reason) = some_call(&mut lent, &mut random);
            *met.entry((name, reason)).or_default() += 1;
            let case = format!("seed {seed}, call {call}, {name}");
            assert!(agree(&SMALL, &lent.0, &lent.1), "{case}");
            assert!(reason == NONE || lent == before, "{case}");
            let touched = (pins(&before), pins(&lent));
            let allowed = ["pin", "lift"].contains(&name);
            assert!(allowed || touched.0 == touched.1, "{case}");
        }
    }
    let expected = [
        ("list", NONE),
        ("list", UNKNOWN_TERM),
        ("list", PINNED_TERM),
        ("lift", NONE),
        ("lift", UNKNOWN_TERM),
        ("pin", NONE),
        ("pin", UNKNOWN_TERM),
        ("walk", NONE),
    ];
    assert_eq!(met.len(), expected.len(), "{met:?}");
    let often = expected.iter().all(|kind| met[kind] > 100);
    assert!(often, "{met:?}");
}

/// Terms of each kind at any places: 13 where one is unknown, else 20 where one is pinned.
#[test]
fn a_list_that_names_a_pinned_term_is_20_but_13_where_one_is_unknown() {
    let mut met: BTreeMap<u64, u64> = BTreeMap::new();
    for seed in 0..CASES {
        let ((counts, tables), _, mut random) = pinned_case(seed);
        let mut list = some_list(&counts, &tables, &mut random);
        random.shuffle(&mut list);
        let unknown = list.iter().any(|term| *term >= counts.terms);
        let pinned = list
            .iter()
            .any(|term| tables.marks.get(*term as usize) > Some(&FREE));
        let expected = match (unknown, pinned) {
            (true, _) => UNKNOWN_TERM,
            (false, true) => PINNED_TERM,
            (false, false) => NONE,
        };
        let mut lent = tables.clone();
        let answer = flip(&SMALL, &list, counts, &mut lent);
        assert_eq!(answer.reason, expected, "seed {seed}");
        assert!(expected == NONE || (lent == tables && answer.counts == counts));
        *met.entry(expected + u64::from(unknown && pinned))
            .or_default() += 1;
    }
    let kinds = [NONE, UNKNOWN_TERM, UNKNOWN_TERM + 1, PINNED_TERM];
    assert!(kinds.iter().all(|kind| met[kind] > 50), "{met:?}");
}

#[test]
fn marks_that_do_not_hold_are_reason_12_in_every_call_with_nothing_changed() {
    for seed in 0..CASES {
        let ((mut counts, mut tables), term, mut random) = pinned_case(seed);
        let kind = random.pick(&[
            DamageKind::MarkPast2,
            DamageKind::PinnedAtTheOtherValue,
            DamageKind::MarkPastTheTerms,
        ]);
        if counts.terms == SMALL.terms as u64 && kind == DamageKind::MarkPastTheTerms {
            continue;
        }
        damage_of(kind, &SMALL, &mut counts, &mut tables, &mut random);
        let mut lent = tables.clone();
        let reasons = [
            walk(&SMALL, &ORDER, counts, &mut lent).reason,
            flip(&SMALL, &[term], counts, &mut lent).reason,
            flip(&SMALL, &[counts.terms], counts, &mut lent).reason,
            pin(&SMALL, term, 1, counts, &mut lent).reason,
            pin(&SMALL, counts.terms, 1, counts, &mut lent).reason,
            lift(&SMALL, term, counts, &mut lent).reason,
            lift(&SMALL, counts.terms, counts, &mut lent).reason,
        ];
        assert_eq!(reasons, [TABLES_DISAGREE; 7], "{kind:?}, seed {seed}");
        assert!(lent == tables, "{kind:?}, seed {seed}");
    }
}

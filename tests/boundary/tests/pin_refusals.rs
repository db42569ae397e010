//! Pins and lifts that are refused, marks that do not hold, marks of other lengths, and which reason comes first.

use boundary::lengths::{for_each_longer, for_each_shorter};
use boundary::{agreeing, disagreeing, few_flips, few_steps, for_each_file, full_tables};
use boundary::{holding, pinned, Lent, Sides, NARROW, ORDER};
use oracle::generate::lent::lengthen;
use oracle::generate::*;
use oracle::marks::{mark_of, FREE};
use oracle::reasons::*;
use oracle::state::values_of;
use oracle::Order;

const FILES: u64 = 12;
const LAST: u64 = u32::MAX as u64;

/// Damage to marks alone.
const MARKS: [DamageKind; 3] = [
    DamageKind::MarkPast2,
    DamageKind::PinnedAtTheOtherValue,
    DamageKind::MarkPastTheTerms,
];

/// Gives an order, lists, pins and lifts of known and of unknown terms; all must be refused for this reason, with nothing changed.
fn refuse_all(sides: &mut Sides, reason: u64, random: &mut Random) {
    let terms = sides.counts.terms;
    sides.refuse_order(&ORDER, reason);
    sides.refuse(&[], reason);
    sides.refuse(&few_flips(terms, random), reason);
    sides.refuse(&[terms], reason);
    for term in [0, terms.saturating_sub(1), terms, LAST] {
        sides.refuse_pin_and_lift(term, reason);
    }
}

#[test]
fn marks_that_do_not_hold_are_reason_12_in_every_call() {
    let mut sides = Sides::start();
    for kind in MARKS {
        for seed in 0..40 {
            let random = &mut Random::new(seed);
            let (mut counts, mut tables) = pinned(random);
            damage_of(kind, &NARROW, &mut counts, &mut tables, random);
            sides.lend(format!("{kind:?}, seed {seed}"), (counts, tables));
            refuse_all(&mut sides, TABLES_DISAGREE, random);
        }
    }
}

/// Tables of three terms that are pinned, at 0, at 1 and at this value.
fn three_pinned(sides: &mut Sides, value: u64) -> Lent {
    sides.lend_rubbish(format!("value {value}"), &mut Random::new(value));
    sides.accept(b"a b ~c\n~a c\nb c\n");
    for (term, value) in [(0, 0), (1, 1), (2, value)] {
        sides.apply_pin(term, value);
    }
    (sides.counts, sides.tables.clone())
}

/// The last one's mark becomes every byte.
#[test]
fn every_byte_but_0_and_the_mark_of_the_value_is_reason_12() {
    let mut sides = Sides::start();
    for value in [0, 1] {
        let (counts, mut tables) = three_pinned(&mut sides, value);
        for mark in 0..=255 {
            tables.marks[2] = mark;
            sides.lend(
                format!("value {value}, mark {mark}"),
                (counts, tables.clone()),
            );
            if mark == FREE || mark == mark_of(Some(value == 1)) {
                sides.walk_by(&ORDER);
            } else {
                sides.refuse_order(&ORDER, TABLES_DISAGREE);
                sides.refuse(&[2], TABLES_DISAGREE);
                sides.refuse_pin_and_lift(2, TABLES_DISAGREE);
            }
        }
    }
}

/// Of a small file many places past the last term, the first and the last too.
#[test]
fn a_mark_past_the_terms_is_reason_12() {
    let mut sides = Sides::start();
    let (counts, tables) = holding(b"a b\n~a c\n", &mut Random::new(3));
    let past = (counts.terms as usize..NARROW.terms).step_by(19);
    for entry in past.chain([NARROW.terms - 1]) {
        for mark in [1, 2] {
            let mut tables = tables.clone();
            tables.marks[entry] = mark;
            sides.lend(format!("mark {entry} is {mark}"), (counts, tables));
            sides.refuse_order(&ORDER, TABLES_DISAGREE);
        }
    }
}

#[test]
fn an_unknown_term_is_neither_pinned_nor_lifted() {
    for_each_file(0..FILES, pinned, |sides, random| {
        let terms = sides.counts.terms;
        for unknown in [terms, terms + 1, 2_048, 65_535, 65_536, 1 << 31, LAST] {
            sides.refuse_pin_and_lift(unknown, UNKNOWN_TERM);
        }
        let same_low_bits = (1 << 16) + random.bits() % terms;
        sides.refuse_pin_and_lift(same_low_bits, UNKNOWN_TERM);
        sides.apply_pin(terms - 1, 1);
        sides.apply_lift(terms - 1);
    });
}

#[test]
fn where_2_048_terms_stand_2_047_is_pinned_and_2_048_is_not() {
    for_each_file(0..2, full_tables, |sides, random| {
        for value in [0, 1, 0] {
            sides.apply_pin(2_047, value);
            sides.walk_by(&few_steps(random));
            sides.refuse(&[0, 2_047], PINNED_TERM);
            sides.refuse(&[2_047, 2_048], UNKNOWN_TERM);
        }
        sides.refuse_pin_and_lift(2_048, UNKNOWN_TERM);
        sides.apply_lift(2_047);
        sides.apply(&[0, 2_047]);
    });
}

/// The terms that are pinned, and those that are free.
fn pinned_and_free(sides: &Sides) -> [Vec<u64>; 2] {
    let is_pinned = |term: &u64| sides.tables.marks[*term as usize] != FREE;
    let (pinned, free) = (0..sides.counts.terms).partition(is_pinned);
    [pinned, free]
}

/// At the front, in the middle and at the end of free terms; an unknown term anywhere comes before it.
#[test]
fn point_36_a_pinned_term_refuses_the_whole_list_for_20_but_13_comes_first() {
    let mut met = 0;
    for_each_file(0..60, pinned, |sides, random| {
        let [pins, free] = pinned_and_free(sides);
        sides.apply(&free);
        let Some(pin) = pins.first() else {
            return;
        };
        let unknown = sides.counts.terms;
        for place in [0, free.len() / 2, free.len()] {
            let mut list = free.clone();
            list.insert(place, *pin);
            sides.refuse(&list, PINNED_TERM);
            list.insert(random.between(0, list.len()), unknown);
            sides.refuse(&list, UNKNOWN_TERM);
        }
        let longest = vec![*pin; NARROW.list];
        sides.refuse(&longest, PINNED_TERM);
        sides.refuse(&[&longest[1..], &[unknown]].concat(), UNKNOWN_TERM);
        sides.refuse(&[&longest[..], &[unknown]].concat(), LIST_TOO_LONG);
        met += 1;
    });
    assert!(met >= 30, "{met}");
}

/// Tables that agree but for a true count, with pins.
fn disagreeing_with_pins(random: &mut Random) -> Lent {
    let (counts, mut tables) = pinned(random);
    tables.trues[0] ^= 1;
    (counts, tables)
}

#[test]
fn tables_that_disagree_are_reason_12_before_13_and_20() {
    for make in [disagreeing, disagreeing_with_pins] {
        for_each_file(0..FILES, make, |sides, random| {
            refuse_all(sides, TABLES_DISAGREE, random);
        });
    }
}

#[test]
fn a_table_too_short_is_reason_1_whatever_else_is_wrong() {
    for make in [agreeing, pinned, disagreeing_with_pins] {
        for_each_shorter(make, |sides, random| {
            refuse_all(sides, TABLE_TOO_SHORT, random);
            sides.refuse_order(&Order { seed: 0, ..ORDER }, TABLE_TOO_SHORT);
        });
    }
}

/// Marks that would not hold, and one entry too few of them.
#[test]
fn point_36_marks_of_2_047_bytes_are_reason_1_in_every_call() {
    let mut sides = Sides::start();
    for (seed, kind) in (0..).zip(MARKS.repeat(5)) {
        let random = &mut Random::new(seed);
        let (mut counts, mut tables) = pinned(random);
        damage_of(kind, &NARROW, &mut counts, &mut tables, random);
        tables.marks.truncate(2_047);
        sides.lend(format!("{kind:?}, seed {seed}"), (counts, tables));
        refuse_all(&mut sides, TABLE_TOO_SHORT, random);
        sides.refuse_order(&Order { seed: 0, ..ORDER }, TABLE_TOO_SHORT);
        sides.refuse(&[9; 65_537], TABLE_TOO_SHORT);
        sides.refuse_text(b"a\t", TABLE_TOO_SHORT, 0);
        sides.refuse_run(b"seed=0\n", &mut vec![7; NARROW.output_size()]);
    }
}

/// Pins, lifts, lists and orders, applied and refused; what lies beyond the tables is compared each time.
fn call_in_turn(sides: &mut Sides, random: &mut Random) {
    let terms = sides.counts.terms;
    for _ in 0..3 {
        let term = random.bits() % terms;
        sides.apply_pin(term, random.bits() % 2);
        sides.refuse(&[term], PINNED_TERM);
        sides.refuse_pin_and_lift(terms, UNKNOWN_TERM);
        sides.walk_by(&few_steps(random));
        sides.apply(&without_pinned(few_flips(terms, random), &sides.tables));
        sides.apply_lift(term);
    }
}

/// Tables that hold every limit, some of them with rubbish beyond, the marks too.
fn longer_and_full(random: &mut Random) -> Lent {
    let (counts, mut tables) = full_tables(random);
    lengthen(&mut tables, &NARROW, random);
    tables.marks.extend([1, 2, 255]);
    (counts, tables)
}

#[test]
fn rubbish_beyond_the_tables_stays() {
    for_each_longer(pinned, call_in_turn);
    for_each_file([7], longer_and_full, call_in_turn);
}

/// The counts come back as they were given.
#[test]
fn counts_of_any_32_bits_come_back_from_a_refused_pin_or_lift() {
    let mut sides = Sides::start();
    for seed in 0..40 {
        let random = &mut Random::new(seed);
        let (mut counts, mut tables) = pinned(random);
        for count in counts.all_mut() {
            *count = random.pick(&[0, 1, 65_536, 1 << 31, LAST]);
        }
        sides.lend(format!("seed {seed}"), (counts, tables.clone()));
        sides.refuse_pin_and_lift(0, TABLES_DISAGREE);
        tables.marks.pop();
        sides.lend(format!("seed {seed}, short"), (counts, tables));
        sides.refuse_pin_and_lift(0, TABLE_TOO_SHORT);
    }
}

#[test]
fn point_37_any_value_but_0_pins_at_1() {
    for_each_file(0..FILES, pinned, |sides, random| {
        let term = random.bits() % sides.counts.terms;
        let before = (sides.counts, sides.tables.clone());
        for value in [1, 2, 3, 255, 256, 1 << 16, 1 << 31, LAST] {
            sides.lend_instead(before.clone());
            sides.apply_pin(term, value);
            let (mark, values) = (
                sides.tables.marks[term as usize],
                values_of(&sides.counts, &sides.tables),
            );
            let told = (mark, values[term as usize]);
            assert_eq!(told, (2, true), "{}, value {value}", sides.case);
        }
    });
}

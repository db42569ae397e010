//! Walks by orders and on files that reach as far as there may be.

use boundary::texts::{first_names, negated, one_line, unit_lines};
use boundary::walk_kinds::{walk_and_note, Kinds, Met::*};
use boundary::{for_each_file, full_tables, holding, order_for, Sides, Tally, NARROW};
use oracle::generate::*;
use oracle::order::MODES;
use oracle::Order;

const FOUND: u64 = 1;
const GAVE_UP: u64 = 2;

fn lend(sides: &mut Sides, case: &str, text: &[u8]) {
    sides.lend(case.into(), holding(text, &mut Random::new(0)));
}

/// Walks on a file that no values cover, so that every flip and walk is made.
fn make_them_all(orders: &[(u64, u64, u64)]) {
    let mut sides = Sides::start();
    lend(&mut sides, "a contradiction", b"a\n~a\n");
    for (flips, walks, bias) in orders {
        let answer = sides.walk(&order_for(*flips, *walks, *bias));
        let told = [answer.result, answer.walks, answer.flips];
        assert_eq!(told, [GAVE_UP, *walks, walks * flips]);
    }
}

#[test]
fn walks_of_up_to_100_000_flips_make_them_all() {
    make_them_all(&[(100_000, 3, 400), (65_536, 2, 0), (65_537, 1, 1_000)]);
}

#[test]
fn up_to_1_000_walks_are_begun() {
    make_them_all(&[(0, 1_000, 400), (7, 1_000, 400), (3, 257, 0), (0, 256, 0)]);
}

/// Eight unit clauses, which one start in 256 covers.
#[test]
fn a_walk_far_on_may_find() {
    let mut sides = Sides::start();
    lend(&mut sides, "units", b"a\n~b\nc\n~d\n~e\nf\ng\n~h\n");
    let mut met = Kinds::default();
    for seed in 1..20 {
        let order = order_for(0, 1_000, 400);
        walk_and_note(&mut sides, &Order { seed, ..order }, &mut met);
    }
    met.expect([(FoundInALaterWalk, 15)]);
}

/// Few flips, since each takes the independent program long on these.
fn compare_some_orders(sides: &mut Sides, random: &mut Random, met: &mut Kinds) {
    let kinds = &OrderKind::IN_RANGE[..4];
    for _ in 0..4 {
        let order = order_of(random.pick(kinds), random);
        for even in MODES {
            walk_and_note(sides, &Order { even, ..order }, met);
        }
    }
}

#[test]
fn walks_on_files_that_meet_one_limit_end_as_the_independent_program_ends_them() {
    let mut sides = Sides::start();
    let mut met = Kinds::default();
    let kinds = [
        TextKind::TermsAtLimit,
        TextKind::ClausesAtLimit,
        TextKind::LiteralsAtLimit,
    ];
    for seed in 0..12 {
        for kind in kinds {
            let random = &mut Random::new(seed);
            let text = clause_text_of(kind, &NARROW, random);
            sides.lend(format!("{kind:?}, seed {seed}"), holding(&text, random));
            compare_some_orders(&mut sides, random, &mut met);
        }
    }
    met.expect([(ByTheRemainder, 144), (Evenly, 144)]);
    met.expect([(HeadsInALongerClause, 15), (TailsAndSeveralAtTheLeast, 8)]);
}

#[test]
fn walks_on_files_that_meet_every_limit_end_as_the_independent_program_ends_them() {
    let mut met = Kinds::default();
    for_each_file(0..8, full_tables, |sides, random| {
        compare_some_orders(sides, random, &mut met);
    });
    met.expect([(ByTheRemainder, 32), (Evenly, 32), (OneBreaksNothing, 50)]);
}

/// One term alone, so that the list, the places and a break count reach their highest numbers; from seed 1 it starts at 1.
#[test]
fn the_list_holds_up_to_8_192_clauses() {
    let mut sides = Sides::start();
    for (positive, flips, result) in [
        (0, 0, GAVE_UP),
        (0, 1, FOUND),
        (1, 9, GAVE_UP),
        (4_096, 8, GAVE_UP),
        (8_191, 0, GAVE_UP),
        (8_191, 7, GAVE_UP),
        (8_192, 0, FOUND),
    ] {
        let text = "a\n".repeat(positive) + &"~a\n".repeat(NARROW.clauses - positive);
        lend(&mut sides, &format!("{positive} times a"), text.as_bytes());
        for bias in [0, 1_000] {
            let answer = sides.walk(&order_for(flips, 1, bias));
            assert_eq!((answer.result, answer.flips), (result, flips));
        }
    }
}

/// A clause of 2,048 literals, and for each the clause of its opposite, one in so many of them twice: where all of its literals are false,
/// each breaks one clause or two.
fn widest_clause(twice: usize) -> Vec<u8> {
    let names = first_names(NARROW.terms);
    let opposites = negated(&names);
    let again: Vec<_> = opposites.iter().step_by(twice).cloned().collect();
    [one_line(&names), unit_lines(&opposites), unit_lines(&again)].concat()
}

/// What is chosen there is turned back by the next step, so of two walks, one of them a flip longer, one ends with it.
#[test]
fn a_literal_is_chosen_among_2_048() {
    let mut sides = Sides::start();
    let mut met = Tally::default();
    for (twice, bias) in [(2_048, 0), (2_048, 1_000), (3, 0), (3, 500)] {
        let case = format!("one in {twice} twice");
        lend(&mut sides, &case, &widest_clause(twice));
        for (seed, flips) in [(1, 1_500), (1, 1_501), (2, 1_600), (2, 1_601)] {
            let order = order_for(flips, 1, bias);
            sides.walk(&Order { seed, ..order });
            let last = sides.steps.last().expect("a step is made");
            met.note((twice, last.literals, last.heads));
        }
    }
    met.expect([true, false].map(|heads| ((2_048, 2_048, Some(heads)), 2)));
    met.expect([true, false].map(|heads| ((3, 2_048, Some(heads)), 1)));
}

//! Flip lists on tables that agree.

use boundary::tally::share_out;
use boundary::{agreeing, for_each_file, full_tables, holding, Sides, Tally, NARROW};
use oracle::generate::*;
use oracle::reasons::{LIST_TOO_LONG, NONE, UNKNOWN_TERM};

const FILES: u64 = 2_100;
const LISTS_ON_EACH: u64 = 10;

/// Mostly short lists, so that many can be compared.
const USUAL: [FlipListKind; 8] = [
    FlipListKind::Empty,
    FlipListKind::One,
    FlipListKind::Few,
    FlipListKind::Few,
    FlipListKind::Hundreds,
    FlipListKind::OneTermOften,
    FlipListKind::EachTermOnce,
    FlipListKind::UnknownTerm,
];

/// Of the usual kinds, or seldom of thousands of flips.
fn some_list(terms: u64, random: &mut Random) -> Vec<u64> {
    let kind = if random.one_in(40) {
        FlipListKind::Thousands
    } else {
        random.pick(&USUAL)
    };
    flip_list_of(kind, &NARROW, terms, random)
}

/// Lists of mixed kinds, one after the other on the same tables; notes each reason.
fn compare_some_lists(sides: &mut Sides, random: &mut Random, met: &mut Tally<u64>) {
    for _ in 0..LISTS_ON_EACH {
        let list = some_list(sides.counts.terms, random);
        met.note(sides.flip(&list).reason);
    }
}

/// Compares lists on the file of each seed.
fn compare_files(seeds: &[u64]) -> Tally<u64> {
    let mut met = Tally::default();
    for_each_file(seeds.iter().copied(), agreeing, |sides, random| {
        compare_some_lists(sides, random, &mut met);
    });
    met
}

#[test]
fn twenty_thousand_random_lists_leave_what_the_independent_program_leaves() {
    let met = share_out(FILES, compare_files);
    assert!(met.total() >= 20_000, "{met:?}");
    met.expect([(NONE, 10_000), (UNKNOWN_TERM, 1_000)]);
}

#[test]
fn lists_on_files_that_meet_one_limit_leave_what_the_independent_program_leaves() {
    let kinds = [
        TextKind::TermsAtLimit,
        TextKind::ClausesAtLimit,
        TextKind::LiteralsAtLimit,
    ];
    let mut sides = Sides::start();
    let mut met = Tally::default();
    for seed in 0..6 {
        for kind in kinds {
            let random = &mut Random::new(seed);
            let text = clause_text_of(kind, &NARROW, random);
            sides.lend(format!("{kind:?}, seed {seed}"), holding(&text, random));
            compare_some_lists(&mut sides, random, &mut met);
        }
    }
    met.expect([(NONE, 90), (UNKNOWN_TERM, 9)]);
}

#[test]
fn lists_on_files_that_meet_every_limit_leave_what_the_independent_program_leaves() {
    let mut met = Tally::default();
    for_each_file(0..6, full_tables, |sides, random| {
        compare_some_lists(sides, random, &mut met);
    });
    met.expect([(NONE, 30), (UNKNOWN_TERM, 3)]);
}

/// Small files and one that holds every limit, each with a list of this kind.
fn for_long_lists(kind: FlipListKind, check: fn(&mut Sides, &[u64])) {
    let mut sides = Sides::start();
    for seed in 0..5 {
        let random = &mut Random::new(seed);
        let standing = match seed {
            0 => full_tables(random),
            _ => agreeing(random),
        };
        sides.lend(format!("{kind:?}, seed {seed}"), standing);
        let list = flip_list_of(kind, &NARROW, sides.counts.terms, random);
        check(&mut sides, &list);
    }
}

#[test]
fn lists_of_65_536_flips_are_applied_again_and_again() {
    for_long_lists(FlipListKind::AtLimit, |sides, list| {
        assert_eq!(list.len(), 65_536);
        sides.apply(list);
        sides.apply(list);
        sides.apply(&list[1..]);
    });
}

#[test]
fn lists_of_65_537_flips_are_refused_and_shorter_ones_then_applied() {
    for_long_lists(FlipListKind::PastLimit, |sides, list| {
        assert_eq!(list.len(), 65_537);
        sides.refuse(list, LIST_TOO_LONG);
        sides.apply(&list[1..]);
    });
}

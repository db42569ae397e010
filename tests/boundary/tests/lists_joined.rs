//! Flip lists in turn: two of them are one, the empty one changes nothing, and one given twice brings all back but an order.

use boundary::tally::share_out;
use boundary::{agreeing, for_each_file, full_tables, Lent, Readings, Sides, Tally, NARROW};
use oracle::generate::*;
use oracle::reasons::LIST_TOO_LONG;

const FILES: u64 = 1_000;
const LISTS_ON_EACH: usize = 5;

/// How a list was cut.
#[derive(Clone, Copy, Debug, PartialEq, Eq, PartialOrd, Ord)]
enum Cut {
    Within,
    BeforeAll,
    AfterAll,
    OfNothing,
}

fn lent(sides: &Sides) -> Lent {
    (sides.counts, sides.tables.clone())
}

/// Lists that are applied, mostly short, of every kind but the longest.
fn some_list(terms: u64, random: &mut Random) -> Vec<u64> {
    let usual = &FlipListKind::ACCEPTED[..FlipListKind::ACCEPTED.len() - 1];
    let kinds = [FlipListKind::Few, random.pick(usual)];
    flip_list_of(random.pick(&kinds), &NARROW, terms, random)
}

/// Gives the two parts in turn, then the joined list on the same tables: both must leave the same, every entry.
fn give_both_ways(sides: &mut Sides, first: &[u64], second: &[u64]) {
    let before = lent(sides);
    sides.apply(first);
    sides.apply(second);
    let in_turn = lent(sides);
    sides.lend_instead(before);
    sides.apply(&[first, second].concat());
    assert!(in_turn == lent(sides), "{first:?}, then {second:?}");
}

/// Gives a list twice: what stood is back but for the order.
fn give_twice(sides: &mut Sides, list: &[u64]) {
    let (counts, tables) = lent(sides);
    sides.apply(list);
    sides.apply(list);
    assert_eq!(counts, sides.counts);
    let (before, after) = (tables, sides.tables.clone());
    let same = before.without_list_order(&counts) == after.without_list_order(&counts);
    assert!(same, "{list:?}, twice");
}

/// Gives the empty list: nothing changes.
fn give_nothing(sides: &mut Sides) {
    let before = lent(sides);
    sides.apply(&[]);
    assert!(before == lent(sides));
}

/// Lists on the file of each seed, each cut somewhere.
fn cut_lists(seeds: &[u64]) -> Tally<Cut> {
    let mut met = Tally::default();
    for_each_file(seeds.iter().copied(), agreeing, |sides, random| {
        for _ in 0..LISTS_ON_EACH {
            let list = some_list(sides.counts.terms, random);
            let (first, second) = list.split_at(random.between(0, list.len()));
            give_both_ways(sides, first, second);
            met.note(match (first, second) {
                ([], []) => Cut::OfNothing,
                ([], _) => Cut::BeforeAll,
                (_, []) => Cut::AfterAll,
                _ => Cut::Within,
            });
        }
        give_nothing(sides);
    });
    met
}

#[test]
fn five_thousand_lists_cut_anywhere_leave_what_they_leave_whole() {
    let met = share_out(FILES, cut_lists);
    assert!(met.total() >= 5_000, "{met:?}");
    met.expect([
        (Cut::Within, 2_500),
        (Cut::BeforeAll, 100),
        (Cut::AfterAll, 100),
        (Cut::OfNothing, 100),
    ]);
}

/// Lists on files of any size, then one of each kind on files that meet every limit.
#[test]
fn each_list_given_twice_brings_back_all_but_an_order() {
    let met = share_out(FILES, |seeds| {
        let mut met = Tally::default();
        for_each_file(seeds.iter().copied(), agreeing, |sides, random| {
            for _ in 0..LISTS_ON_EACH {
                let list = some_list(sides.counts.terms, random);
                give_twice(sides, &list);
                met.note(list.is_empty());
            }
        });
        met
    });
    assert!(met.total() >= 5_000, "{met:?}");
    met.expect([(false, 4_000), (true, 100)]);
    for_each_file(0..3, full_tables, |sides, random| {
        for kind in FlipListKind::ACCEPTED {
            let list = flip_list_of(kind, &NARROW, sides.counts.terms, random);
            give_twice(sides, &list);
        }
    });
}

/// A file, lists given to it in turn, and the entries in use that they leave.
struct Row {
    text: &'static str,
    lists: &'static [&'static [u64]],
    values: u64,
    trues: &'static [u64],
    breaks: &'static [u64],
    uncovered: &'static [u64],
    places: &'static [u64],
}

const THREE: &str = "a\nb\nc\n";
const FOUR: &str = "a b\n~a b\nb c\n~c\n";

/// None of three clauses covered, in this order, with these places.
const fn none_covered(
    lists: &'static [&'static [u64]],
    uncovered: &'static [u64],
    places: &'static [u64],
) -> Row {
    Row {
        text: THREE,
        lists,
        values: 0,
        trues: &[0, 0, 0],
        breaks: &[0, 0, 0],
        uncovered,
        places,
    }
}

/// The last of four clauses not covered.
const fn last_uncovered(lists: &'static [&'static [u64]]) -> Row {
    Row {
        text: FOUR,
        lists,
        values: 6,
        trues: &[1, 2, 2, 0],
        breaks: &[0, 1, 0],
        uncovered: &[3],
        places: &[0, 0, 0, 0],
    }
}

/// The rows that request 7 lists.
const ROWS: [Row; 6] = [
    none_covered(&[&[0], &[0]], &[2, 1, 0], &[2, 1, 0]),
    none_covered(&[&[0, 0]], &[2, 1, 0], &[2, 1, 0]),
    none_covered(&[&[]], &[0, 1, 2], &[0, 1, 2]),
    last_uncovered(&[&[0, 2], &[1, 0]]),
    last_uncovered(&[&[0, 2, 1, 0]]),
    Row {
        text: FOUR,
        lists: &[&[2, 0, 1], &[2, 0, 1]],
        values: 0,
        trues: &[0, 1, 0, 1],
        breaks: &[1, 0, 1],
        uncovered: &[0, 2],
        places: &[0, 0, 1, 0],
    },
];

#[test]
fn the_lists_that_request_7_lists_leave_what_its_rows_say() {
    let mut readings = Readings::start("a row");
    for row in ROWS {
        let counts = readings.accept(row.text.as_bytes());
        let sides = &mut readings.sides;
        row.lists.iter().for_each(|list| sides.apply(list));
        let [_, _, _, _, _, _, trues, breaks, uncovered, places, _] = sides.counts.in_use();
        let tables = &sides.tables;
        assert_eq!(sides.counts.all()[..3], counts.all()[..3]);
        assert_eq!(tables.values[0], row.values, "{:?}", row.lists);
        assert_eq!(tables.trues[..trues], *row.trues, "{:?}", row.lists);
        assert_eq!(tables.breaks[..breaks], *row.breaks, "{:?}", row.lists);
        assert_eq!(
            tables.uncovered[..uncovered],
            *row.uncovered,
            "{:?}",
            row.lists
        );
        assert_eq!(tables.places[..places], *row.places, "{:?}", row.lists);
    }
}

#[test]
fn forty_thousand_flips_are_applied_twice_and_eighty_thousand_at_once_refused() {
    for_each_file(0..4, agreeing, |sides, random| {
        let terms = sides.counts.terms;
        let list: Vec<u64> = (0..40_000).map(|_| random.bits() % terms).collect();
        let joined = list.repeat(2);
        sides.refuse(&joined, LIST_TOO_LONG);
        give_twice(sides, &list);
        sides.refuse(&joined, LIST_TOO_LONG);
    });
}

//! Pinned terms: the rows that request 8 lists, and pins, lifts, lists and walks one after the other.

use boundary::tally::share_out;
use boundary::{agreeing, few_flips, few_steps, for_each_file, pinned, Lent, Sides, Tally, NARROW};
use oracle::generate::*;
use oracle::kinds;
use oracle::marks::FREE;
use oracle::pin_rows::ROWS;
use oracle::reasons::{NONE, PINNED_TERM, UNKNOWN_TERM};
use oracle::walk::End;
use oracle::{Counts, Tables};

const SEQUENCES: u64 = 600;
const CALLS_IN_EACH: u64 = 10;

fn lent(sides: &Sides) -> Lent {
    (sides.counts, sides.tables.clone())
}

#[test]
fn every_row_of_request_8_is_answered_as_it_says_and_leaves_what_it_says() {
    let mut sides = Sides::start();
    for row in ROWS {
        sides.lend(
            format!("{row:?}"),
            (Counts::default(), Tables::zeros(&NARROW)),
        );
        sides.accept(row.text.as_bytes());
        for call in row.before {
            assert_eq!(sides.call(call).reason, NONE, "{row:?}");
        }
        let mut before = lent(&sides);
        row.spoil(&mut before.1);
        sides.lend_instead(before.clone());
        let told = sides.call(&row.call);
        row.judge(&told, &before, &lent(&sides));
    }
}

kinds! {
    /// What a call came to.
    enum Done {
        PinnedAsItStood,
        PinnedAndFlipped,
        PinnedTheOtherWay,
        PinRefused,
        Lifted,
        LiftedWhereFree,
        LiftRefused,
        ListApplied,
        ListNamesAPinned,
        ListNamesAnUnknown,
        ListNamesBoth,
        Walked,
        WalkStuck,
    }
}

use Done::*;

/// A known term, one time in eight one that is not.
fn some_term(sides: &Sides, random: &mut Random) -> u64 {
    let terms = sides.counts.terms;
    if random.one_in(8) {
        random.pick(&[terms, terms + 1, 2_048, 1 << 16, 1 << 31])
    } else {
        random.bits() % terms
    }
}

fn mark_of(sides: &Sides, term: u64) -> u64 {
    sides.tables.marks.get(term as usize).copied().unwrap_or(0)
}

fn pin_some_term(sides: &mut Sides, random: &mut Random) -> Done {
    let term = some_term(sides, random);
    let (mark, values) = (mark_of(sides, term), sides.tables.values.clone());
    let value = random.pick(&[0, 0, 1, 2, u64::from(u32::MAX)]);
    match sides.pin(term, value).reason {
        NONE if values == sides.tables.values => PinnedAsItStood,
        NONE if mark == FREE => PinnedAndFlipped,
        NONE => PinnedTheOtherWay,
        _ => PinRefused,
    }
}

fn lift_some_term(sides: &mut Sides, random: &mut Random) -> Done {
    let term = some_term(sides, random);
    let mark = mark_of(sides, term);
    match sides.lift(term).reason {
        NONE if mark == FREE => LiftedWhereFree,
        NONE => Lifted,
        _ => LiftRefused,
    }
}

/// Half of the lists name known and free terms alone.
fn list_some(sides: &mut Sides, random: &mut Random) -> Done {
    let mut list = few_flips(sides.counts.terms, random);
    if random.coin() {
        list = without_pinned(list, &sides.tables);
    } else if random.coin() {
        list.push(sides.counts.terms);
        random.shuffle(&mut list);
    }
    let names_a_pinned = list.iter().any(|term| mark_of(sides, *term) != FREE);
    match sides.flip(&list).reason {
        UNKNOWN_TERM if names_a_pinned => ListNamesBoth,
        UNKNOWN_TERM => ListNamesAnUnknown,
        PINNED_TERM => ListNamesAPinned,
        _ => ListApplied,
    }
}

fn walk_some(sides: &mut Sides, random: &mut Random) -> Done {
    sides.walk_by(&few_steps(random));
    match sides.ends.contains(&End::Stuck) {
        true => WalkStuck,
        false => Walked,
    }
}

fn call_some(sides: &mut Sides, random: &mut Random) -> Done {
    match random.below(8) {
        0..=2 => pin_some_term(sides, random),
        3 => lift_some_term(sides, random),
        4..=5 => list_some(sides, random),
        _ => walk_some(sides, random),
    }
}

/// From no pin at all or from any number of them.
fn some_pinned_or_none(random: &mut Random) -> Lent {
    match random.coin() {
        true => agreeing(random),
        false => pinned(random),
    }
}

#[test]
fn six_hundred_sequences_of_ten_calls_leave_what_the_independent_program_leaves() {
    let met = share_out(SEQUENCES, |seeds| {
        let mut met = Tally::default();
        for_each_file(
            seeds.iter().copied(),
            some_pinned_or_none,
            |sides, random| {
                for _ in 0..CALLS_IN_EACH {
                    met.note(call_some(sides, random));
                }
            },
        );
        met
    });
    assert_eq!(met.total(), SEQUENCES * CALLS_IN_EACH);
    met.expect(Done::ALL.map(|done| (done, 50)));
}

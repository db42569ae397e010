//! Readings of both forms, flip lists, pins, walks and whole runs one after the other on the same tables.

use boundary::rubbish::rubbish_output;
use boundary::tally::share_out;
use boundary::{few_flips, Form, Sides, Tally, NARROW};
use oracle::generate::*;
use oracle::kinds;
use oracle::reasons::NONE;
use oracle::sheet::read_sheet;

const FILES: u64 = 400;
const CALLS_ON_EACH: u64 = 40;

kinds! {
    /// What a call came to.
    enum Done {
        Read,
        ReadingRefused,
        NumberedRead,
        NumberedRefused,
        Flipped,
        ListRefused,
        Pinned,
        PinRefused,
        Lifted,
        LiftRefused,
        Found,
        GaveUp,
        WalkRefused,
        RunFound,
        RunGaveUp,
        RunTextRefused,
        RunSheetRefused,
    }
}

use Done::*;

fn read_some(sides: &mut Sides, kind: TextKind, random: &mut Random) -> Done {
    sides.form = Form::Own;
    match sides.read(&clause_text_of(kind, &NARROW, random)).reason {
        NONE => Read,
        _ => ReadingRefused,
    }
}

fn read_some_numbered(sides: &mut Sides, kind: NumberedKind, random: &mut Random) -> Done {
    sides.form = Form::Numbered;
    let text = numbered_text_of(kind, &NARROW, random);
    match sides.read(&text).reason {
        NONE => NumberedRead,
        _ => NumberedRefused,
    }
}

fn flip_some(sides: &mut Sides, random: &mut Random) -> Done {
    let mut list = few_flips(sides.counts.terms, random);
    if random.one_in(3) {
        list.push(sides.counts.terms);
    } else {
        list = without_pinned(list, &sides.tables);
    }
    match sides.flip(&list).reason {
        NONE => Flipped,
        _ => ListRefused,
    }
}

/// A known term, or one time in three one that is not.
fn some_term(sides: &Sides, random: &mut Random) -> u64 {
    let terms = sides.counts.terms;
    if random.one_in(3) {
        random.pick(&[terms, terms + (1 << 16)])
    } else {
        random.bits() % terms.max(1)
    }
}

fn pin_some_term(sides: &mut Sides, random: &mut Random) -> Done {
    let term = some_term(sides, random);
    match sides.pin(term, random.bits() % 3).reason {
        NONE => Pinned,
        _ => PinRefused,
    }
}

fn lift_some_term(sides: &mut Sides, random: &mut Random) -> Done {
    let term = some_term(sides, random);
    match sides.lift(term).reason {
        NONE => Lifted,
        _ => LiftRefused,
    }
}

fn walk_some(sides: &mut Sides, random: &mut Random) -> Done {
    let mut kind = random.pick(&[OrderKind::FewFlips, OrderKind::OneFlip]);
    if random.one_in(3) {
        kind = random.pick(&OrderKind::OUT_OF_RANGE);
    }
    match sides.walk(&order_of(kind, random)).result {
        0 => WalkRefused,
        1 => Found,
        _ => GaveUp,
    }
}

fn run_some(sides: &mut Sides, random: &mut Random) -> Done {
    let kinds = [InputKind::ToWalk, InputKind::ToWalk, InputKind::Cut];
    let input = input_of(random.pick(&kinds), &NARROW, random);
    let printed = sides.run(&input, &mut rubbish_output(random));
    match &printed[..12] {
        b"result=found" => RunFound,
        b"result=gaveu" => RunGaveUp,
        _ if read_sheet(&input).reason == NONE => RunTextRefused,
        _ => RunSheetRefused,
    }
}

/// Mostly lists, walks and runs.
fn call_some(sides: &mut Sides, random: &mut Random) -> Done {
    match random.below(27) {
        0 => read_some(sides, TextKind::Cut, random),
        1..=2 => read_some(sides, TextKind::Valid(random.pick(&ValidKind::ALL)), random),
        3 => read_some_numbered(sides, NumberedKind::NotANumber, random),
        4..=5 => read_some_numbered(sides, random.pick(&NumberedKind::VALID), random),
        6..=8 => flip_some(sides, random),
        9..=12 => walk_some(sides, random),
        13..=15 => pin_some_term(sides, random),
        16..=18 => lift_some_term(sides, random),
        _ => run_some(sides, random),
    }
}

/// Every two that can follow each other; after a text was refused no clause stands.
fn pairs() -> impl Iterator<Item = (Done, Done)> {
    let befores = Done::ALL.into_iter();
    let all = befores.flat_map(|before| Done::ALL.map(|after| (before, after)));
    all.filter(|(before, after)| {
        let none_stands = [ReadingRefused, NumberedRefused, RunTextRefused].contains(before);
        !none_stands || ![Flipped, Pinned, Lifted, Found, GaveUp].contains(after)
    })
}

/// Calls on the tables of each seed; notes which call came after which.
fn compare_files(seeds: &[u64]) -> Tally<(Done, Done)> {
    let mut sides = Sides::start();
    let mut met = Tally::default();
    for seed in seeds {
        let random = &mut Random::new(*seed);
        sides.lend_rubbish(format!("seed {seed}"), random);
        let mut before = read_some(&mut sides, TextKind::Valid(ValidKind::Mixed), random);
        for _ in 0..CALLS_ON_EACH {
            let after = call_some(&mut sides, random);
            met.note((before, after));
            before = after;
        }
    }
    met
}

#[test]
fn every_call_after_every_other_leaves_what_the_independent_program_leaves() {
    let met = share_out(FILES, compare_files);
    met.expect(pairs().map(|pair| (pair, 5)));
}

//! What kinds of end and of step a walk with pins was, to be counted.

use oracle::kinds;
use oracle::marks::FREE;
use oracle::walk::{End, Step, WalkAnswer};
use oracle::Order;

use crate::{Sides, Tally};

kinds! {
    /// What a walk with pins can be.
    pub enum Met {
        /// How the call ended: it gave up with all flips made, or with a walk stuck. Then none finds, since the clause that it stuck in
        /// is never covered.
        ENDS {
            Found,
            FlipsMade,
            Stuck,
        }
        STUCK {
            StuckBeforeAnyFlip,
            StuckAndSomeFlips,
            /// Its start shows how many draws the stuck one has made, since some term is free.
            AnotherStartAfterAStuckWalk,
        }
        PINS {
            NoTermPinned,
            SomeTermsPinned,
            EveryTermPinned,
        }
        /// Steps in clauses that have pinned literals beside the free ones.
        STEPS {
            Heads,
            TailsAndOneAtTheLeast,
            TailsAndSeveralAtTheLeast,
            OneBreaksNothing,
            SeveralBreakNothing,
        }
    }
}

use Met::*;

/// Walks on both sides, by an order that is not refused, and notes all that the walk was.
pub fn walk_and_note(sides: &mut Sides, order: &Order, met: &mut Tally<Met>) {
    let answer = sides.walk_by(order);
    let marks = &sides.tables.marks[..sides.counts.terms as usize];
    let free = marks.iter().filter(|mark| **mark == FREE).count();
    met.note(match free {
        0 => EveryTermPinned,
        all if all == marks.len() => NoTermPinned,
        _ => SomeTermsPinned,
    });
    note_ends(&answer, &sides.ends, free > 0, met);
    for step in sides.steps.iter().filter(|step| step.pinned > 0) {
        met.note(kind_of(step));
    }
}

fn note_ends(answer: &WalkAnswer, ends: &[End], some_free: bool, met: &mut Tally<Met>) {
    let stuck = ends.contains(&End::Stuck);
    met.note(match answer.result {
        1 => Found,
        _ if stuck => Stuck,
        _ => FlipsMade,
    });
    if !stuck {
        return;
    }
    met.note(match answer.flips {
        0 => StuckBeforeAnyFlip,
        _ => StuckAndSomeFlips,
    });
    if some_free && ends[..ends.len() - 1].contains(&End::Stuck) {
        met.note(AnotherStartAfterAStuckWalk);
    }
}

fn kind_of(step: &Step) -> Met {
    match (step.heads, step.at_least) {
        (Some(true), _) => Heads,
        (Some(false), 1) => TailsAndOneAtTheLeast,
        (Some(false), _) => TailsAndSeveralAtTheLeast,
        (None, 1) => OneBreaksNothing,
        (None, _) => SeveralBreakNothing,
    }
}

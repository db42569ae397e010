//! What kinds of order, of end and of step a walk was, to be counted.

use oracle::kinds;
use oracle::order::{SEEDS, THOUSANDTHS};
use oracle::reasons::NONE;
use oracle::walk::{Step, WalkAnswer};
use oracle::{Counts, Order, Tables};

use crate::{Sides, Tally};

kinds! {
    /// What a walk can be.
    pub enum Met {
        ANY {
            Walk,
            TermInNoClause,
        }
        ORDERS {
            FirstSeed,
            LastSeed,
            AnotherSeed,
            NoFlipAllowed,
            OneFlipAllowed,
            TwoFlipsAllowed,
            FewFlipsAllowed,
            ManyFlipsAllowed,
            OneWalkAllowed,
            TwoWalksAllowed,
            ThreeWalksAllowed,
            FourWalksAllowed,
            FiveWalksAllowedOrMore,
            Bias0,
            Bias400,
            Bias1000,
            AnotherBias,
            ByTheRemainder,
            Evenly,
        }
        ENDS {
            GaveUpAfterOneWalk,
            GaveUpAfterSeveralWalks,
            FoundInTheFirstWalk,
            FoundInALaterWalk,
            FoundWithNoFlipAllowed,
            FoundBeforeAFlip,
            FoundByTheLastFlip,
            FoundByAnEarlierFlip,
        }
        STEPS {
            OneUncovered,
            HeadsInAClauseOfOne,
            HeadsInALongerClause,
            TailsAndOneAtTheLeast,
            TailsAndSeveralAtTheLeast,
            OneBreaksNothing,
            SeveralBreakNothing,
        }
    }
}

use Met::*;

pub type Kinds = Tally<Met>;

/// Walks on both sides, by an order that is not refused, and notes all that the walk was.
pub fn walk_and_note(sides: &mut Sides, order: &Order, met: &mut Kinds) {
    let answer = sides.walk(order);
    assert_eq!(answer.reason, NONE);
    met.note(Walk);
    note_order(order, met);
    note_answer(order, &answer, met);
    if has_a_term_in_no_clause(&sides.counts, &sides.tables) {
        met.note(TermInNoClause);
    }
    for step in &sides.steps {
        note_step(step, met);
    }
}

fn note_order(order: &Order, met: &mut Kinds) {
    met.note(match order.seed {
        seed if seed == *SEEDS.start() => FirstSeed,
        seed if seed == *SEEDS.end() => LastSeed,
        _ => AnotherSeed,
    });
    met.note(match order.flips {
        0 => NoFlipAllowed,
        1 => OneFlipAllowed,
        2 => TwoFlipsAllowed,
        3..=99 => FewFlipsAllowed,
        _ => ManyFlipsAllowed,
    });
    met.note(match order.walks {
        1 => OneWalkAllowed,
        2 => TwoWalksAllowed,
        3 => ThreeWalksAllowed,
        4 => FourWalksAllowed,
        _ => FiveWalksAllowedOrMore,
    });
    met.note(match order.bias {
        0 => Bias0,
        400 => Bias400,
        THOUSANDTHS => Bias1000,
        _ => AnotherBias,
    });
    met.note(match order.even {
        0 => ByTheRemainder,
        _ => Evenly,
    });
}

/// The walks before the last have made all their flips.
fn note_answer(order: &Order, answer: &WalkAnswer, met: &mut Kinds) {
    let several = answer.walks > 1;
    if answer.result != 1 {
        met.note(if several {
            GaveUpAfterSeveralWalks
        } else {
            GaveUpAfterOneWalk
        });
        return;
    }
    met.note(if several {
        FoundInALaterWalk
    } else {
        FoundInTheFirstWalk
    });
    let of_the_last = answer.flips - (answer.walks - 1) * order.flips;
    met.note(match of_the_last {
        0 if order.flips == 0 => FoundWithNoFlipAllowed,
        0 => FoundBeforeAFlip,
        last if last == order.flips => FoundByTheLastFlip,
        _ => FoundByAnEarlierFlip,
    });
}

fn note_step(step: &Step, met: &mut Kinds) {
    if step.uncovered == 1 {
        met.note(OneUncovered);
    }
    met.note(match step.heads {
        Some(true) if step.literals == 1 => HeadsInAClauseOfOne,
        Some(true) => HeadsInALongerClause,
        Some(false) if step.at_least == 1 => TailsAndOneAtTheLeast,
        Some(false) => TailsAndSeveralAtTheLeast,
        None if step.at_least == 1 => OneBreaksNothing,
        None => SeveralBreakNothing,
    });
}

/// Whether a term's two runs of occurrences are empty.
fn has_a_term_in_no_clause(counts: &Counts, tables: &Tables) -> bool {
    let starts = &tables.occurrence_starts[..=2 * counts.terms as usize];
    starts.windows(3).step_by(2).any(|runs| runs[0] == runs[2])
}

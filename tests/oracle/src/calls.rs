//! The calls on tables that hold a file, as values, so that a row can name one.

use crate::flips::{flip, FlipAnswer};
use crate::limits::Limits;
use crate::order::Order;
use crate::pins::{lift, pin};
use crate::tables::{Counts, Tables};
use crate::walk::{walk, WalkAnswer};

/// A call on tables that hold a file.
#[derive(Clone, Copy, Debug)]
pub enum Call {
    Pin { term: u64, value: u64 },
    Lift { term: u64 },
    Flip { list: &'static [u64] },
    Walk { order: Order },
}

/// What any of the calls answers; walks and flips are 0 but for a walk.
#[derive(Clone, Copy, Debug, PartialEq, Eq)]
pub struct Told {
    pub result: u64,
    pub reason: u64,
    pub walks: u64,
    pub flips: u64,
    pub counts: Counts,
}

impl From<FlipAnswer> for Told {
    fn from(answer: FlipAnswer) -> Told {
        Told {
            result: answer.result,
            reason: answer.reason,
            walks: 0,
            flips: 0,
            counts: answer.counts,
        }
    }
}

impl From<WalkAnswer> for Told {
    fn from(answer: WalkAnswer) -> Told {
        Told {
            result: answer.result,
            reason: answer.reason,
            walks: answer.walks,
            flips: answer.flips,
            counts: answer.counts,
        }
    }
}

impl Call {
    /// Makes the call by the independent program.
    pub fn make(&self, limits: &Limits, counts: Counts, tables: &mut Tables) -> Told {
        match *self {
            Call::Pin { term, value } => pin(limits, term, value, counts, tables).into(),
            Call::Lift { term } => lift(limits, term, counts, tables).into(),
            Call::Flip { list } => flip(limits, list, counts, tables).into(),
            Call::Walk { order } => walk(limits, &order, counts, tables).into(),
        }
    }
}

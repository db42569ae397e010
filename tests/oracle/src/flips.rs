//! Flip lists, applied whole or refused whole.

use crate::agree::agree;
use crate::limits::Limits;
use crate::marks::FREE;
use crate::reasons::{
    LIST_TOO_LONG, NONE, PINNED_TERM, TABLES_DISAGREE, TABLE_TOO_SHORT, UNKNOWN_TERM,
};
use crate::state::State;
use crate::tables::{Counts, Tables};

/// Result 1 is accepted, 0 refused.
#[derive(Clone, Copy, Debug, PartialEq, Eq)]
pub struct FlipAnswer {
    pub result: u64,
    pub reason: u64,
    pub counts: Counts,
}

impl FlipAnswer {
    pub fn applied(counts: Counts) -> FlipAnswer {
        FlipAnswer {
            result: 1,
            reason: NONE,
            counts,
        }
    }

    /// "A refused walk or flip list returns the counts it was given".
    pub fn refused(reason: u64, counts: Counts) -> FlipAnswer {
        FlipAnswer {
            result: 0,
            reason,
            counts,
        }
    }
}

/// "does step 5 for each named term, in order, from the values that stand"
pub fn flip(limits: &Limits, list: &[u64], counts: Counts, tables: &mut Tables) -> FlipAnswer {
    if let Some(reason) = reason_against(limits, list, &counts, tables) {
        return FlipAnswer::refused(reason, counts);
    }
    let mut state = State::standing(&counts, tables);
    let occurrences = state.occurrences();
    for term in list {
        state.flip(*term as usize, &occurrences);
    }
    tables.write_over(limits, &state.lay_out(limits));
    FlipAnswer::applied(state.counts())
}

/// "A flip list tests 1, 14, 12, 13", and "20, a flip list names a pinned term, after 13".
fn reason_against(limits: &Limits, list: &[u64], counts: &Counts, tables: &Tables) -> Option<u64> {
    if !tables.reach_full_size(limits) {
        Some(TABLE_TOO_SHORT)
    } else if list.len() > limits.list {
        Some(LIST_TOO_LONG)
    } else if !agree(limits, counts, tables) {
        Some(TABLES_DISAGREE)
    } else if list.iter().any(|term| *term >= counts.terms) {
        Some(UNKNOWN_TERM)
    } else if list.iter().any(|term| tables.marks[*term as usize] != FREE) {
        Some(PINNED_TERM)
    } else {
        None
    }
}

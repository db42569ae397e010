//! Pinning a term and lifting a pin; both answer as a flip list does.

use crate::agree::agree;
use crate::flips::FlipAnswer;
use crate::limits::Limits;
use crate::reasons::{TABLES_DISAGREE, TABLE_TOO_SHORT, UNKNOWN_TERM};
use crate::state::State;
use crate::tables::{Counts, Tables};

/// "Pinning a term marks it and flips it if its value differs". Value 0 pins at 0, any other at 1.
pub fn pin(
    limits: &Limits,
    term: u64,
    value: u64,
    counts: Counts,
    tables: &mut Tables,
) -> FlipAnswer {
    change(limits, term, counts, tables, |state, term| {
        let value = value != 0;
        state.pins[term] = Some(value);
        if state.values[term] != value {
            state.flip(term, &state.occurrences());
        }
    })
}

/// "lifting a pin clears only the mark"
pub fn lift(limits: &Limits, term: u64, counts: Counts, tables: &mut Tables) -> FlipAnswer {
    change(limits, term, counts, tables, |state, term| {
        state.pins[term] = None;
    })
}

/// Changes what stands, where nothing is against it.
fn change(
    limits: &Limits,
    term: u64,
    counts: Counts,
    tables: &mut Tables,
    made: impl Fn(&mut State, usize),
) -> FlipAnswer {
    if let Some(reason) = reason_against(limits, term, &counts, tables) {
        return FlipAnswer::refused(reason, counts);
    }
    let mut state = State::standing(&counts, tables);
    made(&mut state, term as usize);
    tables.write_over(limits, &state.lay_out(limits));
    FlipAnswer::applied(state.counts())
}

/// "pinning and lifting test 1, 12, then 13 for an unknown term"
fn reason_against(limits: &Limits, term: u64, counts: &Counts, tables: &Tables) -> Option<u64> {
    if !tables.reach_full_size(limits) {
        Some(TABLE_TOO_SHORT)
    } else if !agree(limits, counts, tables) {
        Some(TABLES_DISAGREE)
    } else if term >= counts.terms {
        Some(UNKNOWN_TERM)
    } else {
        None
    }
}

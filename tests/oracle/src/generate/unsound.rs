//! Tables that break one rule of agreement, with all that follows from the change laid out again.

use super::random::Random;
use crate::limits::Limits;
use crate::state::{opposite, State};
use crate::tables::{Counts, Tables};

/// A clause of two literals or more names one term twice: by the same literal, or both ways.
pub fn repeat_term(
    both_ways: bool,
    limits: &Limits,
    counts: &mut Counts,
    tables: &mut Tables,
    random: &mut Random,
) {
    let mut state = State::standing(counts, tables);
    let clauses = 0..state.clauses.len();
    let wide: Vec<usize> = clauses
        .filter(|clause| state.clauses[*clause].len() > 1)
        .collect();
    if !wide.is_empty() {
        let clause = &mut state.clauses[random.pick(&wide)];
        random.shuffle(clause);
        clause[1] = if both_ways {
            opposite(clause[0])
        } else {
            clause[0]
        };
        lay_out_again(state, limits, counts, tables);
    }
}

pub fn empty_a_clause(
    limits: &Limits,
    counts: &mut Counts,
    tables: &mut Tables,
    random: &mut Random,
) {
    let mut state = State::standing(counts, tables);
    let clause = random.below(state.clauses.len());
    state.clauses[clause].clear();
    lay_out_again(state, limits, counts, tables);
}

/// The terms stay.
pub fn remove_every_clause(limits: &Limits, counts: &mut Counts, tables: &mut Tables) {
    let mut state = State::standing(counts, tables);
    state.clauses.clear();
    lay_out_again(state, limits, counts, tables);
}

fn lay_out_again(mut state: State, limits: &Limits, counts: &mut Counts, tables: &mut Tables) {
    state.uncovered = state.uncovered_rising();
    *counts = state.counts();
    tables.write_over(limits, &state.lay_out(limits));
}

/// The clauses of a literal that has several fall.
pub fn turn_a_run_round(counts: &Counts, tables: &mut Tables, random: &mut Random) {
    let starts = &tables.occurrence_starts[..=2 * counts.terms as usize];
    let runs = starts
        .windows(2)
        .map(|ends| ends[0] as usize..ends[1] as usize);
    let long: Vec<_> = runs.filter(|run| run.len() > 1).collect();
    if !long.is_empty() {
        tables.occurrences[random.pick(&long)].reverse();
    }
}

/// The last clause of the list is not listed, and nothing else shows it.
pub fn leave_out_uncovered(counts: &mut Counts, tables: &mut Tables) {
    if counts.uncovered > 0 {
        counts.uncovered -= 1;
        let slot = counts.uncovered as usize;
        tables.places[tables.uncovered[slot] as usize] = 0;
        tables.uncovered[slot] = 0;
    }
}

/// A covered clause stands at the end of the list, with its place.
pub fn list_covered(counts: &mut Counts, tables: &mut Tables, random: &mut Random) {
    let clauses = 0..counts.clauses;
    let covered: Vec<u64> = clauses
        .filter(|clause| tables.trues[*clause as usize] > 0)
        .collect();
    if !covered.is_empty() {
        let clause = random.pick(&covered);
        tables.uncovered[counts.uncovered as usize] = clause;
        tables.places[clause as usize] = counts.uncovered;
        counts.uncovered += 1;
    }
}

/// One clause of the list stands in the place of another too.
pub fn list_twice(counts: &Counts, tables: &mut Tables, random: &mut Random) {
    let list = &mut tables.uncovered[..counts.uncovered as usize];
    if list.len() > 1 {
        let first = random.below(list.len() - 1);
        list[first + 1] = list[first];
    }
}

//! The judgement of reason 12, phrase by phrase as "Tables agree if" has it, and as document 02 adds to it.

use std::collections::HashSet;

use crate::limits::{Limits, TERMS_IN_A_WORD};
use crate::marks::{mark_of, FREE};
use crate::reader::{is_name_byte, pack, unpack};
use crate::state::{as_entries, clauses_of, running_starts, term_of, values_of, State};
use crate::tables::{Counts, Tables};

/// Whether the tables agree; each test may rely on those before it, so no index goes out.
pub fn agree(limits: &Limits, counts: &Counts, tables: &Tables) -> bool {
    tables.reach_full_size(limits)
        && counts.are_within(limits)
        && counts.clauses >= 1
        && names_are_valid_and_differ(counts, tables)
        && starts_rise(counts, tables)
        && literals_are_sound(counts, tables)
        && numbers_are_those_of_the_values(counts, tables)
        && the_rest_is_zero(limits, counts, tables)
        && each_mark_holds(counts, tables)
}

/// "names are valid and differ"
fn names_are_valid_and_differ(counts: &Counts, tables: &Tables) -> bool {
    let names = &tables.names[..counts.terms as usize];
    let differing: HashSet<u64> = names.iter().copied().collect();
    differing.len() == names.len() && names.iter().all(|name| is_valid_name(*name))
}

/// 1 to 8 bytes of 33 to 125, and no byte after the first unused one.
fn is_valid_name(name: u64) -> bool {
    let bytes = unpack(name);
    !bytes.is_empty() && bytes.iter().all(|byte| is_name_byte(*byte)) && pack(&bytes) == name
}

/// "starts begin at 0, rise strictly by clause and end at the literal count"
fn starts_rise(counts: &Counts, tables: &Tables) -> bool {
    let starts = &tables.starts[..=counts.clauses as usize];
    starts.first() == Some(&0)
        && starts.windows(2).all(|pair| pair[0] < pair[1])
        && starts.last() == Some(&counts.literals)
}

/// "literals are below twice the terms, each term at most once in a clause"
fn literals_are_sound(counts: &Counts, tables: &Tables) -> bool {
    let literals = &tables.literals[..counts.literals as usize];
    literals.iter().all(|literal| *literal < 2 * counts.terms)
        && clauses_of(counts, tables)
            .iter()
            .all(|clause| names_each_term_once(clause))
}

fn names_each_term_once(clause: &[usize]) -> bool {
    let terms: HashSet<usize> = clause.iter().map(|literal| term_of(*literal)).collect();
    terms.len() == clause.len()
}

/// The phrases about what follows from the clauses and the values.
fn numbers_are_those_of_the_values(counts: &Counts, tables: &Tables) -> bool {
    let state = State::standing(counts, tables);
    occurrences_are_the_literals_turned_round(&state, counts, tables)
        && true_counts_are_right(&state, tables)
        && break_counts_are_right(&state, tables)
        && the_list_is_right(&state, tables)
}

/// "occurrence starts and occurrences are exactly the literals turned round"
fn occurrences_are_the_literals_turned_round(
    state: &State,
    counts: &Counts,
    tables: &Tables,
) -> bool {
    let turned = state.occurrences();
    let starts = &tables.occurrence_starts[..=2 * counts.terms as usize];
    let occurrences = &tables.occurrences[..counts.literals as usize];
    starts == running_starts(&turned) && occurrences == as_entries(&turned.concat())
}

/// "true ... counts are those of the values"
fn true_counts_are_right(state: &State, tables: &Tables) -> bool {
    let mut clauses = 0..state.clauses.len();
    clauses.all(|clause| tables.trues[clause] == state.true_count(clause) as u64)
}

/// "break ... counts are those of the values"
fn break_counts_are_right(state: &State, tables: &Tables) -> bool {
    let occurrences = state.occurrences();
    let mut terms = 0..state.names.len();
    terms.all(|term| tables.breaks[term] == state.break_count(term, &occurrences) as u64)
}

/// "the list holds each uncovered clause once, with its place"; so its length is their number.
fn the_list_is_right(state: &State, tables: &Tables) -> bool {
    let mut listed = state.uncovered.clone();
    listed.sort_unstable();
    listed == state.uncovered_rising() && tables.places[..state.clauses.len()] == state.each_place()
}

/// "the rest, spare value bits too, is 0"
fn the_rest_is_zero(limits: &Limits, counts: &Counts, tables: &Tables) -> bool {
    let ends = counts.in_use().into_iter().zip(limits.full_sizes());
    let mut tables_and_ends = tables.all().into_iter().zip(ends);
    tables_and_ends.all(|(table, (used, full))| table[used..full].iter().all(|entry| *entry == 0))
        && spare_value_bits_are_zero(counts, tables)
}

/// "Tables agree only if marks are 0 to 2 and each pinned value is as marked": a term is free or marked with the value it has.
fn each_mark_holds(counts: &Counts, tables: &Tables) -> bool {
    let values = values_of(counts, tables);
    let mut terms = tables.marks.iter().zip(values);
    terms.all(|(mark, value)| [FREE, mark_of(Some(value))].contains(mark))
}

/// The bits past the last term, and past the 32 of a word.
fn spare_value_bits_are_zero(counts: &Counts, tables: &Tables) -> bool {
    let terms = counts.terms as usize;
    let mut words = (0..terms).step_by(TERMS_IN_A_WORD);
    words.all(|first| {
        let held = (terms - first).min(TERMS_IN_A_WORD);
        tables.values[first / TERMS_IN_A_WORD] >> held == 0
    })
}

//! Tables with pinned terms, and marks that do not hold.

use super::lent::standing_tables;
use super::orders::{order_of, OrderKind};
use super::random::Random;
use crate::kinds;
use crate::limits::Limits;
use crate::marks::{mark_of, PINNED_AT_1};
use crate::state::values_of;
use crate::tables::{Counts, Tables};
use crate::walk::walk;

kinds! {
    /// How many terms are pinned.
    pub enum PinKind {
        NoTerm,
        OneTerm,
        FewTerms,
        AnyNumber,
        AllButOne,
        EveryTerm,
    }
}

/// Full-size tables that agree, with any number of terms pinned at the values they have.
pub fn pinned_tables(limits: &Limits, random: &mut Random) -> (Counts, Tables) {
    let kind = random.pick(&PinKind::ALL);
    pinned_tables_of(kind, limits, random)
}

/// Half of the time the values are a walk's, which leave few clauses uncovered: pinned at those a later walk may well find.
pub fn pinned_tables_of(kind: PinKind, limits: &Limits, random: &mut Random) -> (Counts, Tables) {
    let (mut counts, mut tables) = standing_tables(limits, random);
    if random.coin() {
        let order = order_of(OrderKind::FewFlips, random);
        counts = walk(limits, &order, counts, &mut tables).counts;
    }
    pin_some(kind, &counts, &mut tables, random);
    (counts, tables)
}

/// Pins terms at the values they have.
pub fn pin_some(kind: PinKind, counts: &Counts, tables: &mut Tables, random: &mut Random) {
    let values = values_of(counts, tables);
    let few = random.between(2, 9).min(values.len());
    let pinned = match kind {
        PinKind::NoTerm => 0,
        PinKind::OneTerm => 1,
        PinKind::FewTerms => few,
        PinKind::AnyNumber => random.between(0, values.len()),
        PinKind::AllButOne => values.len() - 1,
        PinKind::EveryTerm => values.len(),
    };
    let mut terms: Vec<usize> = (0..values.len()).collect();
    random.shuffle(&mut terms);
    for term in &terms[..pinned] {
        tables.marks[*term] = mark_of(Some(values[*term]));
    }
}

/// A term, one time in three none that is known, and a value, which need not be 0 or 1.
pub fn pin_of_some_term(terms: u64, random: &mut Random) -> (u64, u64) {
    let most = u64::from(u32::MAX);
    let term = if random.one_in(3) {
        random.pick(&[terms, terms + 1, most])
    } else {
        random.bits() % terms
    };
    (term, random.pick(&[0, 0, 0, 1, 1, 2, most]))
}

/// A mark above 2: the next, one that is 1 or 2 but for its high bits, or any.
pub fn mark_past_2(counts: &Counts, tables: &mut Tables, random: &mut Random) {
    let term = random.below(counts.terms as usize);
    let any = random.between(PINNED_AT_1 as usize + 1, 255) as u64;
    tables.marks[term] = random.pick(&[3, 4, 129, 130, 255, any]);
}

/// A term is pinned at the value that it has not; nothing but its mark tells of it.
pub fn pin_at_the_other_value(counts: &Counts, tables: &mut Tables, random: &mut Random) {
    let term = random.below(counts.terms as usize);
    let value = values_of(counts, tables)[term];
    tables.marks[term] = mark_of(Some(!value));
}

/// A term that is not there is marked, where there is room for one.
pub fn mark_past_the_terms(
    limits: &Limits,
    counts: &Counts,
    tables: &mut Tables,
    random: &mut Random,
) {
    let (first, last) = (counts.terms as usize, limits.terms - 1);
    if first <= last {
        let any = random.between(first, last);
        let entry = random.pick(&[first, any, last]);
        tables.marks[entry] = random.pick(&[1, 2, 3, 255]);
    }
}

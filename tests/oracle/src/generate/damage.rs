//! Damage to tables that agree; a few kinds leave them agreeing.

use super::lent::{fill_with_rubbish, lengthen, rubbish_entry, shorten};
use super::names::name_of_length;
use super::pinned;
use super::random::Random;
use super::unsound;
use crate::kinds;
use crate::limits::{Limits, TERMS_IN_A_WORD};
use crate::reader::{pack, LONGEST_NAME};
use crate::tables::{Counts, Tables};

kinds! {
    pub enum DamageKind {
        None,
        /// One entry of one table gets another number.
        EntryInUse,
        EntryPastUse,
        /// One entry becomes one more or one less.
        EntryByOne,
        /// Two entries of one table change places.
        EntriesSwapped,
        ValueTurned,
        SpareValueBit,
        Count,
        NameRepeated,
        /// A name that is not valid, such as one with a gap in it.
        NameInvalid,
        /// Another valid name: the tables still agree.
        NameOther,
        /// The list in another order, with its places: the tables still agree.
        ListReordered,
        /// The list in another order, without its places.
        ListReorderedAlone,
        /// A clause names a term twice, or both ways; all else is laid out for it.
        TermTwice,
        TermBothWays,
        /// A clause of no literal, or no clause; all else is laid out for it.
        ClauseEmpty,
        NoClause,
        /// The clauses of one literal fall.
        OccurrencesFalling,
        /// The list has too few or too many, and its count and places are those of its entries.
        UncoveredLeftOut,
        CoveredListed,
        /// The list has one clause in the place of another too.
        ListedTwice,
        MarkPast2,
        PinnedAtTheOtherValue,
        MarkPastTheTerms,
        AllZeros,
        Rubbish,
        SmallNumbers,
        OneShorter,
        /// Rubbish beyond the full sizes: the tables still agree.
        Longer,
    }
}

/// Damage of any kind.
pub fn damage(limits: &Limits, counts: &mut Counts, tables: &mut Tables, random: &mut Random) {
    let kind = random.pick(&DamageKind::ALL);
    damage_of(kind, limits, counts, tables, random);
}

/// Damages full-size tables that agree.
pub fn damage_of(
    kind: DamageKind,
    limits: &Limits,
    counts: &mut Counts,
    tables: &mut Tables,
    random: &mut Random,
) {
    match kind {
        DamageKind::None => {}
        DamageKind::EntryInUse => change_entry_in_use(limits, counts, tables, random),
        DamageKind::EntryPastUse => change_entry_past_use(limits, counts, tables, random),
        DamageKind::EntryByOne => change_entry_by_one(counts, tables, random),
        DamageKind::EntriesSwapped => swap_entries(counts, tables, random),
        DamageKind::ValueTurned => turn_value(counts, tables, random),
        DamageKind::SpareValueBit => set_spare_bit(limits, counts, tables, random),
        DamageKind::Count => change_count(limits, counts, random),
        DamageKind::NameRepeated => repeat_name(counts, tables, random),
        DamageKind::NameInvalid => put_name(counts, tables, invalid_name, random),
        DamageKind::NameOther => put_name(counts, tables, other_name, random),
        DamageKind::ListReordered => reorder_list(counts, tables, true, random),
        DamageKind::ListReorderedAlone => reorder_list(counts, tables, false, random),
        DamageKind::TermTwice => unsound::repeat_term(false, limits, counts, tables, random),
        DamageKind::TermBothWays => unsound::repeat_term(true, limits, counts, tables, random),
        DamageKind::ClauseEmpty => unsound::empty_a_clause(limits, counts, tables, random),
        DamageKind::NoClause => unsound::remove_every_clause(limits, counts, tables),
        DamageKind::OccurrencesFalling => unsound::turn_a_run_round(counts, tables, random),
        DamageKind::UncoveredLeftOut => unsound::leave_out_uncovered(counts, tables),
        DamageKind::CoveredListed => unsound::list_covered(counts, tables, random),
        DamageKind::ListedTwice => unsound::list_twice(counts, tables, random),
        DamageKind::MarkPast2 => pinned::mark_past_2(counts, tables, random),
        DamageKind::PinnedAtTheOtherValue => pinned::pin_at_the_other_value(counts, tables, random),
        DamageKind::MarkPastTheTerms => pinned::mark_past_the_terms(limits, counts, tables, random),
        DamageKind::AllZeros => tables.clear(limits),
        DamageKind::Rubbish => fill_with_rubbish(tables, limits, random),
        DamageKind::SmallNumbers => fill_with_small_numbers(tables, random),
        DamageKind::OneShorter => shorten(tables, random),
        DamageKind::Longer => lengthen(tables, limits, random),
    }
}

/// The numbers of a table and of an entry of it that is in use.
fn some_entry_in_use(counts: &Counts, random: &mut Random) -> (usize, usize) {
    let used = counts.in_use();
    let filled: Vec<usize> = (0..used.len()).filter(|table| used[*table] > 0).collect();
    let table = random.pick(&filled);
    (table, random.below(used[table]))
}

/// A number that is not 0: small, of one bit, or of any bits.
pub fn some_difference(bits: u32, random: &mut Random) -> u64 {
    match random.below(3) {
        0 => random.between(1, 3) as u64,
        1 => 1 << random.below(bits as usize),
        _ => rubbish_entry(bits, random).max(1),
    }
}

fn change_entry_in_use(limits: &Limits, counts: &Counts, tables: &mut Tables, random: &mut Random) {
    let (table, entry) = some_entry_in_use(counts, random);
    tables.all_mut()[table][entry] ^= some_difference(limits.entry_bits()[table], random);
}

fn change_entry_past_use(
    limits: &Limits,
    counts: &Counts,
    tables: &mut Tables,
    random: &mut Random,
) {
    let (used, full) = (counts.in_use(), limits.full_sizes());
    let with_room: Vec<usize> = (0..full.len())
        .filter(|table| used[*table] < full[*table])
        .collect();
    if with_room.is_empty() {
        return;
    }
    let table = random.pick(&with_room);
    let any = random.between(used[table], full[table] - 1);
    let first_or_any = random.pick(&[used[table], any]);
    let difference = some_difference(limits.entry_bits()[table], random);
    tables.all_mut()[table][first_or_any] = difference;
}

fn change_entry_by_one(counts: &Counts, tables: &mut Tables, random: &mut Random) {
    let (table, entry) = some_entry_in_use(counts, random);
    let changed = &mut tables.all_mut()[table][entry];
    *changed = if *changed > 0 && random.coin() {
        *changed - 1
    } else {
        *changed ^ 1
    };
}

fn swap_entries(counts: &Counts, tables: &mut Tables, random: &mut Random) {
    let (table, entry) = some_entry_in_use(counts, random);
    let other = random.below(counts.in_use()[table]);
    tables.all_mut()[table].swap(entry, other);
}

/// Where no clause names the term, the tables still agree.
fn turn_value(counts: &Counts, tables: &mut Tables, random: &mut Random) {
    let term = random.below(counts.terms as usize);
    tables.values[term / TERMS_IN_A_WORD] ^= 1 << (term % TERMS_IN_A_WORD);
}

/// A bit past the last term, in its word or in a later one, where there is one.
fn set_spare_bit(limits: &Limits, counts: &Counts, tables: &mut Tables, random: &mut Random) {
    let bits = TERMS_IN_A_WORD * limits.full_sizes()[1];
    let first = counts.terms as usize;
    if first < bits {
        let any = random.between(first, bits - 1);
        let bit = random.pick(&[first, any, bits - 1]);
        tables.values[bit / TERMS_IN_A_WORD] |= 1 << (bit % TERMS_IN_A_WORD);
    }
}

/// Any one of the four counts; the largest numbers are all ones in every width.
fn change_count(limits: &Limits, counts: &mut Counts, random: &mut Random) {
    let (count, limit) = match random.below(4) {
        0 => (&mut counts.terms, limits.terms),
        1 => (&mut counts.clauses, limits.clauses),
        2 => (&mut counts.literals, limits.literals),
        _ => (&mut counts.uncovered, limits.clauses),
    };
    let near = [
        0,
        count.saturating_sub(1),
        *count + 1,
        limit as u64,
        limit as u64 + 1,
    ];
    let far = [u64::from(u16::MAX), u64::from(u32::MAX), u64::MAX];
    *count = if random.coin() {
        random.pick(&near)
    } else {
        random.pick(&far)
    };
}

fn repeat_name(counts: &Counts, tables: &mut Tables, random: &mut Random) {
    let (from, to) = (
        random.below(counts.terms as usize),
        random.below(counts.terms as usize),
    );
    tables.names[to] = tables.names[from];
}

fn put_name(
    counts: &Counts,
    tables: &mut Tables,
    name: fn(&mut Random) -> u64,
    random: &mut Random,
) {
    let term = random.below(counts.terms as usize);
    tables.names[term] = name(random);
}

fn other_name(random: &mut Random) -> u64 {
    pack(&name_of_length(LONGEST_NAME, random))
}

/// No byte, a byte that may not stand there, or a byte after an unused one.
fn invalid_name(random: &mut Random) -> u64 {
    let mut bytes = name_of_length(LONGEST_NAME, random);
    let place = random.below(LONGEST_NAME - 1);
    match random.below(3) {
        0 => return 0,
        1 => bytes[place] = random.pick(&[10, 32, 126, 127, 128, 255]),
        _ => bytes[place] = 0,
    }
    pack(&bytes)
}

fn reorder_list(counts: &Counts, tables: &mut Tables, with_places: bool, random: &mut Random) {
    let list = &mut tables.uncovered[..counts.uncovered as usize];
    random.shuffle(list);
    if with_places {
        for (place, clause) in list.iter().enumerate() {
            tables.places[*clause as usize] = place as u64;
        }
    }
}

fn fill_with_small_numbers(tables: &mut Tables, random: &mut Random) {
    for table in tables.all_mut() {
        for entry in table.iter_mut() {
            *entry = random.bits() % 4;
        }
    }
}

//! Tables to lend: empty ones, ones full of rubbish, and ones that a reading left.

use super::random::Random;
use super::valid_texts::{valid_text_of, ValidKind};
use crate::flips::flip;
use crate::kinds;
use crate::limits::{Limits, TABLES};
use crate::reading::read;
use crate::tables::{Counts, Tables};

kinds! {
    pub enum LentKind {
        Zeros,
        Rubbish,
        /// Longer than the full sizes, with rubbish beyond.
        Longer,
        /// One table has one entry too few.
        OneShorter,
        /// Some tables have no entry at all.
        SomeEmpty,
    }
}

/// Tables of any kind, mostly long enough.
pub fn lent_tables(limits: &Limits, random: &mut Random) -> Tables {
    let usual = [LentKind::Zeros, LentKind::Rubbish, LentKind::Longer];
    let kind = if random.one_in(8) {
        random.pick(&LentKind::ALL)
    } else {
        random.pick(&usual)
    };
    lent_tables_of(kind, limits, random)
}

pub fn lent_tables_of(kind: LentKind, limits: &Limits, random: &mut Random) -> Tables {
    let mut tables = Tables::zeros(limits);
    if kind != LentKind::Zeros {
        fill_with_rubbish(&mut tables, limits, random);
    }
    match kind {
        LentKind::Longer => lengthen(&mut tables, limits, random),
        LentKind::OneShorter => shorten(&mut tables, random),
        LentKind::SomeEmpty => empty_some(&mut tables, random),
        _ => {}
    }
    tables
}

/// An entry that its table can hold.
pub fn rubbish_entry(bits: u32, random: &mut Random) -> u64 {
    random.bits() >> (64 - bits)
}

pub fn fill_with_rubbish(tables: &mut Tables, limits: &Limits, random: &mut Random) {
    for (table, bits) in tables.all_mut().into_iter().zip(limits.entry_bits()) {
        for entry in table.iter_mut() {
            *entry = rubbish_entry(bits, random);
        }
    }
}

/// Puts rubbish beyond the full sizes of some tables.
pub fn lengthen(tables: &mut Tables, limits: &Limits, random: &mut Random) {
    let certain = random.below(TABLES);
    let all = tables.all_mut().into_iter().zip(limits.entry_bits());
    for (index, (table, bits)) in all.enumerate() {
        if index == certain || random.coin() {
            let more = random.between(1, 9);
            table.extend((0..more).map(|_| rubbish_entry(bits, random)));
        }
    }
}

/// Takes one entry from one table.
pub fn shorten(tables: &mut Tables, random: &mut Random) {
    let index = random.below(TABLES);
    tables.all_mut()[index].pop();
}

fn empty_some(tables: &mut Tables, random: &mut Random) {
    let certain = random.below(TABLES);
    for (index, table) in tables.all_mut().into_iter().enumerate() {
        if index == certain || random.one_in(4) {
            table.clear();
        }
    }
}

/// Full-size tables that agree: a reading's, with any values flipped to.
pub fn standing_tables(limits: &Limits, random: &mut Random) -> (Counts, Tables) {
    loop {
        let kind = random.pick(&ValidKind::ALL);
        let text = valid_text_of(kind, random);
        if let Some(standing) = standing_tables_of(&text, limits, random) {
            return standing;
        }
    }
}

/// The same of one text, where a reading accepts it.
pub fn standing_tables_of(
    text: &[u8],
    limits: &Limits,
    random: &mut Random,
) -> Option<(Counts, Tables)> {
    let mut tables = Tables::zeros(limits);
    let answer = read(limits, text, &mut tables);
    (answer.result == 1).then(|| {
        let counts = flip_some(limits, answer.counts, &mut tables, random);
        (counts, tables)
    })
}

fn flip_some(limits: &Limits, counts: Counts, tables: &mut Tables, random: &mut Random) -> Counts {
    let length = random.below(3 * counts.terms as usize).min(limits.list);
    let list: Vec<u64> = (0..length).map(|_| random.bits() % counts.terms).collect();
    flip(limits, &list, counts, tables).counts
}

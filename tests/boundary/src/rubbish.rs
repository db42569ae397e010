//! Entries that no call may count on.

use oracle::generate::{damage_of, lent_tables_of, DamageKind, LentKind, Random};
use oracle::{Counts, Tables};

use crate::NARROW;

/// Tables of full size or longer: any entries, or ones so small that they could be numbers of the first terms, clauses and places.
pub fn rubbish(random: &mut Random) -> Tables {
    let kind = random.pick(&[LentKind::Rubbish, LentKind::Longer]);
    let mut tables = lent_tables_of(kind, &NARROW, random);
    if random.one_in(3) {
        let small = DamageKind::SmallNumbers;
        damage_of(small, &NARROW, &mut Counts::default(), &mut tables, random);
    }
    tables
}

/// An output of full size or longer.
pub fn rubbish_output(random: &mut Random) -> Vec<u8> {
    let more = random.pick(&[0, 0, 1, 100]);
    let bytes = 0..NARROW.output_size() + more;
    bytes.map(|_| random.byte()).collect()
}

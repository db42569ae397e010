//! Tables of other lengths than their full sizes.

use oracle::generate::lent::rubbish_entry;
use oracle::generate::Random;
use oracle::limits::TABLES;
use oracle::Tables;

use crate::differences::TABLE_NAMES;
use crate::{Lent, Sides, NARROW};

/// Calls on tables of which one is too short: by one entry, by half, or down to one entry or none; then on tables of no entry.
pub fn for_each_shorter(make: fn(&mut Random) -> Lent, call: impl Fn(&mut Sides, &mut Random)) {
    let mut sides = Sides::start();
    for (table, full) in NARROW.full_sizes().into_iter().enumerate() {
        for length in [full - 1, full / 2, 1, 0] {
            let random = &mut Random::new(table as u64);
            let (counts, mut tables) = make(random);
            tables.all_mut()[table].truncate(length);
            let case = format!("{} of length {length}", TABLE_NAMES[table]);
            sides.lend(case, (counts, tables));
            call(&mut sides, random);
        }
    }
    sides.lend("no entry in any table".into(), Lent::default());
    call(&mut sides, &mut Random::new(0));
}

/// Calls on tables with rubbish beyond one of them, by one entry or many, then beyond all of them; what lies beyond is compared after each call.
pub fn for_each_longer(make: fn(&mut Random) -> Lent, call: impl Fn(&mut Sides, &mut Random)) {
    let mut sides = Sides::start();
    for (table, name) in TABLE_NAMES.iter().enumerate() {
        for more in [1, 1_000] {
            let random = &mut Random::new(table as u64);
            let (counts, mut tables) = make(random);
            add_rubbish(&mut tables, table, more, random);
            sides.lend(format!("{name} longer by {more}"), (counts, tables));
            call(&mut sides, random);
        }
    }
    for seed in 0..20 {
        let random = &mut Random::new(seed);
        let (counts, mut tables) = make(random);
        add_rubbish_to_all(&mut tables, random);
        sides.lend(format!("all longer, seed {seed}"), (counts, tables));
        call(&mut sides, random);
    }
}

fn add_rubbish_to_all(tables: &mut Tables, random: &mut Random) {
    for table in 0..TABLES {
        let more = random.between(1, 9);
        add_rubbish(tables, table, more, random);
    }
}

/// Puts so many entries of rubbish after this table.
fn add_rubbish(tables: &mut Tables, table: usize, more: usize, random: &mut Random) {
    let bits = NARROW.entry_bits()[table];
    let rubbish = (0..more).map(|_| rubbish_entry(bits, random));
    tables.all_mut()[table].extend(rubbish);
}

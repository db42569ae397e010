//! The exported functions as a caller has them, beside the independent program.

pub mod differences;
pub mod draws;
pub mod host;
pub mod lengths;
pub mod pin_kinds;
pub mod readings;
pub mod rubbish;
pub mod run_kinds;
pub mod runs;
pub mod scanners;
pub mod sides;
pub mod tally;
pub mod texts;
pub mod walk_kinds;
pub mod watch;
pub mod wire;

pub use draws::Draws;
pub use host::Form;
pub use readings::Readings;
pub use runs::Runs;
pub use scanners::Scanners;
pub use sides::Sides;
pub use tally::Tally;

use oracle::generate::limit_texts::text_full_of_all;
use oracle::generate::{
    flip_list_of, lent_tables_of, order_of, pinned_tables, standing_tables, standing_tables_of,
};
use oracle::generate::{FlipListKind, LentKind, OrderKind, Random};
use oracle::{Counts, Limits, Order, Tables};

pub const NARROW: Limits = Limits::NARROW;

pub const ORDER: Order = Order::EXAMPLE;

/// An order of seed 1.
pub fn order_for(flips: u64, walks: u64, bias: u64) -> Order {
    Order {
        flips,
        walks,
        bias,
        ..ORDER
    }
}

/// The four counts and the tables that a call is given.
pub type Lent = (Counts, Tables);

/// A list of a few known terms.
pub fn few_flips(terms: u64, random: &mut Random) -> Vec<u64> {
    flip_list_of(FlipListKind::Few, &NARROW, terms, random)
}

/// An order of a few flips for each walk.
pub fn few_steps(random: &mut Random) -> Order {
    order_of(OrderKind::FewFlips, random)
}

/// Tables of full size with any entries.
pub fn any_tables(random: &mut Random) -> Lent {
    let tables = lent_tables_of(LentKind::Rubbish, &NARROW, random);
    (Counts::default(), tables)
}

/// Tables that agree, with no term pinned.
pub fn agreeing(random: &mut Random) -> Lent {
    standing_tables(&NARROW, random)
}

/// Tables that agree, with any number of terms pinned.
pub fn pinned(random: &mut Random) -> Lent {
    pinned_tables(&NARROW, random)
}

/// Tables that agree and hold this text, which must be accepted.
pub fn holding(text: &[u8], random: &mut Random) -> Lent {
    let standing = standing_tables_of(text, &NARROW, random);
    standing.expect("the text is accepted")
}

/// For each of these seeds tables of this making, lent to both sides; then goes on from there.
pub fn for_each_file(
    seeds: impl IntoIterator<Item = u64>,
    make: fn(&mut Random) -> Lent,
    mut goes_on: impl FnMut(&mut Sides, &mut Random),
) {
    let mut sides = Sides::start();
    for seed in seeds {
        let random = &mut Random::new(seed);
        sides.lend(format!("seed {seed}"), make(random));
        goes_on(&mut sides, random);
    }
}

/// Tables that differ in a true count from what the values say.
pub fn disagreeing(random: &mut Random) -> Lent {
    let (counts, mut tables) = agreeing(random);
    tables.trues[0] ^= 1;
    (counts, tables)
}

/// Tables that hold the most terms, clauses and literals at once.
pub fn full_tables(random: &mut Random) -> Lent {
    let (counts, tables) = holding(&text_full_of_all(&NARROW, random), random);
    let held = [counts.terms, counts.clauses, counts.literals];
    assert_eq!(
        held.map(|count| count as usize),
        [NARROW.terms, NARROW.clauses, NARROW.literals]
    );
    (counts, tables)
}

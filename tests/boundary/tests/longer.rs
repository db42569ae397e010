//! Tables longer than their full sizes: what lies beyond is neither read nor written.

use boundary::lengths::for_each_longer;
use boundary::{agreeing, few_flips, few_steps, full_tables, Sides, NARROW, ORDER};
use oracle::generate::lent::lengthen;
use oracle::generate::Random;
use oracle::reasons::{OUT_OF_RANGE, TABLES_DISAGREE, UNKNOWN_TERM};
use oracle::Order;

/// Lists and orders, applied and refused, one after the other; what lies beyond is compared each time.
fn give_lists_and_orders(sides: &mut Sides, random: &mut Random) {
    let terms = sides.counts.terms;
    for _ in 0..3 {
        sides.apply(&few_flips(terms, random));
        sides.refuse(&[0, terms], UNKNOWN_TERM);
        sides.walk(&few_steps(random));
        sides.refuse_order(&Order { seed: 0, ..ORDER }, OUT_OF_RANGE);
    }
}

#[test]
fn rubbish_beyond_the_tables_stays() {
    for_each_longer(agreeing, give_lists_and_orders);
}

#[test]
fn rubbish_beyond_tables_full_to_the_limits_stays() {
    let mut sides = Sides::start();
    let random = &mut Random::new(7);
    let (counts, mut tables) = full_tables(random);
    lengthen(&mut tables, &NARROW, random);
    sides.lend("agreeing".into(), (counts, tables.clone()));
    give_lists_and_orders(&mut sides, random);
    tables.places[0] ^= 1;
    sides.lend("disagreeing".into(), (counts, tables));
    sides.refuse(&[0, 1], TABLES_DISAGREE);
    sides.refuse_order(&ORDER, TABLES_DISAGREE);
}

//! Whole cases: everything that one call is given.

use super::damage::damage;
use super::flip_lists::{flip_list, without_pinned};
use super::inputs::input_within;
use super::lent::{lent_tables, standing_tables};
use super::numbered_texts::numbered_text_within;
use super::orders::order;
use super::pinned::{pin_of_some_term, pinned_tables};
use super::random::Random;
use super::texts::clause_text_within;
use crate::limits::Limits;
use crate::order::Order;
use crate::tables::{Counts, Tables};

#[derive(Clone, Debug)]
pub struct ReadCase {
    pub text: Vec<u8>,
    pub tables: Tables,
}

#[derive(Clone, Debug)]
pub struct WalkCase {
    pub order: Order,
    pub counts: Counts,
    pub tables: Tables,
}

#[derive(Clone, Debug)]
pub struct FlipCase {
    pub list: Vec<u64>,
    pub counts: Counts,
    pub tables: Tables,
}

/// A term to pin at a value, or to lift.
#[derive(Clone, Debug)]
pub struct PinCase {
    pub term: u64,
    pub value: u64,
    pub counts: Counts,
    pub tables: Tables,
}

#[derive(Clone, Debug)]
pub struct RunCase {
    pub input: Vec<u8>,
    pub tables: Tables,
    pub out: Vec<u8>,
}

pub fn read_case(limits: &Limits, random: &mut Random) -> ReadCase {
    ReadCase {
        text: clause_text_within(limits, random),
        tables: lent_tables(limits, random),
    }
}

pub fn numbered_case(limits: &Limits, random: &mut Random) -> ReadCase {
    ReadCase {
        text: numbered_text_within(limits, random),
        tables: lent_tables(limits, random),
    }
}

pub fn walk_case(limits: &Limits, random: &mut Random) -> WalkCase {
    let (mut counts, mut tables) = agreeing_tables(limits, random);
    damage_half(limits, &mut counts, &mut tables, random);
    WalkCase {
        order: order(random),
        counts,
        tables,
    }
}

/// The list names terms that were known before any damage, half of the time none that was pinned.
pub fn flip_case(limits: &Limits, random: &mut Random) -> FlipCase {
    let (mut counts, mut tables) = agreeing_tables(limits, random);
    let mut list = flip_list(limits, counts.terms, random);
    if random.coin() {
        list = without_pinned(list, &tables);
    }
    damage_half(limits, &mut counts, &mut tables, random);
    FlipCase {
        list,
        counts,
        tables,
    }
}

/// The term was mostly known before any damage.
pub fn pin_case(limits: &Limits, random: &mut Random) -> PinCase {
    let (mut counts, mut tables) = agreeing_tables(limits, random);
    let (term, value) = pin_of_some_term(counts.terms, random);
    damage_half(limits, &mut counts, &mut tables, random);
    PinCase {
        term,
        value,
        counts,
        tables,
    }
}

/// An output of full size, sometimes longer and seldom too short.
pub fn run_case(limits: &Limits, random: &mut Random) -> RunCase {
    let input = input_within(limits, random);
    let tables = lent_tables(limits, random);
    let full = limits.output_size();
    let size = random.pick(&[full, full, full, full + 1, full + 100, full, full, full - 1]);
    let out = (0..size).map(|_| random.byte()).collect();
    RunCase { input, tables, out }
}

/// Half of the cases have no pin.
fn agreeing_tables(limits: &Limits, random: &mut Random) -> (Counts, Tables) {
    if random.coin() {
        standing_tables(limits, random)
    } else {
        pinned_tables(limits, random)
    }
}

/// Half of the cases keep tables that agree.
fn damage_half(limits: &Limits, counts: &mut Counts, tables: &mut Tables, random: &mut Random) {
    if random.coin() {
        damage(limits, counts, tables, random);
    }
}

//! Whole inputs of the run program.

use super::faulty_texts::{
    any_bytes, change_bytes, double_bytes, few_letters, insert_byte, remove_byte,
};
use super::limit_texts::text_of_bytes;
use super::orders::{order_in_range, order_of, OrderKind};
use super::random::Random;
use super::sheets::{good_sheet, sheet, sheet_of_order, text_may_follow, SheetKind};
use super::texts::clause_text_within;
use super::valid_texts::valid_text;
use crate::kinds;
use crate::limits::Limits;
use crate::order::Order;
use crate::sheet::{read_sheet, CHOICE_KEY};

/// Above so many bytes a text may hold thousands of clauses.
const LONG_TEXT: usize = 10_000;

/// More flips together than these are not asked for by damage.
const MOST_FLIPS: u64 = 100_000;

kinds! {
    pub enum InputKind {
        /// A good sheet and a clause text that is accepted.
        ToWalk,
        /// A good sheet and a few letters.
        FewLetters,
        /// A good sheet and a clause text of any kind.
        AnyText,
        /// A sheet of any kind and a clause text that is accepted.
        AnySheet,
        /// Both of any kind.
        AnySheetAnyText,
        /// A good sheet, then a sheet of any kind as clauses, then a clause text that is accepted.
        SheetAfterSheet,
        /// The whole input has exactly as many bytes as it may have.
        BytesAtLimit,
        BytesPastLimit,
        /// Good inputs that are damaged, half of them in the sheet.
        ChangedBytes,
        InsertedByte,
        RemovedByte,
        DoubledBytes,
        Cut,
        AnyBytes,
        Empty,
    }
}

/// An input of any kind, under the limits of document 01.
pub fn input(random: &mut Random) -> Vec<u8> {
    input_within(&Limits::NARROW, random)
}

/// An input of any kind: most have a good sheet, and about half are meant to walk.
pub fn input_within(limits: &Limits, random: &mut Random) -> Vec<u8> {
    let kind = match random.below(5) {
        0 | 1 => InputKind::ToWalk,
        2 => InputKind::AnyText,
        _ => random.pick(&InputKind::ALL),
    };
    input_of(kind, limits, random)
}

pub fn input_of(kind: InputKind, limits: &Limits, random: &mut Random) -> Vec<u8> {
    match kind {
        InputKind::ToWalk => to_walk(random),
        InputKind::FewLetters => after_good_sheet(few_letters(random), random),
        InputKind::AnyText => after_good_sheet(clause_text_within(limits, random), random),
        InputKind::AnySheet => after_any_sheet(valid_text(random), random),
        InputKind::AnySheetAnyText => after_any_sheet(clause_text_within(limits, random), random),
        InputKind::SheetAfterSheet => sheet_after_sheet(random),
        InputKind::BytesAtLimit => of_bytes(limits.text, random),
        InputKind::BytesPastLimit => of_bytes(limits.text + 1, random),
        InputKind::ChangedBytes => damaged(|input, random| change_bytes(input, random), random),
        InputKind::InsertedByte => damaged(insert_byte, random),
        InputKind::RemovedByte => damaged(remove_byte, random),
        InputKind::DoubledBytes => damaged(double_bytes, random),
        InputKind::Cut => cut(random),
        InputKind::AnyBytes => any_bytes(random),
        InputKind::Empty => Vec::new(),
    }
}

/// A long text gets few flips, so that no walk takes long.
fn order_for(text: &[u8], random: &mut Random) -> Order {
    if text.len() > LONG_TEXT {
        order_of(OrderKind::FewFlips, random)
    } else {
        order_in_range(random)
    }
}

/// Only after the fifth line may a text begin as that line does.
fn after_good_sheet(text: Vec<u8>, random: &mut Random) -> Vec<u8> {
    let mut order = order_for(&text, random);
    if text.starts_with(CHOICE_KEY) {
        order.even = 1;
    }
    [good_sheet(&order), text].concat()
}

fn to_walk(random: &mut Random) -> Vec<u8> {
    let text = valid_text(random);
    after_good_sheet(text, random)
}

/// The ends of the ranges, with their many flips, are left to texts that are not long.
fn after_any_sheet(text: Vec<u8>, random: &mut Random) -> Vec<u8> {
    let mut kind = random.pick(&SheetKind::ALL);
    if kind == SheetKind::RangeEnds && text.len() > LONG_TEXT {
        kind = SheetKind::Good;
    }
    let order = order_for(&text, random);
    let mut input = sheet_of_order(kind, &order, random);
    if text_may_follow(kind) {
        input.extend(text);
    }
    input
}

/// A good sheet and an accepted text of so many bytes together.
fn of_bytes(bytes: usize, random: &mut Random) -> Vec<u8> {
    let sheet = good_sheet(&order_in_range(random));
    let text = text_of_bytes(bytes.saturating_sub(sheet.len()), random);
    [sheet, text].concat()
}

fn sheet_after_sheet(random: &mut Random) -> Vec<u8> {
    let text = [sheet(random), valid_text(random)].concat();
    after_good_sheet(text, random)
}

/// A good input, damaged: anywhere, or in its sheet, which is short beside the text.
fn damaged(damage: fn(&mut Vec<u8>, &mut Random), random: &mut Random) -> Vec<u8> {
    let mut input = to_walk(random);
    let mut kept = Vec::new();
    if random.coin() {
        kept = input.split_off(read_sheet(&input).text_start);
    }
    damage(&mut input, random);
    input.extend(kept);
    let order = read_sheet(&input).order;
    if order.flips * order.walks > MOST_FLIPS {
        return damaged(damage, random);
    }
    input
}

/// Cut anywhere, or in the sheet.
fn cut(random: &mut Random) -> Vec<u8> {
    let mut input = to_walk(random);
    let sheet = read_sheet(&input).text_start;
    let end = random.pick(&[sheet + 1, input.len()]);
    input.truncate(random.below(end));
    input
}

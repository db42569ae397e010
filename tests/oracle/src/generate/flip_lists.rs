//! Flip lists; every entry fits in 16 bits where the terms do.

use super::random::Random;
use crate::kinds;
use crate::limits::Limits;
use crate::marks::FREE;
use crate::tables::Tables;

kinds! {
    pub enum FlipListKind {
        /// The kinds that are accepted where the tables agree.
        ACCEPTED {
            Empty,
            One,
            Few,
            Hundreds,
            Thousands,
            /// One term again and again.
            OneTermOften,
            /// Every term once, in any order.
            EachTermOnce,
            AtLimit,
        }
        REFUSED {
            PastLimit,
            UnknownTerm,
            /// Too long, with an unknown term as well: 14 comes first.
            UnknownTermPastLimit,
        }
    }
}

/// A list of any kind over this many terms; the longest ones are rare, since they take long.
pub fn flip_list(limits: &Limits, terms: u64, random: &mut Random) -> Vec<u64> {
    let kinds = [&FlipListKind::ACCEPTED[..], &FlipListKind::REFUSED].concat();
    let mut kind = random.pick(&kinds);
    if kind == FlipListKind::AtLimit && !random.one_in(8) {
        kind = FlipListKind::Few;
    }
    flip_list_of(kind, limits, terms, random)
}

pub fn flip_list_of(
    kind: FlipListKind,
    limits: &Limits,
    terms: u64,
    random: &mut Random,
) -> Vec<u64> {
    match kind {
        FlipListKind::Empty => Vec::new(),
        FlipListKind::One => known_terms(1, terms, random),
        FlipListKind::Few | FlipListKind::UnknownTerm => few(kind, limits, terms, random),
        FlipListKind::Hundreds => between(100, 900, limits, terms, random),
        FlipListKind::Thousands => between(1_000, 4_000, limits, terms, random),
        FlipListKind::OneTermOften => {
            let length = random.between(1, 9).min(limits.list);
            vec![some_term(terms, random); length]
        }
        FlipListKind::EachTermOnce => each_term_once(limits, terms, random),
        FlipListKind::AtLimit => known_terms(limits.list, terms, random),
        FlipListKind::PastLimit => known_terms(limits.list + 1, terms, random),
        FlipListKind::UnknownTermPastLimit => {
            with_an_unknown_term(known_terms(limits.list + 1, terms, random), terms, random)
        }
    }
}

fn few(kind: FlipListKind, limits: &Limits, terms: u64, random: &mut Random) -> Vec<u64> {
    let length = random.between(2, 40).min(limits.list);
    let list = known_terms(length, terms, random);
    match kind {
        FlipListKind::UnknownTerm => with_an_unknown_term(list, terms, random),
        _ => list,
    }
}

/// The same list without the terms that are pinned; unknown terms stay.
pub fn without_pinned(mut list: Vec<u64>, tables: &Tables) -> Vec<u64> {
    let mark = |term: &u64| tables.marks.get(*term as usize).copied();
    list.retain(|term| mark(term).is_none_or(|mark| mark == FREE));
    list
}

/// Where no term is known, 0 stands for one.
fn some_term(terms: u64, random: &mut Random) -> u64 {
    random.bits() % terms.max(1)
}

fn known_terms(length: usize, terms: u64, random: &mut Random) -> Vec<u64> {
    (0..length).map(|_| some_term(terms, random)).collect()
}

fn between(
    least: usize,
    most: usize,
    limits: &Limits,
    terms: u64,
    random: &mut Random,
) -> Vec<u64> {
    let length = random.between(least, most).min(limits.list);
    known_terms(length, terms, random)
}

fn each_term_once(limits: &Limits, terms: u64, random: &mut Random) -> Vec<u64> {
    let mut list: Vec<u64> = (0..terms.min(limits.list as u64)).collect();
    random.shuffle(&mut list);
    list
}

/// The lowest unknown term, or the highest number of 16 bits, anywhere in the list.
fn with_an_unknown_term(mut list: Vec<u64>, terms: u64, random: &mut Random) -> Vec<u64> {
    let place = random.below(list.len());
    list[place] = random.pick(&[terms, terms.max(u64::from(u16::MAX))]);
    list
}

//! Walks with pins against document 01's walk, which knows of none: a clause that a pinned literal covers can be left out, and from the
//! others the pinned literals can, since none of this changes a list, a break count of a free term or a draw.

mod common;

use std::collections::{BTreeMap, BTreeSet};

use common::*;
use oracle::draw::Generator;
use oracle::generate::*;
use oracle::limits::TERMS_IN_A_WORD;
use oracle::marks::FREE;
use oracle::walk::{walk_telling, End, Event};
use oracle::{Counts, Limits, Order, Tables};

/// A literal that was picked, and the generator's state afterwards.
type Pick = (usize, u32);

/// Steps 1 to 5 over clauses and values alone; everything is counted at each step.
struct Plain<'a> {
    order: &'a Order,
    clauses: BTreeMap<usize, Vec<usize>>,
    values: Vec<bool>,
    list: Vec<usize>,
    generator: Generator,
    picks: Vec<Pick>,
    ends: Vec<End>,
}

impl<'a> Plain<'a> {
    fn new(order: &'a Order, terms: usize, clauses: BTreeMap<usize, Vec<usize>>) -> Plain<'a> {
        Plain {
            order,
            clauses,
            values: vec![false; terms],
            list: Vec::new(),
            generator: Generator {
                state: order.seed as u32,
            },
            picks: Vec::new(),
            ends: Vec::new(),
        }
    }

    fn walk_all(&mut self) {
        for _ in 0..self.order.walks {
            let end = self.walk_once();
            self.ends.push(end);
            if end == End::Found {
                break;
            }
        }
    }

    /// A clause of no literal, which document 01 does not have, ends the walk that chooses it.
    fn walk_once(&mut self) -> End {
        self.start();
        for flips in 0.. {
            if self.list.is_empty() {
                return End::Found;
            }
            if flips == self.order.flips {
                break;
            }
            let slot = self.choice(self.list.len());
            let literals = self.clauses[&self.list[slot]].clone();
            if literals.is_empty() {
                return End::Stuck;
            }
            let literal = self.pick(&literals);
            self.picks.push((literal, self.generator.state));
            self.flip(literal / 2);
        }
        End::FlipsMade
    }

    fn start(&mut self) {
        let mut word = 0;
        for (term, value) in self.values.iter_mut().enumerate() {
            if term % TERMS_IN_A_WORD == 0 {
                word = self.generator.draw();
            }
            *value = word >> (term % TERMS_IN_A_WORD) & 1 == 1;
        }
        self.list = self.uncovered();
    }

    fn true_literals(&self, clause: &[usize]) -> Vec<usize> {
        let is_true = |literal: &usize| self.values[literal / 2] == (literal % 2 == 0);
        clause.iter().copied().filter(is_true).collect()
    }

    fn uncovered(&self) -> Vec<usize> {
        let clauses = self.clauses.iter();
        clauses
            .filter(|(_, literals)| self.true_literals(literals).is_empty())
            .map(|(clause, _)| *clause)
            .collect()
    }

    fn break_counts(&self) -> Vec<usize> {
        let mut counts = vec![0; self.values.len()];
        for literals in self.clauses.values() {
            if let [only] = self.true_literals(literals)[..] {
                counts[only / 2] += 1;
            }
        }
        counts
    }

    fn choice(&mut self, among: usize) -> usize {
        match self.order.even {
            0 => self.generator.choice(among),
            _ => self.generator.even_choice(among as u64) as usize,
        }
    }

    fn pick(&mut self, literals: &[usize]) -> usize {
        let breaks = self.break_counts();
        let least = literals.iter().map(|literal| breaks[literal / 2]).min();
        let mut among = literals.to_vec();
        let tails = least == Some(0) || !self.generator.heads(self.order.bias);
        if tails {
            among.retain(|literal| Some(breaks[literal / 2]) == least);
        }
        match among[..] {
            [only] if tails => only,
            _ => among[self.choice(among.len())],
        }
    }

    /// Clauses leave the list rising, then new ones come rising.
    fn flip(&mut self, term: usize) {
        self.values[term] = !self.values[term];
        let uncovered: BTreeSet<usize> = self.uncovered().into_iter().collect();
        let listed: BTreeSet<usize> = self.list.iter().copied().collect();
        for clause in listed.difference(&uncovered) {
            let slot = self.list.iter().position(|other| other == clause);
            self.list.swap_remove(slot.expect("it is listed"));
        }
        self.list.extend(uncovered.difference(&listed));
    }
}

/// The literals of free terms in each clause that no pinned term's literal covers.
fn what_pins_leave(counts: &Counts, tables: &Tables) -> BTreeMap<usize, Vec<usize>> {
    let is_free = |literal: &usize| tables.marks[literal / 2] == FREE;
    let covered_by_a_pin = |clause: &usize| {
        !true_literals(tables, *clause)
            .iter()
            .all(|literal| is_free(literal))
    };
    let literals = |clause: usize| {
        let run = tables.starts[clause] as usize..tables.starts[clause + 1] as usize;
        let literals = tables.literals[run].iter().map(|literal| *literal as usize);
        (clause, literals.filter(is_free).collect())
    };
    let clauses = 0..counts.clauses as usize;
    clauses
        .filter(|clause| !covered_by_a_pin(clause))
        .map(literals)
        .collect()
}

/// Walks both ways; each flip, each end, the list and the free terms' values must be the same. How the walks ended.
fn compare(seed: u64, limits: &Limits, kind: PinKind) -> Vec<End> {
    let random = &mut Random::new(seed);
    let (counts, mut tables) = pinned_tables_of(kind, limits, random);
    let order = order_of(random.pick(&OrderKind::IN_RANGE[..5]), random);
    let mut plain = Plain::new(
        &order,
        counts.terms as usize,
        what_pins_leave(&counts, &tables),
    );
    plain.walk_all();
    let (mut picks, mut ends) = (Vec::new(), Vec::new());
    let tell = &mut |event| match event {
        Event::Flip(step) => picks.push((step.literal, step.state)),
        Event::End(end) => ends.push(end),
    };
    let marks = tables.marks.clone();
    let answer = walk_telling(limits, &order, counts, &mut tables, tell);
    assert_eq!((&picks, &ends), (&plain.picks, &plain.ends), "seed {seed}");
    let made = [ends.len(), picks.len()].map(|number| number as u64);
    assert_eq!([answer.walks, answer.flips], made, "seed {seed}");
    let list = &tables.uncovered[..answer.counts.uncovered as usize];
    let plain_list: Vec<u64> = plain.list.iter().map(|clause| *clause as u64).collect();
    assert_eq!(list, plain_list, "seed {seed}");
    for (term, value) in plain.values.into_iter().enumerate() {
        let expected = match marks[term] {
            FREE => u64::from(value),
            mark => mark - 1,
        };
        assert_eq!(bit(&tables, term), expected, "seed {seed}, term {term}");
    }
    ends
}

/// The walks of so many cases, by how they ended.
fn ends_of(cases: u64, limits: &Limits, kinds: &[PinKind]) -> BTreeMap<End, u64> {
    let mut met = BTreeMap::new();
    for seed in 0..cases {
        let kind = kinds[seed as usize % kinds.len()];
        for end in compare(seed, limits, kind) {
            *met.entry(end).or_insert(0) += 1;
        }
    }
    met
}

#[test]
fn a_walk_with_pins_is_document_01s_walk_over_what_they_leave() {
    let met = ends_of(3_000, &SMALL, &PinKind::ALL);
    let often = [End::Found, End::FlipsMade, End::Stuck].map(|end| met[&end] > 500);
    assert_eq!(often, [true; 3], "{met:?}");
    ends_of(120, &NARROW, &PinKind::ALL);
}

#[test]
fn a_walk_without_pins_is_document_01s() {
    let met = ends_of(1_500, &SMALL, &[PinKind::NoTerm]);
    let ends: Vec<End> = met.keys().copied().collect();
    assert_eq!(ends, [End::Found, End::FlipsMade]);
    assert!(met.values().all(|times| *times > 300), "{met:?}");
    ends_of(80, &NARROW, &[PinKind::NoTerm]);
}

//! What several tests share. Clause text is read here by a few lines of its own, so that an answer is
//! judged by nothing of the library.
#![allow(dead_code)]

use std::collections::HashMap;

use ngiyarumba::{Choice, Order, Tables};

pub const TEXT: &str = "a b\n~a b\n";
pub const SHEET: &str = "seed=1\nflips=10\nwalks=1\nbias=400\n";
pub const ORDER: Order = Order {
    seed: 1,
    flips: 10,
    walks: 1,
    bias: 400,
    choice: Choice::Remainder,
};

/// Tables with this text read.
pub fn read(text: &str) -> Tables {
    let mut tables = Tables::new();
    tables
        .read(text)
        .unwrap_or_else(|error| panic!("{text:?} was refused: {error}"));
    tables
}

/// For each line of plain literals, how many of them are true. Comments are left out.
pub fn true_literals(text: &str, values: &HashMap<String, bool>) -> Vec<u16> {
    let lines = text.lines();
    let clauses = lines.filter(|line| *line != "~" && !line.starts_with("~ "));
    let is_true = |literal: &&str| match literal.strip_prefix('~') {
        Some(name) => !values[name],
        None => values[*literal],
    };
    clauses
        .map(|clause| clause.split(' ').filter(is_true).count() as u16)
        .collect()
}

pub fn values_of(tables: &Tables) -> HashMap<String, bool> {
    tables.terms().collect()
}

/// Numbers that are always the same: splitmix64, nothing of the walk's own generator.
pub struct Random(pub u64);

impl Random {
    pub fn below(&mut self, bound: usize) -> usize {
        self.0 = self.0.wrapping_add(0x9e37_79b9_7f4a_7c15);
        let mut z = self.0;
        z = (z ^ (z >> 30)).wrapping_mul(0xbf58_476d_1ce4_e5b9);
        z = (z ^ (z >> 27)).wrapping_mul(0x94d0_49bb_1331_11eb);
        ((z ^ (z >> 31)) % bound as u64) as usize
    }

    /// A clause text over some terms: clauses of three literals with different names.
    pub fn text(&mut self, terms: usize, clauses: usize) -> String {
        (0..clauses).map(|_| self.clause(terms) + "\n").collect()
    }

    fn clause(&mut self, terms: usize) -> String {
        let mut names: Vec<usize> = Vec::new();
        while names.len() < 3 {
            let name = self.below(terms);
            if !names.contains(&name) {
                names.push(name);
            }
        }
        let literals = names.iter().map(|name| format!("{}t{name}", self.sign()));
        literals.collect::<Vec<_>>().join(" ")
    }

    fn sign(&mut self) -> &'static str {
        ["", "~"][self.below(2)]
    }
}

//! The lent tables and the four counts that go beside them.

use crate::limits::{words_for, Limits, TABLES};

/// The ten tables in document 01's order, and the marks; each may have any length.
#[derive(Clone, Debug, Default, PartialEq, Eq)]
pub struct Tables {
    pub names: Vec<u64>,
    pub values: Vec<u64>,
    pub starts: Vec<u64>,
    pub literals: Vec<u64>,
    pub occurrence_starts: Vec<u64>,
    pub occurrences: Vec<u64>,
    pub trues: Vec<u64>,
    pub breaks: Vec<u64>,
    pub uncovered: Vec<u64>,
    pub places: Vec<u64>,
    /// "An eleventh lent table of 2,048 bytes marks terms".
    pub marks: Vec<u64>,
}

/// "Beside them go four counts by value: terms, clauses, literals, uncovered."
#[derive(Clone, Copy, Debug, Default, PartialEq, Eq)]
pub struct Counts {
    pub terms: u64,
    pub clauses: u64,
    pub literals: u64,
    pub uncovered: u64,
}

impl Tables {
    /// Full-size tables of zeros.
    pub fn zeros(limits: &Limits) -> Tables {
        let mut tables = Tables::default();
        for (table, size) in tables.all_mut().into_iter().zip(limits.full_sizes()) {
            table.resize(size, 0);
        }
        tables
    }

    pub fn all(&self) -> [&Vec<u64>; TABLES] {
        [
            &self.names,
            &self.values,
            &self.starts,
            &self.literals,
            &self.occurrence_starts,
            &self.occurrences,
            &self.trues,
            &self.breaks,
            &self.uncovered,
            &self.places,
            &self.marks,
        ]
    }

    pub fn all_mut(&mut self) -> [&mut Vec<u64>; TABLES] {
        [
            &mut self.names,
            &mut self.values,
            &mut self.starts,
            &mut self.literals,
            &mut self.occurrence_starts,
            &mut self.occurrences,
            &mut self.trues,
            &mut self.breaks,
            &mut self.uncovered,
            &mut self.places,
            &mut self.marks,
        ]
    }

    /// False is reason 1: "a lent table is shorter than its full size".
    pub fn reach_full_size(&self, limits: &Limits) -> bool {
        let sizes = limits.full_sizes();
        self.all()
            .iter()
            .zip(sizes)
            .all(|(table, size)| table.len() >= size)
    }

    /// "'Tables 0' means the full sizes"; the excess is not touched.
    pub fn clear(&mut self, limits: &Limits) {
        self.write_over(limits, &Tables::zeros(limits));
    }

    /// Without what two lists may leave apart that name each term equally often: "the order within the uncovered list, and the places noted for it".
    pub fn without_list_order(mut self, counts: &Counts) -> Tables {
        self.uncovered[..counts.uncovered as usize].sort_unstable();
        self.places.clear();
        self
    }

    /// Writes full-size tables over these lent ones; "the excess is never read or written".
    pub fn write_over(&mut self, limits: &Limits, full: &Tables) {
        let pairs = self.all_mut().into_iter().zip(full.all());
        for ((lent, written), size) in pairs.zip(limits.full_sizes()) {
            lent[..size].copy_from_slice(&written[..size]);
        }
    }
}

impl Counts {
    pub fn all(&self) -> [u64; 4] {
        [self.terms, self.clauses, self.literals, self.uncovered]
    }

    pub fn all_mut(&mut self) -> [&mut u64; 4] {
        [
            &mut self.terms,
            &mut self.clauses,
            &mut self.literals,
            &mut self.uncovered,
        ]
    }

    /// How many entries of each table are in use; the counts must be within their limits.
    pub fn in_use(&self) -> [usize; TABLES] {
        let (terms, clauses) = (self.terms as usize, self.clauses as usize);
        let (literals, uncovered) = (self.literals as usize, self.uncovered as usize);
        [
            terms,
            words_for(terms),
            clauses + 1,
            literals,
            2 * terms + 1,
            literals,
            clauses,
            terms,
            uncovered,
            clauses,
            terms,
        ]
    }

    pub fn are_within(&self, limits: &Limits) -> bool {
        self.terms <= limits.terms as u64
            && self.clauses <= limits.clauses as u64
            && self.literals <= limits.literals as u64
            && self.uncovered <= limits.clauses as u64
    }
}

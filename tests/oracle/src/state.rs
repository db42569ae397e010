//! A plain state of clauses, values and pins, and how it lies in the lent tables.

use crate::limits::{words_for, Limits, TERMS_IN_A_WORD};
use crate::marks::{mark_of, pin_of};
use crate::tables::{Counts, Tables};

/// The clauses of each literal, rising.
pub type Occurrences = Vec<Vec<usize>>;

/// "Term k's literal is 2k, its negation 2k+1."
#[derive(Clone, Debug, Default, PartialEq, Eq)]
pub struct State {
    /// Byte 0 of a name is lowest.
    pub names: Vec<u64>,
    /// Literals in reading order.
    pub clauses: Vec<Vec<usize>>,
    pub values: Vec<bool>,
    /// The uncovered clauses in the order of the list.
    pub uncovered: Vec<usize>,
    /// The value that each term is pinned at; none where it is free.
    pub pins: Vec<Option<bool>>,
}

pub fn term_of(literal: usize) -> usize {
    literal / 2
}

pub fn opposite(literal: usize) -> usize {
    literal ^ 1
}

impl State {
    /// These clauses as a reading leaves them: every value 0, the uncovered list rising, no term pinned.
    pub fn as_read(names: Vec<u64>, clauses: Vec<Vec<usize>>) -> State {
        let (values, pins) = (vec![false; names.len()], vec![None; names.len()]);
        let mut state = State {
            names,
            clauses,
            values,
            uncovered: Vec::new(),
            pins,
        };
        state.uncovered = state.uncovered_rising();
        state
    }

    /// Of a term's two literals the true one.
    fn true_literal(&self, term: usize) -> usize {
        2 * term + usize::from(!self.values[term])
    }

    fn is_true(&self, literal: usize) -> bool {
        literal == self.true_literal(term_of(literal))
    }

    pub fn true_count(&self, clause: usize) -> usize {
        let literals = self.clauses[clause].iter();
        literals.filter(|literal| self.is_true(**literal)).count()
    }

    /// "Break count of a term: the number of clauses whose only true literal is that term's."
    pub fn break_count(&self, term: usize, occurrences: &Occurrences) -> usize {
        let clauses = occurrences[self.true_literal(term)].iter();
        clauses
            .filter(|clause| self.true_count(**clause) == 1)
            .count()
    }

    /// The clauses with no true literal, rising.
    pub fn uncovered_rising(&self) -> Vec<usize> {
        let clauses = 0..self.clauses.len();
        clauses
            .filter(|clause| self.true_count(*clause) == 0)
            .collect()
    }

    /// The literals turned round: for each literal its clauses.
    pub fn occurrences(&self) -> Occurrences {
        let mut by_literal = vec![Vec::new(); 2 * self.names.len()];
        for (clause, literals) in self.clauses.iter().enumerate() {
            for literal in literals {
                by_literal[*literal].push(clause);
            }
        }
        by_literal
    }

    /// Step 5 of the walk: flips one term and brings the uncovered list up to date.
    pub fn flip(&mut self, term: usize, occurrences: &Occurrences) {
        self.values[term] = !self.values[term];
        let becomes_true = self.true_literal(term);
        for clause in &occurrences[becomes_true] {
            self.leave_the_list(*clause);
        }
        for clause in &occurrences[opposite(becomes_true)] {
            if self.true_count(*clause) == 0 {
                self.uncovered.push(*clause);
            }
        }
    }

    /// "one that leaves the uncovered list has its slot filled by the last entry"
    fn leave_the_list(&mut self, clause: usize) {
        if let Some(slot) = self.uncovered.iter().position(|listed| *listed == clause) {
            self.uncovered.swap_remove(slot);
        }
    }

    pub fn counts(&self) -> Counts {
        Counts {
            terms: self.names.len() as u64,
            clauses: self.clauses.len() as u64,
            literals: self.clauses.iter().map(Vec::len).sum::<usize>() as u64,
            uncovered: self.uncovered.len() as u64,
        }
    }

    /// The state that agreeing tables hold.
    pub fn standing(counts: &Counts, tables: &Tables) -> State {
        State {
            names: tables.names[..counts.terms as usize].to_vec(),
            clauses: clauses_of(counts, tables),
            values: values_of(counts, tables),
            uncovered: as_indexes(&tables.uncovered[..counts.uncovered as usize]),
            pins: pins_of(counts, tables),
        }
    }

    /// Full-size tables of this state; "Entries past those in use, up to the full size, are 0."
    pub fn lay_out(&self, limits: &Limits) -> Tables {
        let occurrences = self.occurrences();
        let mut tables = Tables {
            names: self.names.clone(),
            values: self.value_words(),
            starts: running_starts(&self.clauses),
            literals: as_entries(&self.clauses.concat()),
            occurrence_starts: running_starts(&occurrences),
            occurrences: as_entries(&occurrences.concat()),
            trues: self.each_true_count(),
            breaks: self.each_break_count(&occurrences),
            uncovered: as_entries(&self.uncovered),
            places: self.each_place(),
            marks: self.pins.iter().map(|pin| mark_of(*pin)).collect(),
        };
        for (table, size) in tables.all_mut().into_iter().zip(limits.full_sizes()) {
            table.resize(size, 0);
        }
        tables
    }

    /// "values, 32 terms to a word, low bit first"
    fn value_words(&self) -> Vec<u64> {
        let mut words = vec![0; words_for(self.values.len())];
        for (term, value) in self.values.iter().enumerate() {
            words[term / TERMS_IN_A_WORD] |= u64::from(*value) << (term % TERMS_IN_A_WORD);
        }
        words
    }

    fn each_true_count(&self) -> Vec<u64> {
        let clauses = 0..self.clauses.len();
        clauses
            .map(|clause| self.true_count(clause) as u64)
            .collect()
    }

    fn each_break_count(&self, occurrences: &Occurrences) -> Vec<u64> {
        let terms = 0..self.names.len();
        terms
            .map(|term| self.break_count(term, occurrences) as u64)
            .collect()
    }

    /// "place in that list, by clause; 0 if covered"; places count from 0.
    pub fn each_place(&self) -> Vec<u64> {
        let mut places = vec![0; self.clauses.len()];
        for (place, clause) in self.uncovered.iter().enumerate() {
            places[*clause] = place as u64;
        }
        places
    }
}

/// The clauses that tables hold, where their starts are in order.
pub fn clauses_of(counts: &Counts, tables: &Tables) -> Vec<Vec<usize>> {
    let starts = as_indexes(&tables.starts[..=counts.clauses as usize]);
    let runs = starts.windows(2).map(|ends| ends[0]..ends[1]);
    runs.map(|run| as_indexes(&tables.literals[run])).collect()
}

/// The values that tables hold.
pub fn values_of(counts: &Counts, tables: &Tables) -> Vec<bool> {
    let bit = |term: usize| tables.values[term / TERMS_IN_A_WORD] >> (term % TERMS_IN_A_WORD) & 1;
    (0..counts.terms as usize)
        .map(|term| bit(term) == 1)
        .collect()
}

/// The pins that tables hold.
fn pins_of(counts: &Counts, tables: &Tables) -> Vec<Option<bool>> {
    let marks = &tables.marks[..counts.terms as usize];
    marks.iter().map(|mark| pin_of(*mark)).collect()
}

/// Where each run begins in the joined runs, "one past the last included".
pub fn running_starts(runs: &[Vec<usize>]) -> Vec<u64> {
    let mut starts = vec![0];
    let mut end = 0;
    for run in runs {
        end += run.len() as u64;
        starts.push(end);
    }
    starts
}

pub fn as_entries(indexes: &[usize]) -> Vec<u64> {
    indexes.iter().map(|index| *index as u64).collect()
}

fn as_indexes(entries: &[u64]) -> Vec<usize> {
    entries.iter().map(|entry| *entry as usize).collect()
}

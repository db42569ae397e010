//! What the tests share.
#![allow(dead_code)]

use std::collections::BTreeSet;

use oracle::agree::agree;
use oracle::reading::{read, ReadAnswer};
use oracle::walk::{walk, WalkAnswer};
use oracle::{run, Counts, Limits, Order, Tables};

pub const NARROW: Limits = Limits::NARROW;

/// Limits so low that small texts meet them.
pub const SMALL: Limits = Limits {
    text: 1_500,
    terms: 40,
    clauses: 90,
    literals: 240,
    list: 60,
};

pub const ORDER: Order = Order::EXAMPLE;

/// The good sheet of the program's example.
pub const GOOD_SHEET: &str = "seed=1\nflips=10\nwalks=1\nbias=400\n";

/// A reading into full-size tables that are not 0 before.
pub fn read_narrow(text: impl AsRef<[u8]>) -> (ReadAnswer, Tables) {
    let mut tables = full_of(&NARROW, 7);
    let answer = read(&NARROW, text.as_ref(), &mut tables);
    (answer, tables)
}

/// Full-size tables with this number everywhere.
pub fn full_of(limits: &Limits, number: u64) -> Tables {
    let mut tables = Tables::zeros(limits);
    for table in tables.all_mut() {
        table.fill(number);
    }
    tables
}

/// A reading that must be accepted.
pub fn accepted(text: impl AsRef<[u8]>) -> (Counts, Tables) {
    let (answer, tables) = read_narrow(text);
    assert_eq!((answer.result, answer.reason, answer.line), (1, 0, 0));
    (answer.counts, tables)
}

/// Asserts a refused reading: its reason and line, four counts of 0 and tables 0.
pub fn assert_refused(text: impl AsRef<[u8]>, reason: u64, line: u64) {
    let (answer, tables) = read_narrow(text);
    assert_eq!(
        (answer.result, answer.reason, answer.line),
        (0, reason, line)
    );
    assert_eq!(answer.counts, Counts::default());
    assert_eq!(tables, Tables::zeros(&NARROW));
}

/// Terms, clauses, literals.
pub fn held(counts: Counts) -> [u64; 3] {
    [counts.terms, counts.clauses, counts.literals]
}

/// A reading and a walk, both accepted.
pub fn walked(text: &str, order: &Order) -> (WalkAnswer, Tables) {
    let (counts, mut tables) = accepted(text);
    let answer = walk(&NARROW, order, counts, &mut tables);
    assert_eq!(answer.reason, 0);
    (answer, tables)
}

/// How a walk ended: its result, walks and flips.
pub fn ended(answer: WalkAnswer) -> [u64; 3] {
    [answer.result, answer.walks, answer.flips]
}

/// What the run program prints for a sheet and a text.
pub fn printed(sheet: &str, text: impl AsRef<[u8]>) -> String {
    let input = [sheet.as_bytes(), text.as_ref()].concat();
    String::from_utf8(run(&NARROW, &input)).expect("these names are plain")
}

/// The three lines of a refusal.
pub fn refusal(reason: u64, line: u64) -> String {
    format!("result=refused\nreason={reason}\nline={line}\n")
}

/// The name of the term with this number in the texts below.
pub fn name(number: usize) -> String {
    String::from_utf8(oracle::generate::names::nth_name(number)).expect("names are ASCII")
}

/// So many literals in clauses of two, over 40 terms, and one clause of one if need be.
pub fn text_of_literals(count: usize) -> String {
    let pair = |index: usize| match index + 1 < count {
        true => format!("{} {}\n", name(index % 40), name((index + 1) % 40)),
        false => format!("{}\n", name(index % 40)),
    };
    (0..count).step_by(2).map(pair).collect()
}

/// So many unit clauses over 40 terms.
pub fn text_of_clauses(count: usize) -> String {
    (0..count)
        .map(|index| format!("{}\n", name(index % 40)))
        .collect()
}

/// So many terms, eight to a clause.
pub fn text_of_terms(count: usize) -> String {
    let end = |index: usize| {
        if index % 8 == 7 || index + 1 == count {
            "\n"
        } else {
            " "
        }
    };
    (0..count).map(|index| name(index) + end(index)).collect()
}

/// The four counts and the tables of a call.
pub type Lent = (Counts, Tables);

pub fn assert_excess_untouched(limits: &Limits, before: &Tables, after: &Tables) {
    let pairs = before.all().into_iter().zip(after.all());
    for ((old, new), size) in pairs.zip(limits.full_sizes()) {
        assert_eq!(old.len(), new.len());
        assert!(old.get(size..) == new.get(size..));
    }
}

fn assert_same_clauses(before: &Tables, after: &Tables) {
    assert!(before.names == after.names && before.marks == after.marks);
    assert!(before.starts == after.starts && before.literals == after.literals);
    assert!(before.occurrence_starts == after.occurrence_starts);
    assert!(before.occurrences == after.occurrences);
}

pub fn bit(tables: &Tables, term: usize) -> u64 {
    tables.values[term / 32] >> (term % 32) & 1
}

/// The true literals of a clause, straight from the tables.
pub fn true_literals(tables: &Tables, clause: usize) -> Vec<usize> {
    let run = tables.starts[clause] as usize..tables.starts[clause + 1] as usize;
    let literals = tables.literals[run].iter().map(|literal| *literal as usize);
    literals
        .filter(|literal| bit(tables, literal / 2) != (literal % 2) as u64)
        .collect()
}

/// Recounts everything from clauses and values, by another way than the library's.
pub fn assert_counted_afresh(counts: &Counts, tables: &Tables) {
    let mut breaks = vec![0; counts.terms as usize];
    let mut uncovered = BTreeSet::new();
    for clause in 0..counts.clauses as usize {
        let standing = true_literals(tables, clause);
        assert_eq!(tables.trues[clause], standing.len() as u64);
        match standing[..] {
            [] => drop(uncovered.insert(clause as u64)),
            [only] => breaks[only / 2] += 1,
            _ => {}
        }
    }
    assert_eq!(tables.breaks[..breaks.len()], breaks);
    let list = &tables.uncovered[..counts.uncovered as usize];
    assert_eq!(list.len(), uncovered.len());
    assert_eq!(list.iter().copied().collect::<BTreeSet<u64>>(), uncovered);
}

/// A flip list or a walk that is refused changes nothing; any other leaves the same clauses, counted afresh. Whether it was accepted.
pub fn is_accepted(limits: &Limits, result: u64, before: &Lent, after: &Lent) -> bool {
    assert_excess_untouched(limits, &before.1, &after.1);
    if result == 0 {
        assert!(before == after);
        return false;
    }
    assert!(agree(limits, &before.0, &before.1) && agree(limits, &after.0, &after.1));
    assert_same_clauses(&before.1, &after.1);
    assert_counted_afresh(&after.0, &after.1);
    true
}

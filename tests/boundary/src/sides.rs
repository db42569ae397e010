//! The library and the independent program side by side, on the same tables.

use std::fmt::Debug;

use oracle::calls::{Call, Told};
use oracle::flips::{flip, FlipAnswer};
use oracle::generate::Random;
use oracle::numbered::read_numbered;
use oracle::pins::{lift, pin};
use oracle::reading::{read, ReadAnswer};
use oracle::reasons::{NONE, TABLE_TOO_SHORT};
use oracle::walk::{walk_telling, End, Event, Step, WalkAnswer};
use oracle::{run_on, Counts, Order, RunAnswer, Tables};

use crate::differences::{difference, differences};
use crate::host::{Called, Fault, Form, Host};
use crate::rubbish::rubbish;
use crate::wire::{bytes_of, entries_of};
use crate::{Lent, NARROW};

/// Bytes of a text that a report shows.
const SHOWN: usize = 200;

pub struct Sides {
    host: Host,
    /// What texts are read as.
    pub form: Form,
    /// What is lent, in words, for the reports.
    pub case: String,
    /// Calls on these tables.
    calls: usize,
    pub counts: Counts,
    pub tables: Tables,
    /// The steps of the last call to walk, and how each of its walks ended.
    pub steps: Vec<Step>,
    pub ends: Vec<End>,
}

impl Sides {
    /// Reads own text, unless told otherwise.
    pub fn start() -> Sides {
        Sides {
            host: Host::start(),
            form: Form::Own,
            case: String::new(),
            calls: 0,
            counts: Counts::default(),
            tables: Tables::default(),
            steps: Vec::new(),
            ends: Vec::new(),
        }
    }

    /// Lends the same to both; counts cross in 32 bits, so only these are kept.
    pub fn lend(&mut self, case: String, lent: Lent) {
        self.case = case;
        self.calls = 0;
        self.lend_instead(lent);
    }

    /// Lends other counts and tables in the same case.
    pub fn lend_instead(&mut self, (counts, tables): Lent) {
        self.counts = low_32_bits(counts);
        self.tables = tables;
        let lent = self.host.lend(&self.tables);
        lent.unwrap_or_else(|fault| panic!("{}: {fault}", self.case));
    }

    /// Lends entries that no call may count on.
    pub fn lend_rubbish(&mut self, case: String, random: &mut Random) {
        self.lend(case, (Counts::default(), rubbish(random)));
    }

    /// Gives a list to both; they must answer the same and leave the same.
    pub fn flip(&mut self, list: &[u64]) -> FlipAnswer {
        let called = self.host.flip(list, &self.counts);
        let answer = flip(&NARROW, list, self.counts, &mut self.tables);
        let given = format!("a list of {} flips", list.len());
        self.compare(given, &[list], &answer, called);
        self.counts = answer.counts;
        answer
    }

    /// Gives a term and a value to both, to pin it at; they must answer the same and leave the same.
    pub fn pin(&mut self, term: u64, value: u64) -> FlipAnswer {
        let called = self.host.pin(term, value, &self.counts);
        let answer = pin(&NARROW, term, value, self.counts, &mut self.tables);
        self.compare(format!("a pin of {term} at {value}"), &[], &answer, called);
        self.counts = answer.counts;
        answer
    }

    /// Gives a term to both, to lift its pin; they must answer the same and leave the same.
    pub fn lift(&mut self, term: u64) -> FlipAnswer {
        let called = self.host.lift(term, &self.counts);
        let answer = lift(&NARROW, term, self.counts, &mut self.tables);
        self.compare(format!("a lift of {term}"), &[], &answer, called);
        self.counts = answer.counts;
        answer
    }

    /// Makes a call of a row on both.
    pub fn call(&mut self, call: &Call) -> Told {
        match call {
            Call::Pin { term, value } => self.pin(*term, *value).into(),
            Call::Lift { term } => self.lift(*term).into(),
            Call::Flip { list } => self.flip(list).into(),
            Call::Walk { order } => self.walk(order).into(),
        }
    }

    /// Gives a text to both; they must answer the same and leave the same.
    pub fn read(&mut self, text: &[u8]) -> ReadAnswer {
        let called = self.host.read(self.form, text);
        let answer = match self.form {
            Form::Own => read(&NARROW, text, &mut self.tables),
            Form::Numbered => read_numbered(&NARROW, text, &mut self.tables),
        };
        self.compare(shown(text), &[&entries_of(text, 1)], &answer, called);
        self.counts = answer.counts;
        answer
    }

    /// Gives an order to both; they must answer the same and leave the same.
    pub fn walk(&mut self, order: &Order) -> WalkAnswer {
        let called = self.host.walk(order, &self.counts);
        self.steps.clear();
        self.ends.clear();
        let mut tell = |event| match event {
            Event::Flip(step) => self.steps.push(step),
            Event::End(end) => self.ends.push(end),
        };
        let answer = walk_telling(&NARROW, order, self.counts, &mut self.tables, &mut tell);
        self.compare(format!("{order:?}"), &[], &answer, called);
        self.counts = answer.counts;
        answer
    }

    /// Gives an input and an output that both must run; they must print the same and leave the same. Tells what is printed.
    pub fn run(&mut self, input: &[u8], output: &mut [u8]) -> Vec<u8> {
        let ran = self.ran_the_same(input, output);
        let told = (ran.answer.result, ran.answer.reason);
        assert_eq!(told, (1, NONE), "{}: {}", self.case, shown(input));
        ran.printed
    }

    /// Gives an input and an output to both; they must answer the same and leave the same.
    fn ran_the_same(&mut self, input: &[u8], output: &mut [u8]) -> Ran {
        let ran = self.ran(input, output);
        let (expected, got) = (ran.printed.escape_ascii(), ran.got.escape_ascii());
        let report = &ran.report;
        assert!(report.is_empty(), "{report}\n  \"{expected}\"\n  \"{got}\"");
        ran
    }

    /// The same, where the two may differ.
    pub fn ran(&mut self, input: &[u8], output: &mut [u8]) -> Ran {
        let called = self.host.run(input, output);
        let answer = run_on(&NARROW, input, &mut self.tables, output);
        let beside = [input, output].map(|bytes| entries_of(bytes, 1));
        let beside = beside.each_ref().map(Vec::as_slice);
        let report = self.report(shown(input), &beside, &answer, &called);
        self.counts = counts_in(&self.tables);
        Ran {
            answer,
            printed: output[..answer.length as usize].to_vec(),
            got: called.map_or(Vec::new(), |found| printed_by(&found)),
            report,
        }
    }

    /// Gives an input that both must not run, since a table or the output is too short: reason 1, with nothing printed and nothing changed.
    pub fn refuse_run(&mut self, input: &[u8], output: &mut [u8]) {
        let before = (self.tables.clone(), output.to_vec());
        let expected = RunAnswer {
            result: 0,
            reason: TABLE_TOO_SHORT,
            length: 0,
        };
        let answer = self.ran_the_same(input, output).answer;
        assert_eq!(answer, expected, "{}", self.case);
        let same = before == (self.tables.clone(), output.to_vec());
        assert!(same, "{}", self.case);
    }

    /// The two must not differ.
    fn compare<Answer: Debug + PartialEq>(
        &mut self,
        given: String,
        beside: &[&[u64]],
        answer: &Answer,
        called: Result<Called<Answer>, Fault>,
    ) {
        let report = self.report(given, beside, answer, &called);
        assert!(report.is_empty(), "{report}");
    }

    /// Gives a list that both must refuse for this reason, with nothing changed.
    pub fn refuse(&mut self, list: &[u64], reason: u64) {
        let before = (self.counts, self.tables.clone());
        let answer = self.flip(list);
        assert_eq!((answer.result, answer.reason), (0, reason), "{}", self.case);
        self.see_unchanged(before);
    }

    /// Gives a term that both must neither pin, at either value, nor lift, for this reason, with nothing changed.
    pub fn refuse_pin_and_lift(&mut self, term: u64, reason: u64) {
        let before = (self.counts, self.tables.clone());
        let expected = FlipAnswer::refused(reason, self.counts);
        let answers = [self.pin(term, 0), self.pin(term, 1), self.lift(term)];
        assert_eq!(answers, [expected; 3], "{}", self.case);
        self.see_unchanged(before);
    }

    /// Gives an order that both must refuse for this reason, with nothing changed.
    pub fn refuse_order(&mut self, order: &Order, reason: u64) {
        let before = (self.counts, self.tables.clone());
        let expected = WalkAnswer {
            result: 0,
            reason,
            walks: 0,
            flips: 0,
            counts: self.counts,
        };
        assert_eq!(self.walk(order), expected, "{}", self.case);
        self.see_unchanged(before);
    }

    fn see_unchanged(&self, (counts, tables): Lent) {
        let same = counts == self.counts && tables == self.tables;
        assert!(same, "{}", self.case);
    }

    /// Gives a list that both must apply.
    pub fn apply(&mut self, list: &[u64]) {
        let answer = self.flip(list);
        assert_eq!((answer.result, answer.reason), (1, 0), "{}", self.case);
    }

    /// Gives a term that both must pin at this value.
    pub fn apply_pin(&mut self, term: u64, value: u64) {
        let answer = self.pin(term, value);
        assert_eq!((answer.result, answer.reason), (1, NONE), "{}", self.case);
    }

    /// Gives a term whose pin both must lift; a free one has none, and is lifted all the same.
    pub fn apply_lift(&mut self, term: u64) {
        let answer = self.lift(term);
        assert_eq!((answer.result, answer.reason), (1, NONE), "{}", self.case);
    }

    /// Gives an order that both must walk by.
    pub fn walk_by(&mut self, order: &Order) -> WalkAnswer {
        let answer = self.walk(order);
        assert_eq!(answer.reason, NONE, "{}", self.case);
        answer
    }

    /// Gives a text that both must accept.
    pub fn accept(&mut self, text: &[u8]) {
        let answer = self.read(text);
        let told = (answer.result, answer.reason, answer.line);
        assert_eq!(told, (1, NONE, 0), "{}: {}", self.case, shown(text));
    }

    /// Gives a text that both must refuse for this reason, at this line: with nothing changed for reason 1, else with every table 0.
    pub fn refuse_text(&mut self, text: &[u8], reason: u64, line: u64) {
        let mut left = self.tables.clone();
        if reason != TABLE_TOO_SHORT {
            left.clear(&NARROW);
        }
        let expected = ReadAnswer {
            result: 0,
            reason,
            line,
            counts: Counts::default(),
        };
        let answer = self.read(text);
        assert_eq!(answer, expected, "{}: {}", self.case, shown(text));
        assert!(left == self.tables, "{}: {}", self.case, shown(text));
    }

    /// What was given and what differs between the two, a line each; nothing where all is the same.
    fn report<Answer: Debug + PartialEq>(
        &mut self,
        given: String,
        beside: &[&[u64]],
        answer: &Answer,
        called: &Result<Called<Answer>, Fault>,
    ) -> String {
        self.calls += 1;
        let differing = match called {
            Ok(found) => self.differing(beside, answer, found),
            Err(fault) => format!(" {fault}"),
        };
        if differing.is_empty() {
            return differing;
        }
        format!("{}, call {}: {given}:{differing}", self.case, self.calls)
    }

    fn differing<Answer: Debug + PartialEq>(
        &self,
        beside: &[&[u64]],
        answer: &Answer,
        found: &Called<Answer>,
    ) -> String {
        let mut differing = String::new();
        if *answer != found.answer {
            differing += &format!("\n  answer: {answer:?} expected, {:?} found", found.answer);
        }
        for (expected, (name, found)) in beside.iter().zip(&found.beside) {
            if expected != found {
                differing += &difference(name, expected, found);
            }
        }
        differing + &differences(&self.tables, &found.tables)
    }
}

/// A run on both sides.
pub struct Ran {
    pub answer: RunAnswer,
    /// What is printed.
    pub printed: Vec<u8>,
    /// What the library printed; nothing where its call was not answered.
    pub got: Vec<u8>,
    /// What was given and what differs; nothing where all is the same.
    pub report: String,
}

/// As many bytes of the output as the library says, if there are so many.
fn printed_by(found: &Called<RunAnswer>) -> Vec<u8> {
    let output = found.beside.last().map_or(&[][..], |(_, output)| output);
    let length = output.len().min(found.answer.length as usize);
    bytes_of(&output[..length])
}

/// The counts that tables hold as a reading or a walk has left them; a run does not tell them.
fn counts_in(tables: &Tables) -> Counts {
    let [names, _, starts, ..] = NARROW.full_sizes();
    let used = |table: &[u64], size| {
        let entries = table.iter().take(size);
        entries.filter(|entry| **entry > 0).count() as u64
    };
    let clauses = used(&tables.starts, starts);
    let covered = used(&tables.trues, clauses as usize);
    Counts {
        terms: used(&tables.names, names),
        clauses,
        literals: tables.starts.get(clauses as usize).copied().unwrap_or(0),
        uncovered: clauses - covered,
    }
}

/// A text for the reports: its end, where it is long.
fn shown(text: &[u8]) -> String {
    let end = &text[text.len().saturating_sub(SHOWN)..];
    let before = text.len() - end.len();
    format!("a text of {before} bytes and \"{}\"", end.escape_ascii())
}

fn low_32_bits(mut counts: Counts) -> Counts {
    for count in counts.all_mut() {
        *count &= u64::from(u32::MAX);
    }
    counts
}

//! The host program, which is linked with the static library; `tests/host/host.c` says what is sent and answered.

use std::io::{Read, Write};
use std::process::{ChildStdin, ChildStdout, Command, Stdio};
use std::time::Duration;

use oracle::draw::Drawn;
use oracle::flips::FlipAnswer;
use oracle::generate::ReaderCase;
use oracle::kinds;
use oracle::limits::TABLES;
use oracle::reader::{ReaderStep, Row};
use oracle::reading::ReadAnswer;
use oracle::walk::WalkAnswer;
use oracle::{Counts, Order, RunAnswer, Tables};

use crate::differences::TABLE_NAMES;
use crate::watch::Watched;
use crate::wire::{bytes_of, entries_of, put_entries, put_numbers, request, NUMBER_WIDTH};
use crate::NARROW;

/// `tests/host/build` writes it.
const STARTER: &str = concat!(env!("CARGO_MANIFEST_DIR"), "/../../target/host/run");

const LEND: u32 = 1;
const FLIP: u32 = 2;
const READ: u32 = 3;
const WALK: u32 = 4;
const DRAW: u32 = 5;
const CHOICE: u32 = 6;
const HEADS: u32 = 7;
const RUN: u32 = 8;
const FOLLOW: u32 = 9;
const EVEN: u32 = 10;
const PIN: u32 = 11;
const LIFT: u32 = 12;
const NUMBER: u32 = 13;

/// Bytes of a flip list's entry, of a text's, and of a number of a reader's row.
const TERM_WIDTH: usize = 2;
const BYTE_WIDTH: usize = 1;
const ROW_WIDTH: usize = 8;

/// What the host calls a reader's steps.
const PASS: u8 = 0;
const NEXT: u8 = 1;

/// No call takes nearly so long, not even under an emulator.
const PATIENCE: Duration = Duration::from_secs(120);

pub struct Host {
    process: Watched,
    requests: ChildStdin,
    answers: ChildStdout,
    /// The lengths of the tables that are lent.
    lengths: [usize; TABLES],
}

/// An answer, and all that was lent as it stands after the call.
pub struct Called<Answer> {
    pub answer: Answer,
    /// What was lent beside the tables, by its name: a list, a text, an input and an output, or nothing.
    pub beside: Vec<(&'static str, Vec<u64>)>,
    pub tables: Tables,
}

/// The name, length and width of entries that are lent beside the tables.
type Shape = (&'static str, usize, usize);

kinds! {
    /// Who reads; the host counts them from 0.
    pub enum Scanner {
        Reader,
        /// The cursor that the reader is thin over.
        Cursor,
    }
}

/// The two forms of clause text, each with its call.
#[derive(Clone, Copy, Debug, PartialEq, Eq)]
pub enum Form {
    Own,
    Numbered,
}

/// The rows that a script has told, and the text as it stands after the calls.
pub type Followed = (Vec<Row>, Vec<u8>);

/// What went wrong with a call, in words.
pub type Fault = String;

impl Host {
    pub fn start() -> Host {
        Host::with_patience(PATIENCE)
    }

    fn with_patience(patience: Duration) -> Host {
        let mut child = Command::new(STARTER)
            .stdin(Stdio::piped())
            .stdout(Stdio::piped())
            .spawn()
            .unwrap_or_else(|error| panic!("{STARTER}: {error}; tests/host/build makes it"));
        Host {
            requests: child.stdin.take().expect("the input is piped"),
            answers: child.stdout.take().expect("the output is piped"),
            process: Watched::new(child, patience),
            lengths: [0; TABLES],
        }
    }

    /// Lends tables of any lengths for the calls that follow.
    pub fn lend(&mut self, tables: &Tables) -> Result<(), Fault> {
        self.lengths = tables.all().map(Vec::len);
        let mut request = request(LEND, &self.lengths.map(|length| length as u64));
        for (table, width) in tables.all().into_iter().zip(table_widths()) {
            put_entries(&mut request, table, width);
        }
        self.send(&request)
    }

    /// `ngi_flip` on the tables that are lent.
    pub fn flip(&mut self, list: &[u64], counts: &Counts) -> Result<Called<FlipAnswer>, Fault> {
        let mut request = request(FLIP, &[list.len() as u64]);
        put_entries(&mut request, list, TERM_WIDTH);
        put_numbers(&mut request, &counts.all());
        let list = ("list", list.len(), TERM_WIDTH);
        self.call(&request, &[list], Host::flip_answer)
    }

    /// `ngi_pin` on the tables that are lent.
    pub fn pin(
        &mut self,
        term: u64,
        value: u64,
        counts: &Counts,
    ) -> Result<Called<FlipAnswer>, Fault> {
        let mut request = request(PIN, &[term, value]);
        put_numbers(&mut request, &counts.all());
        self.call(&request, &[], Host::flip_answer)
    }

    /// `ngi_lift` on the tables that are lent.
    pub fn lift(&mut self, term: u64, counts: &Counts) -> Result<Called<FlipAnswer>, Fault> {
        let mut request = request(LIFT, &[term]);
        put_numbers(&mut request, &counts.all());
        self.call(&request, &[], Host::flip_answer)
    }

    /// `ngi_read` or `ngi_read_numbered` into the tables that are lent.
    pub fn read(&mut self, form: Form, text: &[u8]) -> Result<Called<ReadAnswer>, Fault> {
        let opcode = match form {
            Form::Own => READ,
            Form::Numbered => NUMBER,
        };
        let mut request = request(opcode, &[text.len() as u64]);
        request.extend(text);
        let text = ("text", text.len(), BYTE_WIDTH);
        self.call(&request, &[text], Host::read_answer)
    }

    /// `ngi_walk` on the tables that are lent.
    pub fn walk(&mut self, order: &Order, counts: &Counts) -> Result<Called<WalkAnswer>, Fault> {
        let mut request = request(WALK, &order.all());
        put_numbers(&mut request, &counts.all());
        self.call(&request, &[], Host::walk_answer)
    }

    /// `ngi_run` on the tables that are lent.
    pub fn run(&mut self, input: &[u8], output: &[u8]) -> Result<Called<RunAnswer>, Fault> {
        let mut request = request(RUN, &[input.len() as u64, output.len() as u64]);
        request.extend(input);
        request.extend(output);
        let input = ("input", input.len(), BYTE_WIDTH);
        let output = ("output", output.len(), BYTE_WIDTH);
        self.call(&request, &[input, output], Host::run_answer)
    }

    /// Sends a request, then takes its answer and all that was lent.
    fn call<Answer>(
        &mut self,
        request: &[u8],
        beside: &[Shape],
        answer: fn(&mut Host) -> Result<Answer, Fault>,
    ) -> Result<Called<Answer>, Fault> {
        self.send(request)?;
        self.see_guards(beside)?;
        let answer = answer(self)?;
        let mut entries = |(name, length, width): &Shape| -> Result<_, Fault> {
            Ok((*name, self.entries(*length, *width)?))
        };
        Ok(Called {
            answer,
            beside: beside.iter().map(&mut entries).collect::<Result<_, _>>()?,
            tables: self.tables()?,
        })
    }

    /// `ngi_draw`.
    pub fn draw(&mut self, state: u64) -> Result<Drawn, Fault> {
        self.drawn(DRAW, &[state])
    }

    /// `ngi_choice`.
    pub fn choice(&mut self, state: u64, among: u64) -> Result<Drawn, Fault> {
        self.drawn(CHOICE, &[state, among])
    }

    /// `ngi_choice_even`.
    pub fn choice_even(&mut self, state: u64, among: u64) -> Result<Drawn, Fault> {
        self.drawn(EVEN, &[state, among])
    }

    /// `ngi_heads`.
    pub fn heads(&mut self, state: u64, bias: u64) -> Result<Drawn, Fault> {
        self.drawn(HEADS, &[state, bias])
    }

    /// A reader's case, step by step.
    pub fn follow(&mut self, by: Scanner, case: &ReaderCase) -> Result<Followed, Fault> {
        let lengths = [case.text.len() as u64, case.script.len() as u64];
        let mut request = request(FOLLOW, &[by as u64, lengths[0], lengths[1]]);
        put_entries(&mut request, &[case.at as u64, case.line], ROW_WIDTH);
        request.extend(&case.text);
        request.extend(case.script.iter().map(|step| step_byte(*step)));
        self.send(&request)?;
        self.see_guards(&[("text", case.text.len(), BYTE_WIDTH)])?;
        let row = |_| -> Result<Row, Fault> {
            let numbers = self.entries(Row::default().len(), ROW_WIDTH)?;
            Ok(numbers.try_into().expect("a row has its length"))
        };
        let rows = case.script.iter().map(row).collect::<Result<_, _>>()?;
        Ok((rows, bytes_of(&self.entries(case.text.len(), BYTE_WIDTH)?)))
    }

    fn drawn(&mut self, opcode: u32, numbers: &[u64]) -> Result<Drawn, Fault> {
        self.send(&request(opcode, numbers))?;
        Ok(Drawn {
            reason: self.number()?,
            number: self.number()?,
            state: self.number()?,
        })
    }

    fn see_guards(&mut self, beside: &[Shape]) -> Result<(), Fault> {
        let status = self.number()? as usize;
        if status == 0 {
            return Ok(());
        }
        let mut names = TABLE_NAMES
            .into_iter()
            .chain(beside.iter().map(|shape| shape.0));
        let lent = names.nth(status - 1).unwrap_or("something else");
        Err(format!(
            "the call wrote before or after what was lent: {lent}"
        ))
    }

    fn flip_answer(&mut self) -> Result<FlipAnswer, Fault> {
        Ok(FlipAnswer {
            result: self.number()?,
            reason: self.number()?,
            counts: self.counts()?,
        })
    }

    fn read_answer(&mut self) -> Result<ReadAnswer, Fault> {
        Ok(ReadAnswer {
            result: self.number()?,
            reason: self.number()?,
            line: self.number()?,
            counts: self.counts()?,
        })
    }

    fn walk_answer(&mut self) -> Result<WalkAnswer, Fault> {
        Ok(WalkAnswer {
            result: self.number()?,
            reason: self.number()?,
            walks: self.number()?,
            flips: self.number()?,
            counts: self.counts()?,
        })
    }

    fn run_answer(&mut self) -> Result<RunAnswer, Fault> {
        Ok(RunAnswer {
            result: self.number()?,
            reason: self.number()?,
            length: self.length()?,
        })
    }

    /// All 64 bits of it, the low ones first.
    fn length(&mut self) -> Result<u64, Fault> {
        Ok(self.number()? | self.number()? << 32)
    }

    fn counts(&mut self) -> Result<Counts, Fault> {
        Ok(Counts {
            terms: self.number()?,
            clauses: self.number()?,
            literals: self.number()?,
            uncovered: self.number()?,
        })
    }

    fn tables(&mut self) -> Result<Tables, Fault> {
        let mut tables = Tables::default();
        let shapes = self.lengths.into_iter().zip(table_widths());
        for (table, (length, width)) in tables.all_mut().into_iter().zip(shapes) {
            *table = self.entries(length, width)?;
        }
        Ok(tables)
    }

    fn number(&mut self) -> Result<u64, Fault> {
        Ok(self.entries(1, NUMBER_WIDTH)?[0])
    }

    fn entries(&mut self, length: usize, width: usize) -> Result<Vec<u64>, Fault> {
        let mut bytes = vec![0; length * width];
        let answers = &mut self.answers;
        let read = self.process.wait_by(|| answers.read_exact(&mut bytes));
        read.map_err(|_| self.process.end())?;
        Ok(entries_of(&bytes, width))
    }

    fn send(&mut self, request: &[u8]) -> Result<(), Fault> {
        let requests = &mut self.requests;
        let sent = self.process.wait_by(|| requests.write_all(request));
        sent.map_err(|_| self.process.end())
    }
}

fn step_byte(step: ReaderStep) -> u8 {
    match step {
        ReaderStep::Next => NEXT,
        ReaderStep::Pass => PASS,
    }
}

/// Bytes of each table's entry.
fn table_widths() -> [usize; TABLES] {
    NARROW.entry_bits().map(|bits| bits as usize / 8)
}

#[cfg(test)]
mod tests {
    use super::*;

    /// The host waits for the rest of the request, as it would for a call that does not return.
    #[test]
    fn a_call_that_is_not_answered_ends_the_host() {
        let mut host = Host::with_patience(Duration::from_millis(300));
        let unfinished = request(DRAW, &[]);
        let called = host.call(&unfinished, &[], Host::length);
        let fault = called.err();
        let told = "no answer in 300ms, so the host was ended";
        assert_eq!(fault.as_deref(), Some(told));
    }
}

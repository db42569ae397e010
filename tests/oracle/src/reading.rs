//! Reading a clause text into the lent tables.

use std::collections::HashMap;

use crate::limits::Limits;
use crate::reader::{Item, Reader, Told, LINE_FEED};
use crate::reasons::{
    Fault, BLANK_LINE, NONE, NO_CLAUSE, TABLE_TOO_SHORT, TEXT_CUT, TEXT_TOO_LONG, TOO_MANY_CLAUSES,
    TOO_MANY_LITERALS, TOO_MANY_TERMS,
};
use crate::state::{opposite, State};
use crate::tables::{Counts, Tables};

/// Result 1 is accepted, 0 refused.
#[derive(Clone, Copy, Debug, PartialEq, Eq)]
pub struct ReadAnswer {
    pub result: u64,
    pub reason: u64,
    pub line: u64,
    pub counts: Counts,
}

/// "A reading tests 1, 2, 3, then the text from the left, then 9."
pub fn read(limits: &Limits, text: &[u8], tables: &mut Tables) -> ReadAnswer {
    read_by(read_state, limits, text, tables)
}

/// The state that a text leaves, or its first fault.
type ReadState = fn(&Limits, &[u8]) -> Result<State, Fault>;

/// A reading of either form, from reason 1 on.
pub fn read_by(
    read_state: ReadState,
    limits: &Limits,
    text: &[u8],
    tables: &mut Tables,
) -> ReadAnswer {
    if !tables.reach_full_size(limits) {
        return refused(Fault::without_line(TABLE_TOO_SHORT));
    }
    match read_state(limits, text) {
        Ok(state) => {
            tables.write_over(limits, &state.lay_out(limits));
            ReadAnswer {
                result: 1,
                reason: NONE,
                line: 0,
                counts: state.counts(),
            }
        }
        Err(fault) => {
            tables.clear(limits);
            refused(fault)
        }
    }
}

/// "A refused reading returns four counts of 0, for reason 1 too."
fn refused(fault: Fault) -> ReadAnswer {
    ReadAnswer {
        result: 0,
        reason: fault.reason,
        line: fault.line,
        counts: Counts::default(),
    }
}

/// The state that an accepted reading leaves: every value 0, the uncovered list rising, no term pinned.
pub fn read_state(limits: &Limits, text: &[u8]) -> Result<State, Fault> {
    test_whole_text(limits, text)?;
    let clauses = read_lines(limits, text)?;
    if clauses.kept.is_empty() {
        return Err(Fault::without_line(NO_CLAUSE));
    }
    Ok(State::as_read(clauses.names, clauses.kept))
}

/// Reasons 2 and 3, which no place in the text gives.
pub fn test_whole_text(limits: &Limits, text: &[u8]) -> Result<(), Fault> {
    if text.len() > limits.text {
        return Err(Fault::without_line(TEXT_TOO_LONG));
    }
    if text.last().is_some_and(|last| *last != LINE_FEED) {
        return Err(Fault::without_line(TEXT_CUT));
    }
    Ok(())
}

/// "Reading stops at the first fault."
fn read_lines<'a>(limits: &'a Limits, text: &[u8]) -> Result<Clauses<'a>, Fault> {
    let mut clauses = Clauses::new(limits);
    let mut reader = Reader::new(text);
    loop {
        let Item { told, line } = reader.next();
        let done = match told {
            Told::Literal { name, negated } => clauses.take_literal(name, negated, &mut reader),
            Told::True => clauses.drop_line(&mut reader),
            Told::LineEnd => clauses.end_line(),
            Told::TextEnd => return Ok(clauses),
            Told::Fault(reason) => Err(reason),
        };
        done.map_err(|reason| Fault { reason, line })?;
    }
}

/// What has been read so far.
struct Clauses<'a> {
    limits: &'a Limits,
    names: Vec<u64>,
    numbers: HashMap<u64, usize>,
    kept: Vec<Vec<usize>>,
    kept_literals: usize,
    /// The literals of the line that is being read.
    open: Vec<usize>,
    /// Whether that line is dropped; its end then tells of no blank line.
    dropped: bool,
}

impl<'a> Clauses<'a> {
    fn new(limits: &'a Limits) -> Clauses<'a> {
        Clauses {
            limits,
            names: Vec::new(),
            numbers: HashMap::new(),
            kept: Vec::new(),
            kept_literals: 0,
            open: Vec::new(),
            dropped: false,
        }
    }

    /// The order is "dropping or skipping, then a new term's room (reason 6), then room for the
    /// literal (7)".
    fn take_literal(&mut self, name: u64, negated: bool, reader: &mut Reader) -> Result<(), u64> {
        if let Some(term) = self.numbers.get(&name) {
            let literal = 2 * term + usize::from(negated);
            if self.open.contains(&opposite(literal)) {
                return self.drop_line(reader);
            }
            if self.open.contains(&literal) {
                return Ok(());
            }
        }
        let term = self.number_of(name)?;
        if self.kept_literals + self.open.len() == self.limits.literals {
            return Err(TOO_MANY_LITERALS);
        }
        self.open.push(2 * term + usize::from(negated));
        Ok(())
    }

    /// "Terms are numbered from 0 in order of first appearance."
    fn number_of(&mut self, name: u64) -> Result<usize, u64> {
        if let Some(term) = self.numbers.get(&name) {
            return Ok(*term);
        }
        if self.names.len() == self.limits.terms {
            return Err(TOO_MANY_TERMS);
        }
        self.numbers.insert(name, self.names.len());
        self.names.push(name);
        Ok(self.names.len() - 1)
    }

    /// "A dropped line gives back its literals. The terms it had introduced stay known".
    fn drop_line(&mut self, reader: &mut Reader) -> Result<(), u64> {
        self.open.clear();
        self.dropped = true;
        reader.pass();
        Ok(())
    }

    /// "Room for a clause (8) is tested at the line's end, only for a line that is kept." Request 2:
    /// "Lines of nothing or only spaces are to be refused", at their end too.
    fn end_line(&mut self) -> Result<(), u64> {
        if std::mem::take(&mut self.dropped) {
            return Ok(());
        }
        if self.open.is_empty() {
            return Err(BLANK_LINE);
        }
        if self.kept.len() == self.limits.clauses {
            return Err(TOO_MANY_CLAUSES);
        }
        self.kept_literals += self.open.len();
        self.kept.push(std::mem::take(&mut self.open));
        Ok(())
    }
}

//! Reading a numbered text into the lent tables: request 4 of document 02, which calls the form DIMACS CNF.

use crate::limits::Limits;
use crate::reader::{pack, LINE_FEED};
use crate::reading::{read_by, test_whole_text, ReadAnswer};
use crate::reasons::{
    Fault, BLANK_LINE, BYTE_NOT_ALLOWED, CLAUSE_COUNT, HEADER_FORM, NO_CLAUSE, PAST_HEADER,
    TOO_MANY_CLAUSES, TOO_MANY_LITERALS, TOO_MANY_TERMS,
};
use crate::state::{opposite, State};
use crate::tables::Tables;

/// "1 to 10 digits"
const MOST_DIGITS: usize = 10;

/// A line without its byte 10, and its number, from 1.
type Line<'a> = (u64, &'a [u8]);

/// "after 1, 2 and 3, in reading order with the line"
pub fn read_numbered(limits: &Limits, text: &[u8], tables: &mut Tables) -> ReadAnswer {
    read_by(read_numbered_state, limits, text, tables)
}

/// The state that an accepted reading leaves.
pub fn read_numbered_state(limits: &Limits, text: &[u8]) -> Result<State, Fault> {
    test_whole_text(limits, text)?;
    let mut lines = lines_of(text).skip_while(|(_, line)| is_comment(line));
    let header = match lines.next() {
        Some(line) => read_header(limits, line)?,
        None => return Err(Fault::without_line(HEADER_FORM)),
    };
    let names = (1..=header.variables).map(|number| pack(number.to_string().as_bytes()));
    let names = names.collect();
    let kept = read_clauses(limits, header, lines)?;
    Ok(State::as_read(names, kept))
}

/// The lines of a text that is empty or ends with byte 10.
fn lines_of(text: &[u8]) -> impl Iterator<Item = Line<'_>> {
    let lines = text.split_inclusive(|byte| *byte == LINE_FEED);
    (1..).zip(lines.map(|line| &line[..line.len() - 1]))
}

/// "comment lines starting with c (before the header only)"
fn is_comment(line: &[u8]) -> bool {
    line.first() == Some(&b'c')
}

fn is_blank(byte: &u8) -> bool {
    matches!(byte, b' ' | b'\t')
}

/// What stands apart by spaces and tabs.
fn words_of(line: &[u8]) -> impl Iterator<Item = &[u8]> {
    line.split(is_blank).filter(|word| !word.is_empty())
}

/// "1 to 10 digits with no leading 0"
fn number_of(word: &[u8]) -> Option<u64> {
    let plain = word.len() <= MOST_DIGITS && word.iter().all(u8::is_ascii_digit);
    let led_by_0 = word.len() > 1 && word[0] == b'0';
    let digits = std::str::from_utf8(word).ok()?;
    digits.parse().ok().filter(|_| plain && !led_by_0)
}

/// What the header says.
#[derive(Clone, Copy)]
struct Header {
    variables: u64,
    clauses: u64,
}

/// "16 header malformed or missing", then "6 a header of over 2,048 variables": the header is one place.
fn read_header(limits: &Limits, (line, bytes): Line) -> Result<Header, Fault> {
    let reason = match header_of(bytes) {
        None => HEADER_FORM,
        Some(header) if header.variables > limits.terms as u64 => TOO_MANY_TERMS,
        Some(header) => return Ok(header),
    };
    Err(Fault { reason, line })
}

/// "one line `p cnf V C` (variables, clauses, no minus; spaces or tabs between, nothing after)"
fn header_of(line: &[u8]) -> Option<Header> {
    let closed = !line.first().is_some_and(is_blank) && !line.last().is_some_and(is_blank);
    match words_of(line).collect::<Vec<_>>()[..] {
        [b"p", b"cnf", variables, clauses] if closed => Some(Header {
            variables: number_of(variables)?,
            clauses: number_of(clauses)?,
        }),
        _ => None,
    }
}

/// A number after the header.
#[derive(Clone, Copy)]
struct Signed {
    negated: bool,
    number: u64,
}

/// "one is an optional minus and 1 to 10 digits with no leading 0, and 0 stands without a minus"
fn signed_of(word: &[u8]) -> Option<Signed> {
    let (negated, digits) = match word {
        [b'-', digits @ ..] => (true, digits),
        digits => (false, digits),
    };
    let number = number_of(digits)?;
    (number > 0 || !negated).then_some(Signed { negated, number })
}

/// The clauses that are kept, of which there must be one.
fn read_clauses<'a>(
    limits: &Limits,
    header: Header,
    lines: impl Iterator<Item = Line<'a>>,
) -> Result<Vec<Vec<usize>>, Fault> {
    let mut clauses = Clauses::new(limits, header);
    for (line, bytes) in lines {
        for word in words_of(bytes) {
            let done = clauses.take_word(word);
            done.map_err(|reason| Fault { reason, line })?;
        }
    }
    clauses.close().map_err(Fault::without_line)
}

/// What has been read so far.
struct Clauses<'a> {
    limits: &'a Limits,
    header: Header,
    kept: Vec<Vec<usize>>,
    kept_literals: usize,
    /// Clauses ended: a dropped one "still counts towards the header's number".
    ended: u64,
    /// The literals of the clause that is not ended yet.
    open: Vec<usize>,
    /// Whether that clause is dropped.
    dropped: bool,
}

impl<'a> Clauses<'a> {
    fn new(limits: &'a Limits, header: Header) -> Clauses<'a> {
        Clauses {
            limits,
            header,
            kept: Vec::new(),
            kept_literals: 0,
            ended: 0,
            open: Vec::new(),
            dropped: false,
        }
    }

    /// "the rest of a dropped clause is read to its 0 for faults 4 and 18"
    fn take_word(&mut self, word: &[u8]) -> Result<(), u64> {
        let Signed { negated, number } = signed_of(word).ok_or(BYTE_NOT_ALLOWED)?;
        if number > self.header.variables {
            return Err(PAST_HEADER);
        }
        match number {
            0 => self.end_clause(),
            _ if self.dropped => Ok(()),
            _ => self.take_literal(2 * (number as usize - 1) + usize::from(negated)),
        }
    }

    /// "Repeats and opposites are treated as in our own files", then room for the literal (7).
    fn take_literal(&mut self, literal: usize) -> Result<(), u64> {
        if self.open.contains(&opposite(literal)) {
            self.open.clear();
            self.dropped = true;
            return Ok(());
        }
        if self.open.contains(&literal) {
            return Ok(());
        }
        if self.kept_literals + self.open.len() == self.limits.literals {
            return Err(TOO_MANY_LITERALS);
        }
        self.open.push(literal);
        Ok(())
    }

    /// "17 a clause's end past the header's count, 15 a clause of 0 alone, then 7 and 8 as before"
    fn end_clause(&mut self) -> Result<(), u64> {
        if self.ended == self.header.clauses {
            return Err(CLAUSE_COUNT);
        }
        if !self.dropped {
            self.keep_clause()?;
        }
        self.ended += 1;
        self.dropped = false;
        Ok(())
    }

    fn keep_clause(&mut self) -> Result<(), u64> {
        if self.open.is_empty() {
            return Err(BLANK_LINE);
        }
        if self.kept.len() == self.limits.clauses {
            return Err(TOO_MANY_CLAUSES);
        }
        self.kept_literals += self.open.len();
        self.kept.push(std::mem::take(&mut self.open));
        Ok(())
    }

    /// "at the end 17, line 0, for a last clause unended or too few clauses, then 9"
    fn close(self) -> Result<Vec<Vec<usize>>, u64> {
        let unended = self.dropped || !self.open.is_empty();
        if unended || self.ended < self.header.clauses {
            return Err(CLAUSE_COUNT);
        }
        if self.kept.is_empty() {
            return Err(NO_CLAUSE);
        }
        Ok(self.kept)
    }
}

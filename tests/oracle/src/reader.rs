//! The reader over a clause text: one literal at a time.

use crate::reasons::{BYTE_NOT_ALLOWED, NINTH_BYTE, NONE, TEXT_CUT};

pub const LINE_FEED: u8 = 10;
const SPACE: u8 = 32;
const TILDE: u8 = 126;
/// "a name of 1 to 8 bytes"
pub const LONGEST_NAME: usize = 8;

/// What the reader can tell.
#[derive(Clone, Copy, Debug, PartialEq, Eq)]
pub enum Told {
    /// A literal: its name, byte 0 lowest, and whether ~ stood before it.
    Literal {
        name: u64,
        negated: bool,
    },
    /// "~ followed by 32 or 10 stands for 'true'."
    True,
    LineEnd,
    TextEnd,
    /// Reason 3, 4 or 5.
    Fault(u64),
}

/// What was told, and the line that it stands in.
#[derive(Clone, Copy, Debug, PartialEq, Eq)]
pub struct Item {
    pub told: Told,
    pub line: u64,
}

impl Item {
    /// Its kind (1 a literal, 2 "true", 3 a line's end, 4 the text's end, 0 a fault), reason, line,
    /// name and sign.
    pub fn numbers(self) -> [u64; 5] {
        let (kind, reason, name, negated) = match self.told {
            Told::Literal { name, negated } => (1, NONE, name, u64::from(negated)),
            Told::True => (2, NONE, 0, 0),
            Told::LineEnd => (3, NONE, 0, 0),
            Told::TextEnd => (4, NONE, 0, 0),
            Told::Fault(reason) => (0, reason, 0, 0),
        };
        [kind, reason, self.line, name, negated]
    }
}

/// What the reader is told to do.
#[derive(Clone, Copy, Debug, PartialEq, Eq, PartialOrd, Ord)]
pub enum ReaderStep {
    Next,
    Pass,
}

/// What a step tells, as numbers, then the place and the line where reading goes on; passing tells
/// nothing, so its row has 0 there.
pub type Row = [u64; 7];

/// "A reader over the lent text hands out one literal at a time and remembers its line."
#[derive(Clone, Debug)]
pub struct Reader<'a> {
    text: &'a [u8],
    position: usize,
    line: u64,
}

impl<'a> Reader<'a> {
    pub fn new(text: &'a [u8]) -> Reader<'a> {
        Reader::standing_at(text, 0, 1)
    }

    /// A reader made by hand: it may stand anywhere, past the text's end too.
    pub fn standing_at(text: &'a [u8], position: usize, line: u64) -> Reader<'a> {
        Reader {
            text,
            position,
            line,
        }
    }

    /// Does each step; a row for each.
    pub fn follow(&mut self, script: &[ReaderStep]) -> Vec<Row> {
        script.iter().map(|step| self.row_of(*step)).collect()
    }

    fn row_of(&mut self, step: ReaderStep) -> Row {
        let [kind, reason, line, name, negated] = match step {
            ReaderStep::Next => self.next().numbers(),
            ReaderStep::Pass => {
                self.pass();
                [0; 5]
            }
        };
        let at = self.position as u64;
        [kind, reason, line, name, negated, at, self.line]
    }

    /// Tells the next item; this is no iterator, since the end and faults repeat.
    #[allow(clippy::should_implement_trait)]
    pub fn next(&mut self) -> Item {
        let stood = self.position;
        self.pass_while(|byte| byte == SPACE);
        let item = Item {
            told: self.tell(),
            line: self.line,
        };
        self.move_past(item.told, stood);
        item
    }

    /// Told to pass, whatever was told before, it goes on to the line's end, "bytes of any kind
    /// included", and stands on it.
    pub fn pass(&mut self) {
        self.pass_while(|byte| byte != LINE_FEED);
    }

    /// What stands at the position, where no space stands.
    fn tell(&self) -> Told {
        match self.rest() {
            [] => end_of(self.text),
            [LINE_FEED, ..] => Told::LineEnd,
            [TILDE] => Told::Fault(TEXT_CUT),
            [TILDE, SPACE | LINE_FEED, ..] => Told::True,
            [TILDE, name @ ..] => tell_literal(name, true),
            name => tell_literal(name, false),
        }
    }

    /// Leaves behind what was told; before the end or a fault it goes back to where it stood:
    /// "the end and faults repeat".
    fn move_past(&mut self, told: Told, stood: usize) {
        match told {
            Told::Literal { .. } => self.pass_while(|byte| byte != SPACE && byte != LINE_FEED),
            Told::True => self.pass(),
            Told::LineEnd => {
                self.position += 1;
                self.line = self.line.saturating_add(1);
            }
            Told::TextEnd | Told::Fault(_) => self.position = stood,
        }
    }

    fn pass_while(&mut self, passed: impl Fn(u8) -> bool) {
        let rest = self.rest().iter();
        self.position += rest.take_while(|byte| passed(**byte)).count();
    }

    fn rest(&self) -> &'a [u8] {
        self.text.get(self.position..).unwrap_or_default()
    }
}

/// "the text's end (reason 3 if inside a line ...)": a text that is not empty ends in byte 10.
fn end_of(text: &[u8]) -> Told {
    match text.last() {
        None | Some(&LINE_FEED) => Told::TextEnd,
        Some(_) => Told::Fault(TEXT_CUT),
    }
}

/// Judges a name and the byte after it: "A ninth byte in 33..125 is reason 5; any other byte is
/// reason 4."
fn tell_literal(bytes: &[u8], negated: bool) -> Told {
    let length = bytes.iter().take_while(|byte| is_name_byte(**byte)).count();
    if length > LONGEST_NAME {
        return Told::Fault(NINTH_BYTE);
    }
    match bytes.get(length) {
        None => Told::Fault(TEXT_CUT),
        Some(&(SPACE | LINE_FEED)) if length > 0 => Told::Literal {
            name: pack(&bytes[..length]),
            negated,
        },
        Some(_) => Told::Fault(BYTE_NOT_ALLOWED),
    }
}

pub fn is_name_byte(byte: u8) -> bool {
    (33..=125).contains(&byte)
}

/// A name of at most 8 bytes: "byte 0 of the name lowest, unused bytes 0".
pub fn pack(name: &[u8]) -> u64 {
    let mut bytes = [0; LONGEST_NAME];
    bytes[..name.len()].copy_from_slice(name);
    u64::from_le_bytes(bytes)
}

/// The bytes of a packed name, the unused ones left out.
pub fn unpack(name: u64) -> Vec<u8> {
    let bytes = name.to_le_bytes().into_iter();
    bytes.take_while(|byte| *byte != 0).collect()
}

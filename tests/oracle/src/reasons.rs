//! The numbers of document 01's table "Reasons and what they leave", and those that document 02 adds.

pub const NONE: u64 = 0;
pub const TABLE_TOO_SHORT: u64 = 1;
pub const TEXT_TOO_LONG: u64 = 2;
pub const TEXT_CUT: u64 = 3;
pub const BYTE_NOT_ALLOWED: u64 = 4;
pub const NINTH_BYTE: u64 = 5;
pub const TOO_MANY_TERMS: u64 = 6;
pub const TOO_MANY_LITERALS: u64 = 7;
pub const TOO_MANY_CLAUSES: u64 = 8;
pub const NO_CLAUSE: u64 = 9;
pub const SHEET_FORM: u64 = 10;
pub const OUT_OF_RANGE: u64 = 11;
pub const TABLES_DISAGREE: u64 = 12;
pub const UNKNOWN_TERM: u64 = 13;
pub const LIST_TOO_LONG: u64 = 14;
pub const BLANK_LINE: u64 = 15;
pub const HEADER_FORM: u64 = 16;
pub const CLAUSE_COUNT: u64 = 17;
pub const PAST_HEADER: u64 = 18;
pub const PINNED_TERM: u64 = 20;

/// A refusal: its reason, and the line of the fault or 0.
#[derive(Clone, Copy, Debug, PartialEq, Eq)]
pub struct Fault {
    pub reason: u64,
    pub line: u64,
}

impl Fault {
    /// A fault that has no line: "The line is that of the fault for 4 to 8 and 10, else 0"; of those that
    /// document 02 adds, 15 to 18 have one, but for 16 and 17 at the text's end.
    pub fn without_line(reason: u64) -> Fault {
        Fault { reason, line: 0 }
    }
}

//! Why a call was refused.

use std::fmt;

/// A refusal: its reason, and the line of the fault where it has one.
///
/// ```
/// use ngiyarumba::{Reason, Tables};
///
/// let error = Tables::new().read("a b\nbillabong\n").unwrap_err();
/// assert_eq!(error.reason(), Reason::NinthByte);
/// assert_eq!(error.line(), Some(2));
/// assert_eq!(error.to_string(), "line 2: a name is longer than 8 bytes");
/// ```
#[derive(Clone, Copy, Debug, PartialEq, Eq, Hash)]
pub struct Error {
    reason: Reason,
    line: Option<u32>,
}

/// The reasons, in the order of their numbers; each number is followed by the reason's words.
#[derive(Clone, Copy, Debug, PartialEq, Eq, Hash)]
pub enum Reason {
    /// 1: a lent table or buffer is shorter than its full size. Here none is, so no call gives it.
    TableTooShort = 1,
    /// 2: the text or the whole input is too long. At most 65,536 bytes are read.
    TextTooLong = 2,
    /// 3: the last line does not end with byte 10.
    TextCut = 3,
    /// 4: a byte that may not stand there.
    ByteNotAllowed = 4,
    /// 5: a name is longer than 8 bytes.
    NinthByte = 5,
    /// 6: more terms than may be held. At most 2,048.
    TooManyTerms = 6,
    /// 7: more literals than may be held. At most 16,384.
    TooManyLiterals = 7,
    /// 8: more clauses than may be held. At most 8,192.
    TooManyClauses = 8,
    /// 9: no clause was kept.
    NoClause = 9,
    /// 10: a line of the order sheet is missing or does not have its form. [`run`](crate::run) alone
    /// reads one, and prints it.
    SheetForm = 10,
    /// 11: a number is outside its range.
    OutOfRange = 11,
    /// 12: no clause stands, or the tables do not agree. Here they do, so it means that no text was
    /// read, or that the last one was refused.
    TablesDisagree = 12,
    /// 13: a term is named that is not there. In a flip list, a pin or a lifting: one that is not below
    /// the term count.
    UnknownTerm = 13,
    /// 14: a flip list is too long. At most 65,536 flips.
    ListTooLong = 14,
    /// 15: a line is empty or has spaces only. A term with no parent left would go unplaced. In a
    /// numbered file, a clause of 0 alone.
    BlankLine = 15,
    /// 16: the header of a numbered file is missing or does not have its form.
    HeaderForm = 16,
    /// 17: clauses are more or fewer than the header says, or the last one is not ended.
    ClauseCount = 17,
    /// 18: a number is above the header's number of variables.
    PastHeader = 18,
    /// 20: a flip list names a pinned term.
    PinnedTerm = 20,
}

impl Reason {
    /// All of them, in the order of their numbers.
    pub const ALL: [Reason; 19] = [
        Reason::TableTooShort,
        Reason::TextTooLong,
        Reason::TextCut,
        Reason::ByteNotAllowed,
        Reason::NinthByte,
        Reason::TooManyTerms,
        Reason::TooManyLiterals,
        Reason::TooManyClauses,
        Reason::NoClause,
        Reason::SheetForm,
        Reason::OutOfRange,
        Reason::TablesDisagree,
        Reason::UnknownTerm,
        Reason::ListTooLong,
        Reason::BlankLine,
        Reason::HeaderForm,
        Reason::ClauseCount,
        Reason::PastHeader,
        Reason::PinnedTerm,
    ];

    /// The number, as the program prints it.
    pub fn number(self) -> u32 {
        self as u32
    }

    /// The reason in plain words.
    ///
    /// ```
    /// assert_eq!(ngiyarumba::Reason::NoClause.words(), "no clause was kept");
    /// ```
    pub fn words(self) -> &'static str {
        match self {
            Reason::TableTooShort => "a lent table or buffer is shorter than its full size",
            Reason::TextTooLong => "the text or the whole input is too long",
            Reason::TextCut => "the last line does not end with byte 10",
            Reason::ByteNotAllowed => "a byte that may not stand there",
            Reason::NinthByte => "a name is longer than 8 bytes",
            Reason::TooManyTerms => "more terms than may be held",
            Reason::TooManyLiterals => "more literals than may be held",
            Reason::TooManyClauses => "more clauses than may be held",
            Reason::NoClause => "no clause was kept",
            Reason::SheetForm => "a line of the order sheet is missing or does not have its form",
            Reason::OutOfRange => "a number is outside its range",
            Reason::TablesDisagree => "no clause stands, or the tables do not agree",
            Reason::UnknownTerm => "a term is named that is not there",
            Reason::ListTooLong => "a flip list is too long",
            Reason::BlankLine => "a line is empty or has spaces only",
            Reason::HeaderForm => {
                "the header of a numbered file is missing or does not have its form"
            }
            Reason::ClauseCount => {
                "clauses are more or fewer than the header says, or the last one is not ended"
            }
            Reason::PastHeader => "a number is above the header's number of variables",
            Reason::PinnedTerm => "a flip list names a pinned term",
        }
    }
}

impl Error {
    /// Why the call was refused.
    pub fn reason(&self) -> Reason {
        self.reason
    }

    /// The line of the fault in the text, counted from 1; reasons 4 to 8 and 15 to 18 have one, but
    /// for 16 and 17 at the text's end.
    pub fn line(&self) -> Option<u32> {
        self.line
    }

    /// An answer's reason and line, which are 0 where there is none.
    pub(crate) fn unless_zero(reason: u32, line: u32) -> Result<(), Error> {
        if reason == 0 {
            return Ok(());
        }
        let listed = Reason::ALL
            .into_iter()
            .find(|listed| listed.number() == reason);
        Err(Error {
            reason: listed.expect("the library gives listed reasons only"),
            line: (line > 0).then_some(line),
        })
    }
}

impl fmt::Display for Reason {
    fn fmt(&self, f: &mut fmt::Formatter<'_>) -> fmt::Result {
        f.write_str(self.words())
    }
}

impl fmt::Display for Error {
    fn fmt(&self, f: &mut fmt::Formatter<'_>) -> fmt::Result {
        match self.line {
            Some(line) => write!(f, "line {line}: {}", self.reason),
            None => self.reason.fmt(f),
        }
    }
}

impl std::error::Error for Error {}

//! The rows that request 8 lists: a call on a file with pins, what it answers and what it leaves.

use crate::calls::{Call, Told};
use crate::limits::TABLES;
use crate::order::Order;
use crate::reasons::{NONE, PINNED_TERM, TABLES_DISAGREE, TABLE_TOO_SHORT, UNKNOWN_TERM};
use crate::tables::{Counts, Tables};

/// The four counts and the tables of a call.
type Lent = (Counts, Tables);

/// What is done to the marks by hand before a row's call.
#[derive(Clone, Copy, Debug)]
enum Spoilt {
    Nothing,
    /// A term's mark becomes another.
    Mark(usize, u64),
    /// The marks lack their last entry.
    Cut,
}

/// The number of a table, and the entries of it that are in use.
type Entries = (usize, &'static [u64]);

const VALUES: usize = 1;
const TRUES: usize = 6;
const BREAKS: usize = 7;
const UNCOVERED: usize = 8;
const MARKS: usize = TABLES - 1;

/// What a row says of the tables after its call.
#[derive(Clone, Copy, Debug)]
enum Left {
    /// These entries, and every table that is not named as it was.
    Only(&'static [Entries]),
    /// These entries; tables that are not named may differ too.
    Among(&'static [Entries]),
}

const UNCHANGED: Left = Left::Only(&[]);

#[derive(Clone, Copy, Debug)]
pub struct Row {
    /// Is read first, and must be accepted.
    pub text: &'static str,
    /// Come next, and none may be refused.
    pub before: &'static [Call],
    spoilt: Spoilt,
    pub call: Call,
    /// Its result, reason, walks and flips, and the uncovered count.
    told: [u64; 5],
    left: Left,
}

impl Row {
    /// What is lent to the row's call, from what the calls before have left.
    pub fn spoil(&self, tables: &mut Tables) {
        match self.spoilt {
            Spoilt::Nothing => {}
            Spoilt::Mark(entry, mark) => tables.marks[entry] = mark,
            Spoilt::Cut => drop(tables.marks.pop()),
        }
    }

    /// The row's call must have answered and left what the row says.
    pub fn judge(&self, told: &Told, before: &Lent, after: &Lent) {
        let numbers = [told.result, told.reason, told.walks, told.flips];
        assert_eq!(numbers, self.told[..4], "{self:?}");
        let counts = Counts {
            uncovered: self.told[4],
            ..before.0
        };
        assert_eq!((told.counts, after.0), (counts, counts), "{self:?}");
        let (said, others_stay) = match self.left {
            Left::Only(said) => (said, true),
            Left::Among(said) => (said, false),
        };
        for (table, after) in after.1.all().into_iter().enumerate() {
            let of_it = said.iter().find(|(named, _)| *named == table);
            if let Some((_, entries)) = of_it {
                let used = counts.in_use()[table];
                assert_eq!(after[..used], **entries, "{self:?}, table {table}");
            } else if others_stay {
                assert!(after == before.1.all()[table], "{self:?}, table {table}");
            }
        }
    }
}

const THREE: &str = "a b\n~a b\nc d\n";
const UNIT: &str = "a b\n~a b\nb\n";
const FOUR: &str = "a b\n~a c\n~c ~a\nd ~b\n";

const fn pinned(term: u64, value: u64) -> Call {
    Call::Pin { term, value }
}

const fn lifted(term: u64) -> Call {
    Call::Lift { term }
}

const fn flipped(list: &'static [u64]) -> Call {
    Call::Flip { list }
}

const fn walked(seed: u64, flips: u64, walks: u64, bias: u64) -> Call {
    let order = Order {
        seed,
        flips,
        walks,
        bias,
        even: 0,
    };
    Call::Walk { order }
}

const PIN_B_AT_0: Call = pinned(1, 0);
const PIN_B_AT_1: Call = pinned(1, 1);
const PIN_A_AT_0: Call = pinned(0, 0);
const PIN_A_AT_1: Call = pinned(0, 1);
const LONG_WALK: Call = walked(1, 50, 3, 400);

/// After b was pinned at 0, pinned at 1 instead, and walked.
const RE_PINNED_AND_WALKED: &[Call] = &[PIN_B_AT_0, PIN_B_AT_1, LONG_WALK];

const fn row(
    text: &'static str,
    before: &'static [Call],
    call: Call,
    told: [u64; 5],
    left: Left,
) -> Row {
    Row {
        text,
        before,
        spoilt: Spoilt::Nothing,
        call,
        told,
        left,
    }
}

/// A call on the first file that is refused for this reason, with so many clauses uncovered.
const fn refused(before: &'static [Call], call: Call, reason: u64, uncovered: u64) -> Row {
    row(THREE, before, call, [0, reason, 0, 0, uncovered], UNCHANGED)
}

/// A call that is refused since the marks are not what they should be.
const fn spoilt(spoilt: Spoilt, call: Call, reason: u64) -> Row {
    Row {
        spoilt,
        ..refused(&[], call, reason, 2)
    }
}

const MARK_3: Spoilt = Spoilt::Mark(1, 3);
const PINNED_AT_1_WITH_VALUE_0: Spoilt = Spoilt::Mark(1, 2);
const MARK_PAST_THE_TERMS: Spoilt = Spoilt::Mark(4, 1);

/// In the order of request 8's table.
pub const ROWS: [Row; 27] = [
    row(
        THREE,
        &[],
        PIN_B_AT_0,
        [1, NONE, 0, 0, 2],
        Left::Only(&[(MARKS, &[0, 1, 0, 0])]),
    ),
    refused(&[PIN_B_AT_0], flipped(&[1, 9]), UNKNOWN_TERM, 2),
    refused(&[PIN_B_AT_0], flipped(&[0, 1]), PINNED_TERM, 2),
    refused(&[PIN_B_AT_0], flipped(&[0, 4]), UNKNOWN_TERM, 2),
    row(
        THREE,
        &[PIN_B_AT_0],
        LONG_WALK,
        [2, NONE, 3, 150, 1],
        Left::Among(&[
            (VALUES, &[9]),
            (TRUES, &[1, 0, 1]),
            (BREAKS, &[1, 0, 0, 1]),
            (UNCOVERED, &[1]),
            (MARKS, &[0, 1, 0, 0]),
        ]),
    ),
    row(
        THREE,
        &[PIN_B_AT_0],
        PIN_B_AT_1,
        [1, NONE, 0, 0, 1],
        Left::Among(&[
            (VALUES, &[2]),
            (TRUES, &[1, 2, 0]),
            (BREAKS, &[0, 1, 0, 0]),
            (UNCOVERED, &[2]),
            (MARKS, &[0, 2, 0, 0]),
        ]),
    ),
    row(
        THREE,
        &[PIN_B_AT_0, PIN_B_AT_1],
        LONG_WALK,
        [1, NONE, 1, 1, 0],
        Left::Among(&[
            (VALUES, &[11]),
            (TRUES, &[2, 1, 1]),
            (BREAKS, &[0, 1, 0, 1]),
            (UNCOVERED, &[]),
            (MARKS, &[0, 2, 0, 0]),
        ]),
    ),
    row(
        THREE,
        RE_PINNED_AND_WALKED,
        lifted(1),
        [1, NONE, 0, 0, 0],
        Left::Only(&[(MARKS, &[0, 0, 0, 0])]),
    ),
    refused(RE_PINNED_AND_WALKED, lifted(4), UNKNOWN_TERM, 0),
    refused(RE_PINNED_AND_WALKED, pinned(4, 0), UNKNOWN_TERM, 0),
    row(
        "a\n",
        &[PIN_A_AT_0],
        LONG_WALK,
        [2, NONE, 3, 0, 1],
        Left::Among(&[(VALUES, &[0]), (MARKS, &[1])]),
    ),
    row(
        UNIT,
        &[PIN_B_AT_0],
        walked(2, 20, 2, 500),
        [2, NONE, 2, 1, 2],
        Left::Among(&[(VALUES, &[0]), (UNCOVERED, &[0, 2])]),
    ),
    row(
        UNIT,
        &[PIN_B_AT_0],
        walked(1, 20, 2, 500),
        [2, NONE, 2, 0, 2],
        Left::Among(&[(VALUES, &[1]), (UNCOVERED, &[1, 2])]),
    ),
    row(
        UNIT,
        &[PIN_B_AT_1],
        walked(2, 20, 2, 500),
        [1, NONE, 1, 0, 0],
        Left::Among(&[(VALUES, &[2])]),
    ),
    row(
        FOUR,
        &[PIN_A_AT_1],
        walked(3, 20, 2, 500),
        [2, NONE, 2, 40, 1],
        Left::Among(&[(VALUES, &[15]), (UNCOVERED, &[2])]),
    ),
    spoilt(MARK_3, LONG_WALK, TABLES_DISAGREE),
    spoilt(MARK_3, flipped(&[0]), TABLES_DISAGREE),
    spoilt(MARK_3, PIN_B_AT_0, TABLES_DISAGREE),
    spoilt(PINNED_AT_1_WITH_VALUE_0, LONG_WALK, TABLES_DISAGREE),
    spoilt(PINNED_AT_1_WITH_VALUE_0, flipped(&[0]), TABLES_DISAGREE),
    spoilt(PINNED_AT_1_WITH_VALUE_0, PIN_B_AT_0, TABLES_DISAGREE),
    spoilt(MARK_PAST_THE_TERMS, LONG_WALK, TABLES_DISAGREE),
    spoilt(MARK_PAST_THE_TERMS, flipped(&[0]), TABLES_DISAGREE),
    spoilt(MARK_PAST_THE_TERMS, PIN_B_AT_0, TABLES_DISAGREE),
    spoilt(Spoilt::Cut, walked(0, 50, 3, 400), TABLE_TOO_SHORT),
    spoilt(Spoilt::Cut, flipped(&[9]), TABLE_TOO_SHORT),
    spoilt(Spoilt::Cut, lifted(9), TABLE_TOO_SHORT),
];

//! The order sheet: four lines before the clause text, and a fifth that may stand there.

use std::ops::RangeInclusive;

use crate::order::{Order, BIASES, FLIPS, SEEDS, WALKS};
use crate::reader::LINE_FEED;
use crate::reasons::{Fault, NONE, OUT_OF_RANGE, SHEET_FORM};

/// The keys of the four lines, each with the range of its number.
pub const LINES: [(&str, RangeInclusive<u64>); 4] = [
    ("seed=", SEEDS),
    ("flips=", FLIPS),
    ("walks=", WALKS),
    ("bias=", BIASES),
];

/// The fifth line, and how it begins.
pub const CHOICE_KEY: &[u8] = b"choice=";
pub const CHOICE_LINE: &[u8] = b"choice=even";
const CHOICE_PLACE: u64 = 5;

/// "A number has 1 to 10 digits".
const MOST_DIGITS: usize = 10;

/// Result 1 is accepted, 0 refused; "a refused sheet zeros".
#[derive(Clone, Copy, Debug, PartialEq, Eq)]
pub struct SheetAnswer {
    pub result: u64,
    pub reason: u64,
    pub line: u64,
    pub order: Order,
    /// Where the clause text begins in the input.
    pub text_start: usize,
}

pub fn read_sheet(input: &[u8]) -> SheetAnswer {
    match judge_lines(input) {
        Ok((order, text_start)) => SheetAnswer {
            result: 1,
            reason: NONE,
            line: 0,
            order,
            text_start,
        },
        Err(Fault { reason, line }) => SheetAnswer {
            result: 0,
            reason,
            line,
            order: Order::default(),
            text_start: 0,
        },
    }
}

/// "The lines are judged from the top and the first faulty one is named".
fn judge_lines(input: &[u8]) -> Result<(Order, usize), Fault> {
    let mut numbers = [0; LINES.len()];
    let mut start = 0;
    for (index, (key, range)) in LINES.into_iter().enumerate() {
        let at_fault = |reason| Fault {
            reason,
            line: index as u64 + 1,
        };
        let line = line_from(&input[start..]).ok_or(at_fault(SHEET_FORM))?;
        let number = number_after(key, line).ok_or(at_fault(SHEET_FORM))?;
        if !range.contains(&number) {
            return Err(at_fault(OUT_OF_RANGE));
        }
        numbers[index] = number;
        start += line.len() + 1;
    }
    let even = judge_choice(&input[start..])?;
    if even {
        start += CHOICE_LINE.len() + 1;
    }
    let [seed, flips, walks, bias] = numbers;
    Ok((
        Order {
            seed,
            flips,
            walks,
            bias,
            even: u64::from(even),
        },
        start,
    ))
}

/// Whether the fifth line is there; "a line that begins with choice= in that place and isn't exactly this is reason 10, line 5".
fn judge_choice(rest: &[u8]) -> Result<bool, Fault> {
    if !rest.starts_with(CHOICE_KEY) {
        return Ok(false);
    }
    match line_from(rest) {
        Some(line) if line == CHOICE_LINE => Ok(true),
        _ => Err(Fault {
            reason: SHEET_FORM,
            line: CHOICE_PLACE,
        }),
    }
}

/// The line without its byte 10; none where the line "is missing or lacks its byte 10".
fn line_from(rest: &[u8]) -> Option<&[u8]> {
    let end = rest.iter().position(|byte| *byte == LINE_FEED)?;
    Some(&rest[..end])
}

fn number_after(key: &str, line: &[u8]) -> Option<u64> {
    number(line.strip_prefix(key.as_bytes())?)
}

/// "A number has 1 to 10 digits, no leading 0 except 0 itself."
fn number(digits: &[u8]) -> Option<u64> {
    let is_written_well = (1..=MOST_DIGITS).contains(&digits.len())
        && digits.iter().all(u8::is_ascii_digit)
        && (digits[0] != b'0' || digits.len() == 1);
    is_written_well.then(|| value_of(digits))
}

fn value_of(digits: &[u8]) -> u64 {
    let join = |value, digit: &u8| 10 * value + u64::from(digit - b'0');
    digits.iter().fold(0, join)
}

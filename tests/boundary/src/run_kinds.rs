//! What kinds of input, of result and of answer a run was, to be counted.

use oracle::generate::{input_of, InputKind, Random};
use oracle::reasons::{OUT_OF_RANGE, SHEET_FORM};

use crate::sides::Ran;
use crate::{Runs, Tally, NARROW};

#[derive(Clone, Copy, Debug, PartialEq, Eq, PartialOrd, Ord)]
pub enum Met {
    Input(InputKind),
    Found,
    GaveUp,
    Refused(u64),
    /// A reason and the line of the sheet that it names.
    SheetLine(u64, u64),
    NoneChosen,
    SomeChosen,
    /// How many terms an answer has, or whether they are hundreds.
    OneTerm,
    SomeTerms,
    HundredsOfTerms,
    /// The first walk, or more.
    OneWalk,
    SeveralWalks,
    NoFlip,
    SomeFlips,
}

use Met::*;

/// An input, and what both made of it.
pub struct Compared {
    pub input: Vec<u8>,
    pub ran: Ran,
}

/// The input of this kind and seed on both sides; notes all that it came to.
pub fn compare(runs: &mut Runs, kind: InputKind, seed: u64, met: &mut Tally<Met>) -> Compared {
    let input = input_of(kind, &NARROW, &mut Random::new(seed));
    let ran = runs.ran(format!("{kind:?}, seed {seed}"), &input, seed);
    met.note(Input(kind));
    note_printed(&ran.printed, met);
    Compared { input, ran }
}

/// Notes what was printed.
pub fn note_printed(printed: &[u8], met: &mut Tally<Met>) {
    match value(printed, "result=") {
        b"found" => note_found(printed, met),
        b"gaveup" => met.note(GaveUp),
        _ => note_refusal(printed, met),
    }
}

fn note_refusal(printed: &[u8], met: &mut Tally<Met>) {
    let reason = number(printed, "reason=");
    met.note(Refused(reason));
    if [SHEET_FORM, OUT_OF_RANGE].contains(&reason) {
        met.note(SheetLine(reason, number(printed, "line=")));
    }
}

fn note_found(printed: &[u8], met: &mut Tally<Met>) {
    let either = |number, none, some| if number == 0 { none } else { some };
    let literals = value(printed, "answer=").split(|byte| *byte == b' ');
    met.note(Found);
    met.note(either(number(printed, "chosen="), NoneChosen, SomeChosen));
    met.note(either(number(printed, "flips="), NoFlip, SomeFlips));
    met.note(either(number(printed, "walks=") - 1, OneWalk, SeveralWalks));
    met.note(match literals.count() {
        1 => OneTerm,
        2..=99 => SomeTerms,
        _ => HundredsOfTerms,
    });
}

/// What follows a key in the printed lines, up to its line's end.
fn value<'a>(printed: &'a [u8], key: &str) -> &'a [u8] {
    let mut lines = printed.split(|byte| *byte == b'\n');
    let value = lines.find_map(|line| line.strip_prefix(key.as_bytes()));
    value.unwrap_or_else(|| panic!("no {key} in {}", printed.escape_ascii()))
}

fn number(printed: &[u8], key: &str) -> u64 {
    let digits = String::from_utf8_lossy(value(printed, key));
    digits.parse().expect("a number is printed")
}

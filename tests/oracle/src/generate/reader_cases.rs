//! Texts, places and scripts for the reader alone.

use super::names::name_of_length;
use super::random::Random;
use super::texts::{clause_text_of, TextKind};
use crate::limits::Limits;
use crate::reader::{ReaderStep, LONGEST_NAME};

/// A text, where reading begins, and what the reader is then told.
#[derive(Clone, Debug)]
pub struct ReaderCase {
    pub text: Vec<u8>,
    pub at: usize,
    pub line: u64,
    pub script: Vec<ReaderStep>,
}

/// What may stand in a line, allowed or not, beside names.
const PIECES: [&[u8]; 15] = [
    b"\n", b"\n", b"\n", b" ", b" ", b" ", b"   ", b"~", b"~ ", b"~~", b"\t", b"\x7f", b"\x80",
    b"\xff", b"\0",
];

/// A case of a few steps.
pub fn reader_case(random: &mut Random) -> ReaderCase {
    let text = if random.one_in(4) {
        clause_text_of(random.pick(&TextKind::FAULTY), &Limits::NARROW, random)
    } else {
        text_of_pieces(random)
    };
    let (at, line) = some_place(&text, random);
    let steps = random.between(3, 12);
    ReaderCase {
        text,
        at,
        line,
        script: reader_script(steps, random),
    }
}

/// Most begin as a reader does; the others anywhere, past the end too, on lines up to the highest.
fn some_place(text: &[u8], random: &mut Random) -> (usize, u64) {
    if !random.one_in(5) {
        return (0, 1);
    }
    let within = random.between(0, text.len());
    let at = random.pick(&[within, within, text.len() + 1]);
    (at, random.pick(&[0, 1, 9, u64::MAX - 1, u64::MAX]))
}

/// Pieces and names in any order, so that each comes before each, mostly with a space between; some
/// texts are cut inside a line.
fn text_of_pieces(random: &mut Random) -> Vec<u8> {
    let mut text = Vec::new();
    for _ in 0..random.between(0, 16) {
        let piece = random.pick(&PIECES);
        let name = some_name(random);
        text.extend(if random.one_in(3) { piece } else { &name });
        if !random.one_in(5) {
            text.push(b' ');
        }
    }
    if !random.one_in(3) {
        text.push(b'\n');
    }
    text
}

/// Of a few bytes, or of about as many as a name may have.
fn some_name(random: &mut Random) -> Vec<u8> {
    let few = random.between(1, 3);
    let about_the_most = random.between(LONGEST_NAME - 1, LONGEST_NAME + 2);
    let length = random.pick(&[few, few, few, about_the_most]);
    name_of_length(length, random)
}

/// So many steps, mostly to tell the next item.
pub fn reader_script(length: usize, random: &mut Random) -> Vec<ReaderStep> {
    let step = |random: &mut Random| match random.below(5) {
        0 => ReaderStep::Pass,
        _ => ReaderStep::Next,
    };
    (0..length).map(|_| step(random)).collect()
}

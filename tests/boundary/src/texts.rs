//! Texts put together from names and lines, and how much they hold.

use oracle::generate::lines::{signed, write, Line, Word};
use oracle::generate::names::nth_name;
use oracle::Counts;

/// The first so many names, those of one byte first.
pub fn first_names(count: usize) -> Line {
    (0..count).map(nth_name).collect()
}

pub fn reversed(words: &[Word]) -> Line {
    words.iter().rev().cloned().collect()
}

pub fn negated(names: &[Word]) -> Line {
    names.iter().map(|name| signed(name, true)).collect()
}

/// All in one clause.
pub fn one_line(words: &[Word]) -> Vec<u8> {
    write(&[words.to_vec()])
}

/// Each in a clause of its own.
pub fn unit_lines(words: &[Word]) -> Vec<u8> {
    let lines: Vec<Line> = words.iter().map(|word| vec![word.clone()]).collect();
    write(&lines)
}

/// A text and more after it.
pub fn then(text: &[u8], more: &[u8]) -> Vec<u8> {
    [text, more].concat()
}

/// Every text of so many of these bytes, with byte 10 after them.
pub fn texts_over(letters: &[u8], length: u32) -> impl Iterator<Item = Vec<u8>> + '_ {
    let count = letters.len();
    (0..count.pow(length)).map(move |number| {
        let digits = (0..length).map(|place| number / count.pow(place) % count);
        digits.map(|digit| letters[digit]).chain([b'\n']).collect()
    })
}

/// All that a change makes of these texts, at every place of them.
pub fn at_every_place(
    texts: &[&[u8]],
    change: impl Fn(&[u8], usize) -> Vec<Vec<u8>>,
) -> Vec<Vec<u8>> {
    let places = |text: &&[u8]| 0..text.len();
    let changes = |text| places(text).flat_map(|place| change(text, place));
    texts.iter().flat_map(changes).collect()
}

/// A text with these bytes in the place of so many.
pub fn spliced(text: &[u8], place: usize, taken: usize, put: &[u8]) -> Vec<u8> {
    [&text[..place], put, &text[place + taken..]].concat()
}

/// A text with one byte taken out, and with two turned round.
pub fn taken_out_and_turned_round(text: &[u8], place: usize) -> Vec<Vec<u8>> {
    let mut turned = text.to_vec();
    turned.swap(place, (place + 1).min(text.len() - 1));
    vec![spliced(text, place, 1, &[]), turned]
}

/// The number of the last line.
pub fn last_line(text: &[u8]) -> u64 {
    text.iter().filter(|byte| **byte == b'\n').count() as u64
}

/// Terms, clauses, literals.
pub fn held(counts: Counts) -> [u64; 3] {
    [counts.terms, counts.clauses, counts.literals]
}

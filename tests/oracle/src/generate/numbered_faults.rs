//! Numbered texts with a fault in them, or likely to have one.

use super::lines::{Line, Word};
use super::numbered_texts::{comment, some_sketch, Sketch};
use super::random::Random;
use crate::limits::Limits;

/// Words that are no numbers, or none that may stand there.
const NOT_NUMBERS: [&str; 26] = [
    "x",
    "-",
    "--1",
    "+1",
    "01",
    "-01",
    "00",
    "-0",
    "1-",
    "1x",
    "99x",
    "1.0",
    "12345678901",
    "-12345678901",
    "00000000001",
    "1\r",
    "\r",
    "0\r",
    "1\0",
    "\u{b}",
    "1\u{c}0",
    "~1",
    "%",
    "c",
    "cnf",
    "p",
];

/// Clauses to put after a text that fills a limit, over nine variables.
pub const TAILS: [&str; 14] = [
    "1 -1 0",
    "1 1 0",
    "-9 0",
    "9 -9 1 2 3 0",
    "9 8 -9 0",
    "1 -1 10 0",
    "1 -1 x 0",
    "1 -1 1 1 0",
    "0",
    "10 0",
    "x 0",
    "1 x 0",
    "1 2 10",
    "1",
];

/// A valid text, damaged.
pub fn damaged(damage: fn(&mut Vec<u8>, &mut Random), random: &mut Random) -> Vec<u8> {
    let mut text = some_sketch(random).write();
    damage(&mut text, random);
    text
}

/// Up to three lines before the header.
fn some_comments(random: &mut Random) -> Vec<Word> {
    (0..random.below(4)).map(|_| comment(random)).collect()
}

pub fn no_header(random: &mut Random) -> Vec<u8> {
    let lines = some_comments(random);
    lines
        .iter()
        .flat_map(|line| [line, &b"\n"[..]].concat())
        .collect()
}

pub fn header_malformed(random: &mut Random) -> Vec<u8> {
    let mut sketch = some_sketch(random);
    sketch.comments = some_comments(random);
    let header = malformed(sketch.variables, sketch.said, random);
    sketch.write_with(header.as_bytes(), &sketch.numbers())
}

/// A line in the header's place that is none, and no comment.
fn malformed(variables: u64, clauses: u64, random: &mut Random) -> String {
    let good = format!("p cnf {variables} {clauses}");
    let words = random.pick(&[
        format!("p cnf 0{variables} {clauses}"),
        format!("p cnf -{variables} {clauses}"),
        format!("p cnf +{variables} {clauses}"),
        format!("p cnf {variables} 0{clauses}"),
        format!("p cnf {variables} -{clauses}"),
        format!("p cnf {variables}x {clauses}"),
        format!("p cnf {variables}\0 {clauses}"),
        format!("p cnf 10000000000 {clauses}"),
        format!("p cnf {variables} 10000000000"),
        "p cnf 2049 x".to_string(),
        format!("p cnf {variables}"),
        "p cnf".to_string(),
        "p".to_string(),
        format!("p cnf{variables} {clauses}"),
        format!("pcnf {variables} {clauses}"),
        format!("P cnf {variables} {clauses}"),
        format!("p CNF {variables} {clauses}"),
        format!("p dnf {variables} {clauses}"),
        format!("p cnff {variables} {clauses}"),
        format!("q {good}"),
    ]);
    random.pick(&[
        words.clone(),
        words,
        format!(" {good}"),
        format!("\t{good}"),
        format!("{good} "),
        format!("{good}\t"),
        format!("{good}\r"),
        format!("{good} 0"),
        format!("{good} {clauses}"),
        format!("{good} c"),
        String::new(),
        " ".to_string(),
        "%".to_string(),
        "1 0".to_string(),
        " c".to_string(),
    ])
}

/// One more, or so many that they need more than 32 bits.
pub fn variables_past_limit(limits: &Limits, random: &mut Random) -> Vec<u8> {
    let most = limits.terms as u64;
    let mut sketch = some_sketch(random);
    let above = most + 1 + random.bits() % 60_000;
    sketch.variables = random.pick(&[most + 1, above, 1 << 16, (1 << 32) + 1, 9_999_999_999]);
    sketch.write()
}

/// A word among the numbers of a valid text.
fn with_a_word(sketch: &Sketch, word: &str, random: &mut Random) -> Vec<u8> {
    let mut numbers = sketch.numbers();
    let place = random.between(0, numbers.len());
    numbers.insert(place, word.as_bytes().to_vec());
    sketch.write_with(&sketch.header(), &numbers)
}

pub fn not_a_number(random: &mut Random) -> Vec<u8> {
    let word = random.pick(&NOT_NUMBERS);
    with_a_word(&some_sketch(random), word, random)
}

/// The next number, or one that is small in 32 bits.
pub fn above_the_header(random: &mut Random) -> Vec<u8> {
    let sketch = some_sketch(random);
    let next = sketch.variables + 1;
    let number = random.pick(&[
        next,
        next,
        next + 7,
        1 << 31,
        1 << 32,
        (1 << 32) + 1,
        9_999_999_999,
    ]);
    let sign = random.pick(&["", "-"]);
    with_a_word(&sketch, &format!("{sign}{number}"), random)
}

/// The header says fewer clauses than there are.
pub fn fewer_clauses_said(random: &mut Random) -> Vec<u8> {
    let mut sketch = some_sketch(random);
    let fewer = random.bits() % sketch.said;
    sketch.said = random.pick(&[fewer, sketch.said - 1, 0]);
    sketch.write()
}

/// The header says more clauses than there are, some of them only beyond 32 bits.
pub fn more_clauses_said(random: &mut Random) -> Vec<u8> {
    let mut sketch = some_sketch(random);
    sketch.said += random.pick(&[1, 1, 2, 100, 1 << 16, 1 << 32]);
    sketch.write()
}

/// The header counts the clause that is not ended, or it does not.
pub fn last_not_ended(random: &mut Random) -> Vec<u8> {
    let mut sketch = some_sketch(random);
    let mut numbers = sketch.numbers();
    numbers.pop();
    sketch.said -= random.pick(&[0, 1]);
    sketch.write_with(&sketch.header(), &numbers)
}

/// A clause of 0 alone, which the header counts.
pub fn lone_zero(random: &mut Random) -> Vec<u8> {
    let mut sketch = some_sketch(random);
    let place = random.between(0, sketch.clauses.len());
    sketch.clauses.insert(place, Line::new());
    sketch.said += 1;
    sketch.write()
}

/// No clause, or clauses that are all dropped.
pub fn nothing_kept(random: &mut Random) -> Vec<u8> {
    let variables = random.between(1, 20);
    let dropped = |random: &mut Random| -> Line {
        let one = random.between(1, variables);
        let other = random.between(1, variables);
        let words = [format!("{one}"), format!("~{one}"), format!("{other}")];
        words.map(String::into_bytes).into()
    };
    let clauses = (0..random.below(6)).map(|_| dropped(random)).collect();
    Sketch::new(variables as u64, clauses).write()
}

/// Bytes of a few kinds after a header, so that every short form of a clause is met.
pub fn few_letters(random: &mut Random) -> Vec<u8> {
    let header = random.pick(&["p cnf 1 1\n", "p cnf 2 2\n", "p cnf 12 1\n", "p cnf 2 3\n"]);
    let letters = random.pick(&[&b"12 0\n"[..], b"1  0 -\n", b"1 2 00-\n\t", b"1 0 -1 0x\n"]);
    let length = random.between(0, 24);
    let letters: Vec<u8> = (0..length).map(|_| random.pick(letters)).collect();
    [header.as_bytes(), &letters, b"\n"].concat()
}

/// With a header before them or without.
pub fn any_bytes(random: &mut Random) -> Vec<u8> {
    let header = random.pick(&["", "p cnf 9 9\n"]);
    let length = random.between(0, 60);
    let bytes: Vec<u8> = (0..length).map(|_| random.byte()).collect();
    [header.as_bytes(), &bytes, b"\n"].concat()
}

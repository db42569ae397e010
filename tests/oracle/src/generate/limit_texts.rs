//! Clause texts at the limits, one past them, and with more lines where a limit is met.

use super::lines::{signed, write, Line, Word};
use super::names::{nth_name, ONE_BYTE_NAMES};
use super::random::Random;
use super::valid_texts::valid_text;
use crate::limits::Limits;

/// Lines to put after a text that fills a limit; ! and " are known there, the longer names not.
const TAILS: [&[u8]; 24] = [
    b"! ~!\n",
    b"! !\n",
    b"! \" ~!\n",
    b"! ! ~!\n",
    b"~ x\t\n",
    b"~\n",
    b"\n",
    b"   \n",
    b"! ~\n",
    b"~! ~ \x00\xff\n",
    b"newterm1 ~\n",
    b"newterm1 ~newterm1\n",
    b"~newterm1\n",
    b"! newterm1\n",
    b"! ~! newterm1\n",
    b"!\t\n",
    b"! ~!\t\n",
    b"! ~! \t\n",
    b"! !\t\n",
    b"!~\n",
    b"newterm1\t\n",
    b"abcdefghi\n",
    b"! ~ abcdefghi\n",
    b"!\n",
];

/// A text that holds this many terms.
pub fn text_of_terms(terms: usize, limits: &Limits, random: &mut Random) -> Vec<u8> {
    let literals = random.between(terms, limits.literals.min(2 * terms));
    let clauses = clauses_for(literals, terms, limits, random);
    text_of_size(terms, clauses, literals, random)
}

/// A text that holds this many clauses.
pub fn text_of_clauses(clauses: usize, limits: &Limits, random: &mut Random) -> Vec<u8> {
    let terms = few_terms(limits, random);
    let literals = random.between(clauses.max(terms), limits.literals);
    text_of_size(terms, clauses, literals, random)
}

/// A text that holds this many literals.
pub fn text_of_literals(literals: usize, limits: &Limits, random: &mut Random) -> Vec<u8> {
    let terms = few_terms(limits, random);
    let clauses = clauses_for(literals, terms, limits, random);
    text_of_size(terms, clauses, literals, random)
}

/// A text that holds every limit but that of its bytes.
pub fn text_full_of_all(limits: &Limits, random: &mut Random) -> Vec<u8> {
    text_of_size(limits.terms, limits.clauses, limits.literals, random)
}

/// A text that holds both the most terms and the most literals: "6 before 7 where both are full".
pub fn text_full_of_terms_and_literals(limits: &Limits, random: &mut Random) -> Vec<u8> {
    let (terms, literals) = (limits.terms, limits.literals);
    let clauses = clauses_for(literals, terms, limits, random);
    text_of_size(terms, clauses, literals, random)
}

/// An accepted text of exactly this many bytes, where that leaves room for a clause.
pub fn text_of_bytes(bytes: usize, random: &mut Random) -> Vec<u8> {
    let mut text = valid_text(random);
    if text.len() > bytes {
        text = b"a\n".to_vec();
    }
    let padding = padding(bytes.saturating_sub(text.len()), random);
    if padding.ends_with(b"\n") && random.coin() {
        [text, padding].concat()
    } else {
        [padding, text].concat()
    }
}

/// One to three lines where a limit is met or nearly met.
pub fn add_tails(text: &mut Vec<u8>, random: &mut Random) {
    for _ in 0..random.between(1, 3) {
        text.extend(random.pick(&TAILS));
    }
}

fn few_terms(limits: &Limits, random: &mut Random) -> usize {
    random.between(limits.terms.min(20), limits.terms.min(ONE_BYTE_NAMES))
}

/// A number of clauses that these literals fill without going past the widest clause.
fn clauses_for(literals: usize, terms: usize, limits: &Limits, random: &mut Random) -> usize {
    let fewest = literals.div_ceil(widest(terms).min(16));
    random.between(fewest.min(limits.clauses), limits.clauses.min(literals))
}

/// Later literals of a clause are drawn from the terms with names of one byte.
fn widest(terms: usize) -> usize {
    terms.min(ONE_BYTE_NAMES)
}

fn text_of_size(terms: usize, clauses: usize, literals: usize, random: &mut Random) -> Vec<u8> {
    write(&lines_of_size(nth_name, [terms, clauses, literals], random))
}

/// The lines of a text that holds exactly so much; none of them is dropped and no literal skipped.
pub fn lines_of_size(
    name: fn(usize) -> Word,
    [terms, clauses, literals]: [usize; 3],
    random: &mut Random,
) -> Vec<Line> {
    let mut filler = Filler {
        name,
        terms,
        introduced: 0,
        left: literals,
        random,
    };
    let widths = filler.widths(clauses);
    widths.into_iter().map(|width| filler.line(width)).collect()
}

struct Filler<'a> {
    name: fn(usize) -> Word,
    terms: usize,
    introduced: usize,
    /// Literals that are still to be written.
    left: usize,
    random: &'a mut Random,
}

impl Filler<'_> {
    /// The width of each clause; together they are the literals.
    fn widths(&mut self, clauses: usize) -> Vec<usize> {
        let most = widest(self.terms);
        let mut widths = vec![1; clauses];
        let mut more = self.left.saturating_sub(clauses);
        while more > 0 && widths.iter().any(|width| *width < most) {
            let index = self.random.below(widths.len());
            let added = self
                .random
                .between(0, more.min(most - widths[index]).min(8));
            widths[index] += added;
            more -= added;
        }
        widths
    }

    fn line(&mut self, width: usize) -> Line {
        let mut terms = Vec::new();
        while terms.len() < width {
            let term = self.next_term();
            if !terms.contains(&term) {
                terms.push(term);
                self.introduced = self.introduced.max(term + 1);
                self.left -= 1;
            }
        }
        terms
            .iter()
            .map(|term| signed(&(self.name)(*term), self.random.coin()))
            .collect()
    }

    /// A new term where one must come now, else a new one or one of those with short names.
    fn next_term(&mut self) -> usize {
        let new = self.terms - self.introduced;
        let must = self.introduced == 0 || self.left <= new;
        if new > 0 && (must || self.random.coin()) {
            self.introduced
        } else {
            self.random.below(widest(self.introduced))
        }
    }
}

/// So many bytes that change nothing: one comment, one `~` with spaces, or lines of `~` alone. A single byte is a space, for a line's beginning.
fn padding(bytes: usize, random: &mut Random) -> Vec<u8> {
    if bytes < 2 {
        return vec![b' '; bytes];
    }
    if random.one_in(3) {
        let mut lines = b"~\n".repeat(bytes / 2);
        lines.splice(1..1, vec![b' '; bytes % 2]);
        return lines;
    }
    let mut line = b"~ "[..(bytes - 1).min(2)].to_vec();
    line.resize(bytes - 1, random.pick(b"x "));
    line.push(b'\n');
    line
}

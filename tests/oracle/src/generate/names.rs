//! Names of 1 to 8 bytes over the whole range 33 to 125.

use std::collections::HashSet;

use super::random::Random;
use crate::kinds;
use crate::reader::LONGEST_NAME;

const LOWEST: usize = 33;
/// How many names have one byte.
pub const ONE_BYTE_NAMES: usize = 93;

/// Names that are easily taken for something else.
const STRANGE: [&str; 18] = [
    "?", "!", "}", "!!!!!!!!", "}}}}}}}}", "=", "0", "#", "-", "c", "p", "seed=1", "bias=400",
    "choice", "choice=a", "answer=", "\\n", "{}",
];

kinds! {
    pub enum NameStyle {
        Numbered,
        Letters,
        AnyBytes,
        FullLength,
        AlikeButForOneByte,
        Strange,
    }
}

/// The number's own name: all names of one byte come first, then those of two, and so on.
pub fn nth_name(number: usize) -> Vec<u8> {
    let mut name = Vec::new();
    let mut left = number + 1;
    while left > 0 {
        left -= 1;
        name.push((LOWEST + left % ONE_BYTE_NAMES) as u8);
        left /= ONE_BYTE_NAMES;
    }
    name
}

/// A name of this many bytes.
pub fn name_of_length(length: usize, random: &mut Random) -> Vec<u8> {
    (0..length)
        .map(|_| (LOWEST + random.below(ONE_BYTE_NAMES)) as u8)
        .collect()
}

/// So many names, no two of them equal.
pub fn distinct_names(style: NameStyle, count: usize, random: &mut Random) -> Vec<Vec<u8>> {
    let mut names = Vec::new();
    let mut known = HashSet::new();
    while names.len() < count {
        let name = name_in_style(style, names.len(), random);
        if known.insert(name.clone()) {
            names.push(name);
        }
    }
    names
}

fn name_in_style(style: NameStyle, number: usize, random: &mut Random) -> Vec<u8> {
    match style {
        NameStyle::Numbered => nth_name(number),
        NameStyle::Letters => letters(random),
        NameStyle::AnyBytes => any_name(random),
        NameStyle::FullLength => name_of_length(LONGEST_NAME, random),
        NameStyle::AlikeButForOneByte => alike(random),
        NameStyle::Strange => strange(number, random),
    }
}

fn any_name(random: &mut Random) -> Vec<u8> {
    let length = random.between(1, LONGEST_NAME);
    name_of_length(length, random)
}

fn letters(random: &mut Random) -> Vec<u8> {
    let length = random.between(1, 4);
    (0..length).map(|_| b'a' + random.below(26) as u8).collect()
}

/// The name of a single letter cut at some length, with one byte changed.
fn alike(random: &mut Random) -> Vec<u8> {
    let mut name = vec![b'a'; random.between(1, LONGEST_NAME)];
    let changed = random.below(name.len());
    name[changed] = (LOWEST + random.below(ONE_BYTE_NAMES)) as u8;
    name
}

fn strange(number: usize, random: &mut Random) -> Vec<u8> {
    match STRANGE.get(number) {
        Some(name) => name.as_bytes().to_vec(),
        None => any_name(random),
    }
}

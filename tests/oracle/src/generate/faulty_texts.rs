//! Clause texts with a fault in them, or likely to have one.

use super::lines::blank;
use super::names::name_of_length;
use super::random::Random;
use super::valid_texts::valid_text;
use crate::reader::LONGEST_NAME;

/// Bytes at the edges of what is allowed.
const EDGE_BYTES: [u8; 14] = [0, 9, 10, 13, 31, 32, 33, 65, 125, 126, 127, 128, 160, 255];

fn some_byte(random: &mut Random) -> u8 {
    if random.coin() {
        random.pick(&EDGE_BYTES)
    } else {
        random.byte()
    }
}

/// Changes one to three bytes of any text.
pub fn change_bytes(text: &mut [u8], random: &mut Random) {
    for _ in 0..random.between(1, 3) {
        let place = random.below(text.len());
        if let Some(byte) = text.get_mut(place) {
            *byte = some_byte(random);
        }
    }
}

pub fn insert_byte(text: &mut Vec<u8>, random: &mut Random) {
    let place = random.between(0, text.len());
    text.insert(place, some_byte(random));
}

/// Takes out any byte, or the last one, of a text that has one.
pub fn remove_byte(text: &mut Vec<u8>, random: &mut Random) {
    let last = text.len() - 1;
    let place = if random.one_in(8) {
        last
    } else {
        random.between(0, last)
    };
    text.remove(place);
}

/// Puts some bytes that stand together there twice: a few, or any number.
pub fn double_bytes(text: &mut Vec<u8>, random: &mut Random) {
    let start = random.below(text.len());
    let any = random.between(1, text.len() - start);
    let few = any.min(random.between(1, 8));
    let end = start + random.pick(&[few, any]);
    text.splice(end..end, text[start..end].to_vec());
}

/// A valid text, damaged.
fn damaged(damage: fn(&mut Vec<u8>, &mut Random), random: &mut Random) -> Vec<u8> {
    let mut text = valid_text(random);
    damage(&mut text, random);
    text
}

pub fn changed_bytes(random: &mut Random) -> Vec<u8> {
    damaged(|text, random| change_bytes(text, random), random)
}

pub fn inserted_byte(random: &mut Random) -> Vec<u8> {
    damaged(insert_byte, random)
}

pub fn removed_byte(random: &mut Random) -> Vec<u8> {
    damaged(remove_byte, random)
}

/// Blank lines between the others, one to three.
pub fn blank_lines(random: &mut Random) -> Vec<u8> {
    let mut text = valid_text(random);
    for _ in 0..random.between(1, 3) {
        let mut line = blank(random).concat();
        line.push(b'\n');
        let place = random.pick(&line_starts(&text));
        text.splice(place..place, line);
    }
    text
}

/// Where a line begins, or may be put at the end.
fn line_starts(text: &[u8]) -> Vec<usize> {
    let after = |place: &usize| *place == 0 || text[place - 1] == b'\n';
    (0..=text.len()).filter(after).collect()
}

/// Cut anywhere, mostly inside a line.
pub fn cut(random: &mut Random) -> Vec<u8> {
    damaged(
        |text, random| text.truncate(random.below(text.len())),
        random,
    )
}

/// A name of nine bytes or more somewhere.
pub fn long_name(random: &mut Random) -> Vec<u8> {
    let length = LONGEST_NAME + random.between(1, 4);
    let name = name_of_length(length, random);
    put_at_a_line(name, random)
}

/// A name of eight bytes or fewer with a byte after it that may not stand there.
pub fn wrong_byte_after_name(random: &mut Random) -> Vec<u8> {
    let length = random.between(1, LONGEST_NAME);
    let mut name = name_of_length(length, random);
    name.push(random.pick(&[0, 9, 13, 31, 126, 127, 128, 255]));
    put_at_a_line(name, random)
}

/// ~ with a byte after it that may not stand there.
pub fn wrong_byte_after_tilde(random: &mut Random) -> Vec<u8> {
    let after = random.pick(&[0, 9, 13, 31, 126, 127, 128, 255]);
    put_at_a_line(vec![b'~', after], random)
}

/// Puts the bytes and a space at the beginning of some line.
fn put_at_a_line(mut bytes: Vec<u8>, random: &mut Random) -> Vec<u8> {
    let mut text = valid_text(random);
    let place = random.pick(&line_starts(&text[..text.len() - 1]));
    bytes.push(b' ');
    text.splice(place..place, bytes);
    text
}

/// Bytes of a few kinds, so that every short form of a line is met; blank lines in half of the texts only, since these end a reading.
pub fn few_letters(random: &mut Random) -> Vec<u8> {
    let letters: &[u8] = if random.coin() {
        b"ab~ \n"
    } else {
        b"aab  ~\n\n!}?\t"
    };
    let length = random.between(0, 60);
    let mut text: Vec<u8> = (0..length).map(|_| random.pick(letters)).collect();
    if !random.one_in(4) {
        text.push(b'\n');
    }
    if random.coin() {
        let lines = text.split_inclusive(|byte| *byte == b'\n');
        text = lines
            .filter(|line| !is_blank(line))
            .collect::<Vec<_>>()
            .concat();
    }
    text
}

fn is_blank(line: &[u8]) -> bool {
    line.iter().all(|byte| matches!(byte, b' ' | b'\n'))
}

pub fn any_bytes(random: &mut Random) -> Vec<u8> {
    let length = random.between(0, 80);
    (0..length).map(|_| random.byte()).collect()
}

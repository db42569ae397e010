//! Lines of words, what may be done to them, and how they are written.

use super::random::Random;

/// A literal, or anything else that stands between spaces.
pub type Word = Vec<u8>;
pub type Line = Vec<Word>;

/// A literal of this name.
pub fn signed(name: &[u8], negated: bool) -> Word {
    let sign: &[u8] = if negated { b"~" } else { b"" };
    [sign, name].concat()
}

pub fn opposite_word(word: &[u8]) -> Word {
    match word {
        [b'~', name @ ..] => name.to_vec(),
        name => signed(name, true),
    }
}

/// So many lines, their widths between the two given; a literal may stand twice or both ways.
pub fn random_lines(
    names: &[Word],
    count: usize,
    widths: [usize; 2],
    random: &mut Random,
) -> Vec<Line> {
    let line = |random: &mut Random| {
        let width = random.between(widths[0], widths[1]);
        (0..width).map(|_| random_word(names, random)).collect()
    };
    (0..count).map(|_| line(random)).collect()
}

fn random_word(names: &[Word], random: &mut Random) -> Word {
    let name = random.pick(names);
    signed(&name, random.coin())
}

/// One space between words and none elsewhere.
pub fn write(lines: &[Line]) -> Vec<u8> {
    let mut text = Vec::new();
    for line in lines {
        text.extend(line.join(&b' '));
        text.push(b'\n');
    }
    text
}

/// Runs of spaces before, between and after the words.
pub fn write_with_runs(lines: &[Line], random: &mut Random) -> Vec<u8> {
    let mut text = Vec::new();
    for line in lines {
        push_spaces(&mut text, 0, random);
        for (index, word) in line.iter().enumerate() {
            push_spaces(&mut text, usize::from(index > 0), random);
            text.extend(word);
        }
        push_spaces(&mut text, 0, random);
        text.push(b'\n');
    }
    text
}

fn push_spaces(text: &mut Vec<u8>, least: usize, random: &mut Random) {
    let more = if random.one_in(3) { random.below(5) } else { 0 };
    text.extend(vec![b' '; least + more]);
}

/// Repeats a literal in some lines.
pub fn repeat_literals(lines: &mut [Line], random: &mut Random) {
    change_some(lines, random, |line, random| {
        let word = random.pick(line);
        let place = random.between(1, line.len());
        line.insert(place, word);
    });
}

/// Puts the opposite of a literal into some lines, which are then dropped.
pub fn add_opposites(lines: &mut [Line], random: &mut Random) {
    change_some(lines, random, |line, random| {
        let word = opposite_word(&random.pick(line));
        let place = random.between(1, line.len());
        line.insert(place, word);
    });
}

/// Puts "true" into some lines, with bytes of any kind after it.
pub fn add_trues(lines: &mut [Line], random: &mut Random) {
    change_some(lines, random, |line, random| {
        line.truncate(random.between(0, line.len()));
        line.push(b"~".to_vec());
        if random.coin() {
            line.push(rubbish(random));
        }
    });
}

/// Puts lines of this making between the others.
pub fn insert_lines(lines: &mut Vec<Line>, random: &mut Random, make: fn(&mut Random) -> Line) {
    for _ in 0..random.between(1, 1 + lines.len() / 4) {
        let place = random.between(0, lines.len());
        let line = make(random);
        lines.insert(place, line);
    }
}

pub fn comment(random: &mut Random) -> Line {
    vec![b"~".to_vec(), rubbish(random)]
}

pub fn lone_tilde(_: &mut Random) -> Line {
    vec![b"~".to_vec()]
}

pub fn blank(random: &mut Random) -> Line {
    let spaces = if random.coin() {
        0
    } else {
        random.between(1, 6)
    };
    vec![vec![b' '; spaces]]
}

/// Bytes of any kind but 10.
pub fn rubbish(random: &mut Random) -> Word {
    let any = random.coin();
    let byte = |random: &mut Random| {
        if any {
            random.byte()
        } else {
            random.pick(b"ab~ \t=~?")
        }
    };
    let length = random.between(0, 12);
    (0..length)
        .map(|_| byte(random))
        .map(|byte| if byte == b'\n' { 0 } else { byte })
        .collect()
}

/// Changes about a third of the lines that have a word, and one at least if there is one.
fn change_some(lines: &mut [Line], random: &mut Random, change: fn(&mut Line, &mut Random)) {
    let certain = random.below(lines.len());
    for (index, line) in lines.iter_mut().enumerate() {
        if !line.is_empty() && (index == certain || random.one_in(3)) {
            change(line, random);
        }
    }
}

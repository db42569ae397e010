//! Texts that are hard on the search for names and for repeats.

use boundary::texts::*;
use boundary::{Readings, NARROW};
use oracle::generate::lines::{Line, Word};
use oracle::generate::names::nth_name;
use oracle::generate::Random;
use oracle::reader::pack;
use oracle::reasons::*;

/// The library looks for a name from the slot of its remainder by this, upwards.
const HOMES: u64 = 6_067;

/// For each of these homes the first so many names that have it.
fn names_at_home(homes: &[u64], count: usize) -> Vec<Line> {
    let mut found = vec![Line::new(); homes.len()];
    let mut names = (0..).map(nth_name);
    while found.iter().any(|names| names.len() < count) {
        let name = names.next().expect("names do not end");
        let home = pack(&name) % HOMES;
        if let Some(place) = homes.iter().position(|one| *one == home) {
            found[place].push(name);
        }
    }
    for names in &mut found {
        names.truncate(count);
    }
    found
}

/// The first home, one between, and the last two, from which the search goes on past every home.
#[test]
fn names_2_048_that_share_one_home_are_told_apart() {
    let mut readings = Readings::start("one home");
    for mut names in names_at_home(&[0, 3_000, HOMES - 2, HOMES - 1], NARROW.terms + 1) {
        let one_more = names.split_off(NARROW.terms);
        let back = [reversed(&names), negated(&names)].map(|line| one_line(&line));
        let thrice = then(&unit_lines(&names), &back.concat());
        assert_eq!(held(readings.accept(&thrice)), [2_048, 2_050, 6_144]);
        let more = then(&thrice, &one_line(&one_more));
        readings.refuse(&more, TOO_MANY_TERMS, 2_051);
    }
}

#[test]
fn names_that_come_where_others_took_their_home_are_told_apart() {
    let mut readings = Readings::start("homes next to each other");
    let mut names = names_at_home(&[500, 501, 502, 1_000], NARROW.terms / 4).concat();
    for _ in 0..4 {
        let twice = then(&one_line(&names), &unit_lines(&reversed(&names)));
        assert_eq!(held(readings.accept(&twice)), [2_048, 2_049, 4_096]);
        Random::new(1).shuffle(&mut names);
    }
}

#[test]
fn names_alike_but_for_one_byte_or_their_length_are_told_apart() {
    let mut readings = Readings::start("alike");
    let one_byte: Line = (33..=125).map(|byte| vec![byte]).collect();
    assert_eq!(held(readings.accept(&one_line(&one_byte))), [93, 1, 93]);
    let longer: Line = (1..=8).map(|length| vec![b'a'; length]).collect();
    assert_eq!(held(readings.accept(&one_line(&longer))), [8, 1, 8]);
    for place in 0..8 {
        let other = |byte| {
            let mut name = b"aaaaaaaa".to_vec();
            name[place] = byte;
            name
        };
        let names: Line = (33..=125).map(other).collect();
        let twice = then(&one_line(&names), &unit_lines(&negated(&names)));
        assert_eq!(held(readings.accept(&twice)), [93, 94, 186]);
    }
}

#[test]
fn a_line_of_32_768_times_one_literal_holds_it_once() {
    let mut readings = Readings::start("repeats");
    let repeats = repeats();
    assert_eq!(repeats.len(), 2 * 32_768);
    assert_eq!(held(readings.accept(&repeats)), [1, 1, 1]);
    let ending = |end: &[u8; 4]| then(&repeats[..65_532], end);
    readings.refuse(&ending(b"~! \n"), NO_CLAUSE, 0);
    readings.refuse(&ending(b"! \t\n"), BYTE_NOT_ALLOWED, 1);
    let cases: [(&[u8], &[u8], [u64; 3]); 4] = [
        (b"", b"! a ~b ", [3, 1, 3]),
        (b"~a ! b ", b"~a ", [3, 1, 3]),
        (b"", b"! ! ~!\n", [1, 1, 1]),
        (b"a b\n", b"a ! b ~!\n", [3, 2, 3]),
    ];
    for (text, word, expected) in cases {
        assert_eq!(held(readings.accept(&then_often(text, word))), expected);
    }
}

#[test]
fn terms_2_048_each_named_eight_times_are_held_once_a_line() {
    let mut readings = Readings::start("eight times");
    let names = first_names(NARROW.terms);
    let (line, back) = (one_line(&names), one_line(&reversed(&names)));
    let lines = then(&line, &back).repeat(4);
    assert_eq!(held(readings.accept(&lines)), [2_048, 8, 16_384]);
    let spaced = |byte: &u8| if *byte == b'\n' { b' ' } else { *byte };
    let in_one_line: Vec<u8> = lines.iter().map(spaced).chain([b'\n']).collect();
    assert_eq!(held(readings.accept(&in_one_line)), [2_048, 1, 2_048]);
    let opposite = negated(&names[..1]);
    let dropped = one_line(&[names, opposite].concat()).repeat(8);
    readings.refuse(&dropped, NO_CLAUSE, 0);
    let kept_after = then(&dropped, &back);
    assert_eq!(held(readings.accept(&kept_after)), [2_048, 1, 2_048]);
}

/// One literal so often that the text is full.
fn repeats() -> Vec<u8> {
    then_often(b"", b"! ")
}

/// A text, then this word as often as there is room, and a last literal.
fn then_often(text: &[u8], word: &[u8]) -> Vec<u8> {
    let times = (NARROW.text - text.len() - 2) / word.len();
    [text, &word.repeat(times), b"!\n"].concat()
}

/// Texts in which each step finds much that came before it; ! stands first among the names, or last.
fn hard_texts() -> Vec<(&'static str, Vec<u8>)> {
    let names = first_names(NARROW.terms);
    let back = reversed(&names);
    let in_line = |names: &[Word]| then_often(&names.join(&b' '), b" !");
    let in_names = |names: &[Word]| then_often(&unit_lines(names), b"! ! ~!\n");
    let at_one_home = names_at_home(&[HOMES - 1], NARROW.terms).concat();
    vec![
        ("spaces", then_often(b"", b" ")),
        ("comments", then_often(b"", b"~\n")),
        ("one comment", then_often(b"a\n~ ", b"x")),
        ("dropped lines", then_often(b"", b"a ~a\n")),
        ("the first of 2,048 literals again", in_line(&names)),
        ("the last of 2,048 literals again", in_line(&back)),
        ("the first of 2,048 names again", in_names(&names)),
        ("the last of 2,048 names again", in_names(&back)),
        ("2,048 names at one home", one_line(&at_one_home)),
    ]
}

#[test]
fn hard_texts_are_read_rightly() {
    let mut readings = Readings::start("");
    for (case, text) in hard_texts() {
        readings.of(case.into()).read(&text);
    }
}

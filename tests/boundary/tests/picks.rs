//! The picks that request 3 lists, made by walks: each literal and the generator's state after it are as its row says.

use boundary::{Readings, ORDER};
use oracle::draw::draws_from;
use oracle::limits::TERMS_IN_A_WORD;
use oracle::Order;

/// A literal that is picked, and the state afterwards.
type Pick = (usize, u32);

/// Walks on a text by both sides, for one flip, for two and so on: the flips of each walk must be the first of these picks.
fn walk(readings: &mut Readings, text: &str, seed: u64, picks: &[Pick]) {
    for flips in 1..=picks.len() {
        let order = Order {
            seed,
            flips: flips as u64,
            walks: 1,
            bias: 0,
            ..ORDER
        };
        readings.of(format!("{order:?}")).accept(text.as_bytes());
        let sides = &mut readings.sides;
        sides.walk(&order);
        let steps = sides.steps.iter();
        let picked: Vec<Pick> = steps.map(|step| (step.literal, step.state)).collect();
        assert_eq!(picked, picks[..flips], "{order:?}");
        let (last, _) = picks[flips - 1];
        let value = sides.tables.values[0] >> (last / 2) & 1;
        assert_eq!(value == 1, last % 2 == 0, "what is picked becomes true");
    }
}

/// In the clause `a b c d` at a state: the break counts of its terms, then what is picked.
struct Row {
    breaks: [usize; 4],
    state: u32,
    picked: Pick,
}

const ROWS: [Row; 5] = [
    row([0, 3, 3, 3], 1, (0, 1)),
    row([1, 0, 1, 0], 1, (6, 270_369)),
    row([1, 0, 1, 0], 2, (2, 540_738)),
    row([1, 1, 1, 1], 1, (2, 67_634_689)),
    row([2, 1, 2, 2], 1, (2, 270_369)),
];

const fn row(breaks: [usize; 4], state: u32, picked: Pick) -> Row {
    Row {
        breaks,
        state,
        picked,
    }
}

/// Value words and a seed: the start draws 0 for the first four terms, and with the draw for the clause it ends in this state.
fn start_for(state: u32) -> (usize, u32) {
    let (words, seed) = match state {
        1 => (8, 2_216_438_316),
        _ => (16, 2_390_768_179),
    };
    assert_eq!(draws_from(seed).next().map(|draw| draw & 15), Some(0));
    assert_eq!(draws_from(seed).nth(words), Some(state));
    (words, seed)
}

/// The terms are known from a line that is dropped; a term that is 0 breaks the lines that deny it.
fn text_for(words: usize, breaks: [usize; 4]) -> String {
    let others = (4..words * TERMS_IN_A_WORD).map(|term| format!(" t{term}"));
    let known = others.collect::<String>();
    let denied = std::iter::zip(["~a\n", "~b\n", "~c\n", "~d\n"], breaks);
    let denied: String = denied.map(|(line, times)| line.repeat(times)).collect();
    format!("a b c d{known} ~\na b c d\n{denied}")
}

#[test]
fn every_rows_literal_is_picked() {
    let mut readings = Readings::start("");
    for row in ROWS {
        let (words, seed) = start_for(row.state);
        let text = text_for(words, row.breaks);
        walk(&mut readings, &text, seed.into(), &[row.picked]);
        let step = readings.sides.steps[0];
        let least = *row.breaks.iter().min().expect("there are four");
        assert_eq!((step.uncovered, step.literals, step.least), (1, 4, least));
    }
}

#[test]
fn the_literals_of_two_whole_walks() {
    let mut readings = Readings::start("");
    let picks = [
        (1, 2_647_435_461),
        (0, 745_495_504),
        (1, 435_756_210),
        (6, 2_657_092_299),
    ];
    walk(&mut readings, "a b c d\n~a\n~b\n~c\n~d\n", 1, &picks);
    let text = "a b\na ~b\n~a b\n~a ~b\n";
    walk(&mut readings, text, 3, &[(3, 1_909_268_553), (2, 3_448_221_763)]);
}

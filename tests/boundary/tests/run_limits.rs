//! Runs on tables and outputs of other lengths, and runs that print as much as there may be.

use boundary::lengths::{for_each_longer, for_each_shorter};
use boundary::rubbish::{rubbish, rubbish_output};
use boundary::texts::{negated, one_line, then, unit_lines};
use boundary::{Lent, Runs, Sides, NARROW};
use oracle::generate::limit_texts::text_full_of_all;
use oracle::generate::names::{distinct_names, NameStyle};
use oracle::generate::{input_of, InputKind, Random};
use oracle::reasons::TOO_MANY_TERMS;
use oracle::Counts;

const SHEET: &[u8] = b"seed=1\nflips=10\nwalks=1\nbias=400\n";

fn lent_rubbish(random: &mut Random) -> Lent {
    (Counts::default(), rubbish(random))
}

/// One input for each way that a run goes: found, given up, too long, refused by its sheet or its text, and any.
fn inputs(random: &mut Random) -> Vec<Vec<u8>> {
    let texts: [&[u8]; 4] = [b"a b\n~a b\n", b"a\n~a\n", b"a\t\n", &[b'\n'; 65_536]];
    let mut inputs: Vec<_> = texts.iter().map(|text| then(SHEET, text)).collect();
    inputs.extend([b"seed=0\n".to_vec(), Vec::new()]);
    inputs.push(input_of(InputKind::ToWalk, &NARROW, random));
    inputs
}

/// Gives each of the inputs, which must not be run.
fn refuse_all(sides: &mut Sides, output: &mut [u8], random: &mut Random) {
    for input in inputs(random) {
        sides.refuse_run(&input, output);
    }
}

#[test]
fn a_table_too_short_is_reason_1_and_changes_nothing() {
    for_each_shorter(lent_rubbish, |sides, random| {
        refuse_all(sides, &mut rubbish_output(random), random);
    });
}

#[test]
fn point_31_an_output_too_short_is_reason_1_and_changes_nothing() {
    let mut sides = Sides::start();
    let random = &mut Random::new(0);
    let full = NARROW.output_size();
    assert_eq!(full, 20_544);
    for length in [full - 1, full / 2, 27, 1, 0] {
        let mut output = rubbish_output(random);
        output.truncate(length);
        sides.lend_rubbish(format!("an output of {length}"), random);
        refuse_all(&mut sides, &mut output, random);
    }
}

#[test]
fn rubbish_beyond_the_tables_and_the_output_stays() {
    for_each_longer(lent_rubbish, |sides, random| {
        for input in inputs(random) {
            let mut output = rubbish_output(random);
            output.extend(vec![b'!'; random.pick(&[0, 1, 1_000])]);
            assert!(!sides.run(&input, &mut output).is_empty());
        }
    });
}

/// Nine bytes for each of 2,048 terms, and one between or after them.
#[test]
fn the_longest_answer_is_printed_whole() {
    let mut runs = Runs::start();
    let sheet = b"seed=1\nflips=100000\nwalks=1\nbias=0\n";
    let names = distinct_names(NameStyle::FullLength, NARROW.terms, &mut Random::new(1));
    for (literals, chosen) in [(negated(&names), 0), (names, 2_048)] {
        let printed = runs.run(&then(sheet, &unit_lines(&literals)));
        let answer = [b"answer=", &one_line(&literals)[..]].concat();
        assert!(printed.ends_with(&answer));
        let head = String::from_utf8_lossy(&printed[..printed.len() - answer.len()]);
        assert!(head.starts_with("result=found\nwalks=1\nflips="));
        assert!(head.ends_with(&format!("\nchosen={chosen}\n")));
    }
}

/// None of these is covered so soon.
#[test]
fn texts_full_to_every_limit_are_walked_on_and_one_term_more_is_reason_6() {
    let mut runs = Runs::start();
    for seed in 0..4 {
        let full = text_full_of_all(&NARROW, &mut Random::new(seed));
        let printed = runs.run(&then(SHEET, &full));
        assert!(printed.starts_with(b"result=gaveup\nwalks=1\nflips=10\n"));
        let more = then(&full, b"newterm1\n");
        runs.refuses(&then(SHEET, &more), TOO_MANY_TERMS, 8_193);
    }
}

/// A file that no values cover, so that every flip and walk is made.
#[test]
fn numbers_of_every_length_are_printed() {
    let mut runs = Runs::start();
    for (flips, walks) in [
        (0, 1),
        (1, 9),
        (9, 1),
        (1, 10),
        (11, 9),
        (10, 10),
        (1, 99),
        (9, 111),
        (1, 1_000),
        (9_999, 1),
        (101, 99),
        (10_000, 1),
        (99_999, 1),
        (100_000, 1),
        (999, 1_000),
        (100_000, 10),
    ] {
        let input = format!("seed=5\nflips={flips}\nwalks={walks}\nbias=500\na\n~a\n");
        let made = flips * walks;
        let lines = format!("result=gaveup\nwalks={walks}\nflips={made}\nchosen=0\nanswer=~?\n");
        runs.prints(input.as_bytes(), &lines);
    }
}

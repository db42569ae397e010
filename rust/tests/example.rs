//! The scope's printed example, by each way that there is, and the example sheets.

mod common;

use std::fs;
use std::path::{Path, PathBuf};

use common::*;
use ngiyarumba::{run, Generator, Outcome};

#[test]
fn the_printed_example_is_printed() {
    let printed = run(format!("{SHEET}{TEXT}")).unwrap();
    assert_eq!(
        printed,
        "result=found\nwalks=1\nflips=1\nchosen=2\nanswer=a b\n"
    );
}

#[test]
fn the_printed_example_is_read() {
    let tables = read(TEXT);
    let counts = tables.counts();
    assert_eq!((counts.terms, counts.clauses), (2, 2));
    assert_eq!((counts.literals, counts.uncovered), (4, 1));
    assert!(tables
        .terms()
        .eq([("a".into(), false), ("b".into(), false)]));
    assert!(tables.clauses().eq(["a b", "~a b"]));
    assert_eq!(tables.uncovered(), [0]);
    assert_eq!(tables.true_counts(), [0, 1]);
    assert_eq!(tables.break_counts(), [1, 0]);
    assert_eq!(tables.answer(), None);
}

#[test]
fn the_printed_example_is_found() {
    let mut tables = read(TEXT);
    let found = Outcome::Found {
        walks: 1,
        flips: 1,
        chosen: 2,
    };
    assert_eq!(tables.walk(ORDER), Ok(found));
    assert!(tables.terms().eq([("a".into(), true), ("b".into(), true)]));
    assert_eq!(tables.answer().as_deref(), Some("a b"));
    assert_eq!(tables.counts().uncovered, 0);
    assert_eq!(tables.uncovered(), []);
    assert_eq!(tables.true_counts(), [2, 1]);
    assert_eq!(tables.break_counts(), [0, 1]);
}

#[test]
fn the_draws_of_the_scope_are_drawn() {
    let mut generator = Generator::new(1).unwrap();
    let draws = [(); 3].map(|_| generator.draw());
    assert_eq!(draws, [270_369, 67_634_689, 2_647_435_461]);
    let mut generator = Generator::new(270_369).unwrap();
    assert_eq!(generator.choice(3), Ok(1));
    assert_eq!(generator.state(), 67_634_689);
    let mut generator = Generator::new(270_369).unwrap();
    assert_eq!(generator.choice_even(3), Ok(0));
    assert_eq!(generator.state(), 67_634_689);
}

#[test]
fn heads_are_remainders_below_the_bias() {
    let heads = |bias| Generator::new(1).unwrap().heads(bias);
    assert_eq!((heads(369), heads(370)), (Ok(false), Ok(true)));
}

#[test]
fn a_term_may_be_named_by_any_bytes_from_33_to_125() {
    let tables = read("?{}|\"%&/ ~!#$ abcdefgh\n");
    let names = tables.terms().map(|(name, _)| name);
    assert!(names.eq(["?{}|\"%&/", "!#$", "abcdefgh"]));
    assert_eq!(tables.number_of("!#$"), Some(1));
    assert_eq!(tables.number_of("!#"), None);
}

#[test]
fn terms_of_dropped_lines_and_repeated_literals() {
    let tables = read("a ~a c\nb b ~d\n~ e\n");
    assert!(tables.terms().map(|(name, _)| name).eq(["a", "b", "d"]));
    assert!(tables.clauses().eq(["b ~d"]));
}

#[test]
fn every_example_sheet_prints_what_stands_beside_it() {
    let folder = Path::new(env!("CARGO_MANIFEST_DIR")).join("../examples/sheets");
    let files = fs::read_dir(folder).unwrap();
    let mut sheets: Vec<PathBuf> = files.map(|file| file.unwrap().path()).collect();
    sheets.retain(|path| path.extension().is_some_and(|kind| kind == "txt"));
    assert!(!sheets.is_empty());
    for sheet in sheets {
        let expected = fs::read_to_string(sheet.with_extension("out")).unwrap();
        assert_eq!(
            run(fs::read(&sheet).unwrap()),
            Ok(expected),
            "{}",
            sheet.display()
        );
    }
}

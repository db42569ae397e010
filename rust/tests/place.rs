//! The example program, over the example sheets.

#[allow(dead_code)]
#[path = "../examples/place.rs"]
mod example;

use std::fs;

use example::place;

fn sheet(name: &str) -> String {
    let folder = concat!(env!("CARGO_MANIFEST_DIR"), "/../examples/sheets");
    fs::read_to_string(format!("{folder}/{name}.txt")).unwrap()
}

#[test]
fn the_merge_is_placed() {
    let places = place(&sheet("merge")).unwrap();
    assert_eq!(
        places,
        "bil under riv\nbor under sup\ncan under sup\ncrk under wet\nest under riv\n"
    );
}

#[test]
fn clause_text_needs_no_sheet() {
    assert_eq!(place("a:b\n~a:c\n").unwrap(), "a under b\n");
}

#[test]
fn giving_up_says_what_is_left() {
    let words = place(&sheet("rivest-8")).unwrap_err();
    let (first, clauses) = words.split_once('\n').unwrap();
    assert_eq!(first, "gave up after 3000 flips; left uncovered:");
    let text = sheet("rivest-8");
    assert!(clauses
        .lines()
        .all(|clause| text.lines().any(|line| line == clause)));
    assert!(clauses.lines().count() > 0);
}

#[test]
fn a_refusal_says_its_line() {
    let words = place(&sheet("refused")).unwrap_err();
    assert_eq!(words, "line 3: a name is longer than 8 bytes");
}

#[test]
fn a_refused_sheet_says_why() {
    let words = place("seed=x\n").unwrap_err();
    assert_eq!(words, "the order sheet has the wrong form");
    let words = place("seed=0\nflips=1\nwalks=1\nbias=1\na\n").unwrap_err();
    assert_eq!(words, "a number is outside its range");
}

//! Lists and lengths that are refused, and which reason comes first.

use boundary::lengths::for_each_shorter;
use boundary::{agreeing, disagreeing, few_flips, for_each_file, holding, Sides, NARROW};
use oracle::generate::*;
use oracle::reasons::{LIST_TOO_LONG, TABLES_DISAGREE, TABLE_TOO_SHORT, UNKNOWN_TERM};

const FILES: u64 = 12;

fn too_long(terms: u64, random: &mut Random) -> Vec<u64> {
    flip_list_of(FlipListKind::PastLimit, &NARROW, terms, random)
}

/// A list with this term at this place.
fn with(mut list: Vec<u64>, place: usize, term: u64) -> Vec<u64> {
    list[place] = term;
    list
}

#[test]
fn an_unknown_term_first_in_the_middle_or_last_refuses_the_whole_list() {
    for_each_file(0..FILES, agreeing, |sides, random| {
        let terms = sides.counts.terms;
        let list = few_flips(terms, random);
        for place in [0, list.len() / 2, list.len() - 1] {
            for term in [terms, terms + 1, 2 * terms, 2_048, 32_768, 65_535] {
                sides.refuse(&with(list.clone(), place, term), UNKNOWN_TERM);
            }
            sides.apply(&with(list.clone(), place, terms - 1));
        }
        sides.refuse(&[terms], UNKNOWN_TERM);
    });
}

#[test]
fn an_unknown_term_at_either_end_refuses_a_list_of_65_536() {
    for_each_file([1], agreeing, |sides, random| {
        let terms = sides.counts.terms;
        let list = flip_list_of(FlipListKind::AtLimit, &NARROW, terms, random);
        for place in [0, 65_535] {
            sides.refuse(&with(list.clone(), place, terms), UNKNOWN_TERM);
        }
    });
}

#[test]
fn where_2_048_terms_stand_2_047_is_known_and_2_048_is_not() {
    let mut sides = Sides::start();
    let random = &mut Random::new(2);
    let text = clause_text_of(TextKind::TermsAtLimit, &NARROW, random);
    sides.lend("seed 2".into(), holding(&text, random));
    sides.apply(&[2_047, 0, 2_047, 2_047]);
    sides.refuse(&[0, 1, 2_048], UNKNOWN_TERM);
}

#[test]
fn a_table_too_short_is_reason_1_whatever_else_is_wrong() {
    for make in [agreeing, disagreeing] {
        for_each_shorter(make, |sides, random| {
            let terms = sides.counts.terms;
            let list = few_flips(terms, random);
            sides.refuse(&[], TABLE_TOO_SHORT);
            sides.refuse(&list, TABLE_TOO_SHORT);
            sides.refuse(&with(list, 0, terms), TABLE_TOO_SHORT);
            sides.refuse(&too_long(terms, random), TABLE_TOO_SHORT);
        });
    }
}

#[test]
fn a_list_too_long_is_reason_14_on_tables_that_disagree_too() {
    for make in [agreeing, disagreeing] {
        for_each_file(0..3, make, |sides, random| {
            let terms = sides.counts.terms;
            let list = too_long(terms, random);
            sides.refuse(&list, LIST_TOO_LONG);
            sides.refuse(&with(list.clone(), 0, terms), LIST_TOO_LONG);
            sides.refuse(&with(list, 65_536, terms), LIST_TOO_LONG);
        });
    }
}

#[test]
fn tables_that_disagree_are_reason_12_for_an_unknown_term_and_the_empty_list_too() {
    for_each_file(0..FILES, disagreeing, |sides, random| {
        let terms = sides.counts.terms;
        let list = few_flips(terms, random);
        sides.refuse(&[], TABLES_DISAGREE);
        sides.refuse(&with(list.clone(), 0, terms), TABLES_DISAGREE);
        sides.refuse(&with(list, 0, 65_535), TABLES_DISAGREE);
    });
}

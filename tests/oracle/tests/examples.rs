//! Every example of document 01, by name, and as document 02 changes it.

mod common;

use common::*;
use oracle::draw::{choice, draw};
use oracle::flips::flip;
use oracle::walk::walk;
use oracle::{Limits, Order};

/// What the program's example prints.
const FOUND_BY_ONE_FLIP: &str = "result=found\nwalks=1\nflips=1\nchosen=2\nanswer=a b\n";

#[test]
fn seed_1_draws_270369_then_67634689_then_2647435461() {
    let first = draw(1);
    let second = draw(first.state);
    let third = draw(second.state);
    let numbers = [first, second, third].map(|drawn| drawn.number);
    assert_eq!(numbers, [270369, 67634689, 2647435461]);
}

#[test]
fn draw_67634689_chooses_1_among_3() {
    let chosen = choice(270369, 3);
    assert_eq!(
        (chosen.reason, chosen.number, chosen.state),
        (0, 1, 67634689)
    );
}

#[test]
fn a_b_and_not_a_b_start_with_a_only_and_clause_1_uncovered() {
    let (answer, tables) = walked("a b\n~a b\n", &Order { flips: 0, ..ORDER });
    assert_eq!((answer.result, answer.counts.uncovered), (2, 1));
    assert_eq!(tables.values[0], 1);
    assert_eq!(tables.uncovered[0], 1);
    assert_eq!(tables.breaks[..2], [1, 0]);
}

#[test]
fn a_b_and_not_a_b_find_by_flipping_b() {
    let (answer, tables) = walked("a b\n~a b\n", &ORDER);
    assert_eq!(ended(answer), [1, 1, 1]);
    assert_eq!(answer.counts.uncovered, 0);
    assert_eq!(tables.values[0], 3);
}

#[test]
fn a_and_not_a_with_two_flips_give_up() {
    let (answer, _) = walked("a\n~a\n", &Order { flips: 2, ..ORDER });
    assert_eq!(ended(answer), [2, 1, 2]);
}

#[test]
fn a_a_is_one_clause_of_one_literal() {
    let (counts, tables) = accepted("a a\n");
    assert_eq!(held(counts), [1, 1, 1]);
    assert_eq!(tables.starts[..2], [0, 1]);
}

#[test]
fn a_not_a_then_b_is_one_clause_and_two_terms() {
    let (counts, _) = accepted("a ~a\nb\n");
    assert_eq!(held(counts), [2, 1, 1]);
}

#[test]
fn a_not_a_then_b_is_found_after_one_flip_with_answer_a_b() {
    assert_eq!(printed(GOOD_SHEET, "a ~a\nb\n"), FOUND_BY_ONE_FLIP);
}

#[test]
fn a_comment_alone_is_reason_9_line_0() {
    assert_refused("~ note\n", 9, 0);
}

#[test]
fn empty_text_is_reason_9() {
    assert_refused("", 9, 0);
}

#[test]
fn a_name_of_eight_bytes_is_read() {
    let (counts, tables) = accepted("abcdefgh\n");
    assert_eq!(counts.terms, 1);
    assert_eq!(tables.names[0].to_le_bytes(), *b"abcdefgh");
}

#[test]
fn a_name_of_nine_bytes_is_reason_5_line_1() {
    assert_refused("abcdefghi\n", 5, 1);
}

#[test]
fn a_tilde_inside_a_name_is_reason_4_line_1() {
    assert_refused("a~b\n", 4, 1);
}

#[test]
fn a_without_byte_10_is_reason_3() {
    assert_refused("a", 3, 0);
}

#[test]
fn an_empty_line_alone_is_reason_15_line_1() {
    assert_refused("\n", 15, 1);
}

#[test]
fn a_then_an_empty_line_is_reason_15_line_2() {
    assert_refused("a\n\n", 15, 2);
}

#[test]
fn a_tab_after_true_and_a_space_is_dropped_unread() {
    assert_refused("a ~ \t\n", 9, 0);
}

#[test]
fn a_tab_directly_after_tilde_is_reason_4_line_1() {
    assert_refused("a ~\t\n", 4, 1);
}

#[test]
fn the_limits_are_those_of_the_document() {
    let Limits {
        text,
        terms,
        clauses,
        literals,
        list,
    } = NARROW;
    assert_eq!(
        [text, terms, clauses, literals, list],
        [65_536, 2_048, 8_192, 16_384, 65_536]
    );
}

#[test]
fn the_full_sizes_and_bits_are_those_of_the_document() {
    let sizes = [
        2_048, 64, 8_193, 16_384, 4_097, 16_384, 8_192, 2_048, 8_192, 8_192, 2_048,
    ];
    assert_eq!(NARROW.full_sizes(), sizes);
    assert_eq!(
        NARROW.entry_bits(),
        [64, 32, 16, 16, 16, 16, 16, 16, 16, 16, 8]
    );
}

#[test]
fn the_most_terms_are_read() {
    let (counts, _) = accepted(text_of_terms(NARROW.terms));
    assert_eq!(counts.terms, NARROW.terms as u64);
}

#[test]
fn one_term_more_is_reason_6() {
    let last_line = (NARROW.terms + 1).div_ceil(8) as u64;
    assert_refused(text_of_terms(NARROW.terms + 1), 6, last_line);
}

#[test]
fn the_most_clauses_are_read() {
    let (counts, _) = accepted(text_of_clauses(NARROW.clauses));
    assert_eq!(counts.clauses, NARROW.clauses as u64);
}

#[test]
fn one_clause_more_is_reason_8() {
    assert_refused(
        text_of_clauses(NARROW.clauses + 1),
        8,
        NARROW.clauses as u64 + 1,
    );
}

#[test]
fn the_most_literals_are_read() {
    let (counts, _) = accepted(text_of_literals(NARROW.literals));
    assert_eq!(counts.literals, NARROW.literals as u64);
}

#[test]
fn one_literal_more_is_reason_7() {
    let last_line = (NARROW.literals + 1).div_ceil(2) as u64;
    assert_refused(text_of_literals(NARROW.literals + 1), 7, last_line);
}

#[test]
fn the_most_bytes_are_read() {
    let (counts, _) = accepted("~\n".repeat(NARROW.text / 2 - 1) + "a\n");
    assert_eq!(counts.clauses, 1);
}

#[test]
fn one_byte_more_is_reason_2() {
    assert_refused("~\n".repeat(NARROW.text / 2 - 1) + "a \n", 2, 0);
}

#[test]
fn a_program_input_of_the_most_bytes_is_read_and_one_more_is_reason_2() {
    let spaces = " ".repeat(NARROW.text - GOOD_SHEET.len() - 2);
    assert!(printed(GOOD_SHEET, format!("a{spaces}\n")).starts_with("result=found\n"));
    assert_eq!(printed(GOOD_SHEET, format!("a {spaces}\n")), refusal(2, 0));
}

#[test]
fn seed_0_is_reason_11() {
    assert_reason_11(Order { seed: 0, ..ORDER });
    let sheet = GOOD_SHEET.replace("seed=1\n", "seed=0\n");
    assert_eq!(printed(&sheet, "a\n"), refusal(11, 1));
}

#[test]
fn bias_1001_is_reason_11() {
    assert_reason_11(Order {
        bias: 1001,
        ..ORDER
    });
    let sheet = GOOD_SHEET.replace("400", "1001");
    assert_eq!(printed(&sheet, "a\n"), refusal(11, 4));
}

/// A walk refused with reason 11 leaves everything as it was.
fn assert_reason_11(order: Order) {
    let (counts, mut tables) = accepted("a b\n~a b\n");
    let before = tables.clone();
    let answer = walk(&NARROW, &order, counts, &mut tables);
    assert_eq!((answer.result, answer.reason), (0, 11));
    assert_eq!((answer.walks, answer.flips, answer.counts), (0, 0, counts));
    assert_eq!(tables, before);
}

#[test]
fn flips_0_with_a_covering_start_is_found() {
    let (answer, tables) = walked("a ~b\n", &Order { flips: 0, ..ORDER });
    assert_eq!(ended(answer), [1, 1, 0]);
    assert_eq!(tables.values[0], 1);
}

#[test]
fn the_program_prints_the_whole_example() {
    assert_eq!(printed(GOOD_SHEET, "a b\n~a b\n"), FOUND_BY_ONE_FLIP);
}

#[test]
fn a_good_sheet_over_empty_text_prints_reason_9() {
    assert_eq!(
        printed(GOOD_SHEET, ""),
        "result=refused\nreason=9\nline=0\n"
    );
}

#[test]
fn giving_up_prints_chosen_0_and_answer_tilde_question_mark() {
    let sheet = GOOD_SHEET.replace("flips=10", "flips=2");
    let lines = printed(&sheet, "a\n~a\n");
    assert_eq!(
        lines,
        "result=gaveup\nwalks=1\nflips=2\nchosen=0\nanswer=~?\n"
    );
}

#[test]
fn error_a_repeated_literal_is_not_counted_twice() {
    let (_, tables) = walked("b a b a\n~a\n", &Order { flips: 0, ..ORDER });
    assert_eq!(tables.values[0], 1);
    assert_eq!(tables.trues[..2], [1, 1]);
    assert_eq!(tables.breaks[..2], [1, 1]);
}

#[test]
fn error_the_break_count_falls_on_the_term_that_stood_alone() {
    let (counts, mut tables) = accepted("a b\n");
    let first = flip(&NARROW, &[0], counts, &mut tables);
    assert_eq!(tables.breaks[..2], [1, 0]);
    flip(&NARROW, &[1], first.counts, &mut tables);
    assert_eq!(tables.breaks[..2], [0, 0]);
    assert_eq!(tables.trues[0], 2);
}

#[test]
fn error_the_place_of_the_entry_that_moves_is_corrected() {
    let (counts, mut tables) = accepted("a\nb\nc\n");
    assert_eq!(tables.uncovered[..3], [0, 1, 2]);
    let answer = flip(&NARROW, &[0], counts, &mut tables);
    assert_eq!(answer.counts.uncovered, 2);
    assert_eq!(tables.uncovered[..3], [2, 1, 0]);
    assert_eq!(tables.places[..3], [0, 1, 0]);
}

#[test]
fn step_5_lets_clauses_leave_first_and_puts_new_ones_at_the_end() {
    let (counts, mut tables) = accepted("a\nb\n~a\nc\n~a ~c\n");
    assert_eq!(tables.uncovered[..4], [0, 1, 3, 0]);
    let first = flip(&NARROW, &[0], counts, &mut tables);
    assert_eq!(first.counts.uncovered, 3);
    assert_eq!(tables.uncovered[..4], [3, 1, 2, 0]);
    assert_eq!(tables.places[..5], [0, 1, 2, 0, 0]);
    let second = flip(&NARROW, &[2], first.counts, &mut tables);
    assert_eq!(second.counts.uncovered, 3);
    assert_eq!(tables.uncovered[..4], [2, 1, 4, 0]);
    assert_eq!(tables.places[..5], [0, 1, 0, 0, 2]);
}

//! One test for each open point of the readings.

mod common;

use common::*;
use oracle::agree::agree;
use oracle::draw::{choice, choice_even, draw, draws_from, heads};
use oracle::flips::flip;
use oracle::limits::TABLES;
use oracle::pins::{lift, pin};
use oracle::reader::{pack, Reader, Told};
use oracle::reading::read;
use oracle::sheet::read_sheet;
use oracle::walk::walk;
use oracle::{run, run_on, Order, Tables};

/// All that a reader tells, up to the end or a fault.
fn told(text: impl AsRef<[u8]>) -> Vec<(Told, u64)> {
    told_by(&mut Reader::new(text.as_ref()))
}

fn told_by(reader: &mut Reader) -> Vec<(Told, u64)> {
    let mut items = Vec::new();
    loop {
        let item = reader.next();
        items.push((item.told, item.line));
        if matches!(item.told, Told::TextEnd | Told::Fault(_)) {
            return items;
        }
    }
}

/// The end or the fault that a reader comes to.
fn first_end(reader: &mut Reader) -> (Told, u64) {
    *told_by(reader).last().expect("an end is told")
}

fn last_told(text: impl AsRef<[u8]>) -> Told {
    first_end(&mut Reader::new(text.as_ref())).0
}

fn literal(text: &str) -> Told {
    let name = text.trim_start_matches('~');
    Told::Literal {
        name: pack(name.as_bytes()),
        negated: name != text,
    }
}

#[test]
fn any_number_of_spaces_separates_literals() {
    let (counts, tables) = accepted("  a   b  \n");
    assert_eq!(held(counts), [2, 1, 2]);
    assert_eq!(tables.literals[..2], [0, 2]);
}

#[test]
fn a_line_may_be_as_long_as_the_text() {
    let one_line = "a".to_owned() + &" ".repeat(NARROW.text - 2) + "\n";
    assert_eq!(one_line.len(), NARROW.text);
    assert_eq!(accepted(one_line).0.literals, 1);
    let repeats = "a ".repeat(NARROW.text / 2 - 1) + "a\n";
    assert_eq!(accepted(repeats).0.literals, 1);
}

#[test]
fn clauses_stay_in_file_order_and_literals_in_reading_order() {
    let (counts, tables) = accepted("b a\n~ note\n~a c\n");
    assert_eq!(held(counts), [3, 2, 4]);
    assert_eq!(tables.names[..3], [98, 97, 99]);
    assert_eq!(tables.starts[..3], [0, 2, 4]);
    assert_eq!(tables.literals[..4], [0, 2, 3, 4]);
}

#[test]
fn point_01_a_cut_text_is_3_before_its_bytes_are_judged() {
    for text in ["a\tb", "abcdefghi"] {
        assert_refused(text, 3, 0);
        assert_eq!(printed(GOOD_SHEET, text), refusal(3, 0));
    }
    assert_eq!(last_told("a\tb"), Told::Fault(4));
    assert_eq!(last_told("abcdefghi"), Told::Fault(5));
}

#[test]
fn point_02_what_follows_eight_bytes() {
    assert_refused("abcdefgh~\n", 4, 1);
    assert_refused("abcdefgh\x7f\n", 4, 1);
    assert_refused("~abcdefghi\n", 5, 1);
    assert_refused("~~\n", 4, 1);
    accepted("~abcdefgh\n");
}

#[test]
fn point_03_the_byte_after_a_literal_comes_before_dropping_or_skipping() {
    assert_refused("a a\t\nb\n", 4, 1);
    assert_refused("a ~a\t\nb\n", 4, 1);
    assert_eq!(accepted("a ~a \t\nb\n").0.clauses, 1);
}

#[test]
fn point_04_terms_stay_known_up_to_the_drop_point() {
    assert_eq!(accepted("a ~ b\nc\n").0.terms, 2);
    assert!(printed(GOOD_SHEET, "a ~ b\nc\n").ends_with("answer=a c\n"));
}

#[test]
fn point_05_reason_7_counts_the_open_line() {
    let nearly = text_of_literals(NARROW.literals - 1);
    let full = text_of_literals(NARROW.literals);
    let line = NARROW.literals as u64 / 2 + 1;
    accepted(nearly.clone() + "! ~!\n");
    accepted(nearly.clone() + "! ! ~!\n");
    assert_refused(nearly + "! \" ~!\n", 7, line);
    assert_refused(full.clone() + "! !\n", 7, line);
    accepted(full + "~ x\n");
    let terms = text_of_terms(NARROW.terms);
    assert_refused(terms + "new ~\n", 6, NARROW.terms as u64 / 8 + 1);
}

#[test]
fn point_06_6_before_7_and_8_only_at_the_end_of_a_kept_line() {
    let terms = text_of_terms(NARROW.terms);
    let both = terms.clone() + &text_of_literals(NARROW.literals - NARROW.terms);
    let line = both.lines().count() as u64 + 1;
    assert_refused(both.clone() + "new\n", 6, line);
    assert_refused(both + "!\n", 7, line);
    let clauses = text_of_clauses(NARROW.clauses);
    let line = NARROW.clauses as u64 + 1;
    assert_refused(clauses.clone() + "!\t\n", 4, line);
    accepted(clauses.clone() + "! ~!\n");
    assert_refused(clauses.clone() + "~\n!\n", 8, line + 1);
    assert_refused(clauses + "\n!\n", 15, line);
}

#[test]
fn point_07_reason_9_after_terms_were_met_leaves_zeros() {
    assert_refused("a ~a\n", 9, 0);
}

#[test]
fn point_08_places_count_from_0() {
    let (counts, tables) = accepted("a\n~b\nc\n");
    assert_eq!(counts.uncovered, 2);
    assert_eq!(tables.uncovered[..3], [0, 2, 0]);
    assert_eq!(tables.places[..3], [0, 0, 1]);
}

#[test]
fn point_09_starts_past_the_last_are_0_and_occurrences_rise() {
    let (_, tables) = accepted("b a\na\n~b a\n");
    assert_eq!(tables.starts[..6], [0, 2, 3, 5, 0, 0]);
    assert_eq!(tables.literals[..6], [0, 2, 2, 1, 2, 0]);
    assert_eq!(tables.occurrence_starts[..7], [0, 1, 2, 5, 5, 0, 0]);
    assert_eq!(tables.occurrences[..6], [0, 2, 0, 1, 2, 0]);
}

#[test]
fn point_10_after_true_or_passing_the_reader_stands_on_the_lines_end() {
    let items = told("a ~ \t\x7f\nb\n");
    let expected = [
        (literal("a"), 1),
        (Told::True, 1),
        (Told::LineEnd, 1),
        (literal("b"), 2),
        (Told::LineEnd, 2),
        (Told::TextEnd, 3),
    ];
    assert_eq!(items, expected);
    let mut reader = Reader::new(b"a \t\nb\n");
    reader.next();
    reader.pass();
    assert_eq!(reader.next().told, Told::LineEnd);
    assert_eq!(reader.next().told, literal("b"));
}

#[test]
fn point_11_passing_right_after_a_lines_end_passes_the_next_line() {
    let mut reader = Reader::new(b"a\nb \t\nc\n");
    reader.next();
    assert_eq!(reader.next().told, Told::LineEnd);
    reader.pass();
    let item = reader.next();
    assert_eq!((item.told, item.line), (Told::LineEnd, 2));
    assert_eq!(reader.next().told, literal("c"));
}

#[test]
fn point_11_passing_after_a_fault_goes_to_the_end_of_its_line() {
    let faulty = [("\t\na\n", 4), ("b ~~ c\na\n", 4), ("abcdefghi\na\n", 5)];
    for (text, reason) in faulty {
        let mut reader = Reader::new(text.as_bytes());
        assert_eq!(first_end(&mut reader), (Told::Fault(reason), 1), "{text}");
        reader.pass();
        let told = [reader.next(), reader.next()].map(|item| (item.told, item.line));
        assert_eq!(told, [(Told::LineEnd, 1), (literal("a"), 2)], "{text}");
    }
}

#[test]
fn point_11_passing_a_line_that_is_cut_ends_in_3() {
    for (text, told) in [("a\n\tb", 4), ("\nabcdefghi", 5), ("a\nb", 3)] {
        let mut reader = Reader::new(text.as_bytes());
        assert_eq!(first_end(&mut reader), (Told::Fault(told), 2), "{text}");
        reader.pass();
        assert_eq!(first_end(&mut reader), (Told::Fault(3), 2), "{text}");
    }
}

#[test]
fn point_11_at_the_texts_end_passing_changes_nothing() {
    for (text, line) in [("", 1), ("a\n", 2), ("~ \t\n\n", 3)] {
        let mut reader = Reader::new(text.as_bytes());
        assert_eq!(first_end(&mut reader), (Told::TextEnd, line), "{text}");
        reader.pass();
        assert_eq!(first_end(&mut reader), (Told::TextEnd, line), "{text}");
    }
}

#[test]
fn point_12_each_item_has_its_own_line() {
    let items = told("a\n\n ~b \n");
    let lines: Vec<u64> = items.iter().map(|item| item.1).collect();
    assert_eq!(lines, [1, 1, 2, 3, 3, 4]);
    let longest = "\n".repeat(NARROW.text);
    assert_eq!(
        told(longest).last(),
        Some(&(Told::TextEnd, NARROW.text as u64 + 1))
    );
}

#[test]
fn point_13_a_cut_text_ends_in_3() {
    for text in ["~", "a", "a ", "~a", "a\nb", " ", "abcdefgh"] {
        assert_eq!(last_told(text), Told::Fault(3), "{text}");
    }
    assert_eq!(told("~ "), [(Told::True, 1), (Told::Fault(3), 1)]);
    assert_eq!(last_told("abcdefghi"), Told::Fault(5));
    assert_eq!(last_told("a\n"), Told::TextEnd);
}

#[test]
fn point_14_the_reader_does_not_test_reason_2() {
    let long = "a\n".repeat(NARROW.text);
    assert_eq!(last_told(long), Told::TextEnd);
}

#[test]
fn point_15_state_0_is_reason_11_for_choice_and_heads_too() {
    for drawn in [
        draw(0),
        choice(0, 3),
        heads(0, 400),
        choice(5, 0),
        heads(5, 1001),
    ] {
        assert_eq!((drawn.reason, drawn.number), (11, 0));
    }
    assert_eq!(choice(5, 0).state, 5);
    assert_eq!(heads(5, 1001).state, 5);
    assert_eq!(draw(0).state, 0);
    assert_eq!((heads(1, 370).number, heads(1, 369).number), (1, 0));
    assert_eq!(heads(1, 369).state, 270369);
}

#[test]
fn point_16_which_draws_a_flip_takes() {
    // From seed 1 terms 1 to 4 start at 0, so these clauses without ~ start uncovered.
    let cases = [
        ("t1\nt2\n", 1000, 1),
        ("t1 t3\nt2 t4\n", 1000, 2),
        ("t1\n~t1\n", 0, 2),
        ("t1\n~t1\n", 1000, 3),
        ("t1 t2\n~t1\n~t2\n~t2\n", 0, 2),
        ("t1 t2\n~t1\n~t2\n~t2\n", 1000, 3),
        ("t1 t2\n~t1\n~t2\n", 0, 3),
        ("t1 t2\n~t1\n~t2\n", 1000, 3),
    ];
    for (clauses, bias, draws) in cases {
        assert_eq!(
            draws_of_the_first_walk(clauses, bias, &[]),
            draws,
            "{clauses} {bias}"
        );
    }
}

/// The draws after the start in a walk of one flip, with these terms pinned at 0. Terms 5 to 31 stand in no clause, so their values tell
/// which draw began the second walk.
fn draws_of_the_first_walk(clauses: &str, bias: u64, pinned: &[u64]) -> usize {
    let known: Vec<String> = (0..32).map(|term| format!("t{term}")).collect();
    let (counts, mut tables) = accepted(format!("{} ~\n{clauses}", known.join(" ")));
    for term in pinned {
        let answer = pin(&NARROW, *term, 0, counts, &mut tables);
        assert_eq!((answer.reason, answer.counts), (0, counts));
    }
    let order = Order {
        flips: 1,
        walks: 2,
        bias,
        ..ORDER
    };
    let answer = walk(&NARROW, &order, counts, &mut tables);
    assert_eq!((answer.reason, answer.walks, tables.values[1]), (0, 2, 0));
    let begins = |draw: u32| u64::from(draw) >> 5 == tables.values[0] >> 5;
    let second_start = draws_from(1)
        .take(20)
        .position(begins)
        .expect("a draw began the walk");
    second_start - 1
}

#[test]
fn point_17_the_last_allowed_flip_may_find() {
    let (answer, _) = walked("a b\n~a b\n", &Order { flips: 1, ..ORDER });
    assert_eq!((answer.result, answer.flips), (1, 1));
}

#[test]
fn point_18_a_leaving_clause_that_is_last_moves_nothing() {
    let (counts, mut tables) = accepted("a\nb\nc\n");
    let answer = flip(&NARROW, &[2], counts, &mut tables);
    assert_eq!(answer.counts.uncovered, 2);
    assert_eq!(tables.uncovered[..3], [0, 1, 0]);
    assert_eq!(tables.places[..3], [0, 1, 0]);
}

#[test]
fn point_19_giving_up_leaves_the_last_walks_end() {
    let order = Order {
        flips: 0,
        walks: 2,
        ..ORDER
    };
    let (answer, tables) = walked("a\n~a\nb\n", &order);
    assert_eq!(ended(answer), [2, 2, 0]);
    assert_eq!(tables.values[0], 67634689 & 3);
    let uncovered = tables.uncovered[..answer.counts.uncovered as usize].to_vec();
    assert_eq!(uncovered, [1, 2]);
}

#[test]
fn point_20_tables_of_a_refused_reading_never_agree() {
    let (answer, tables) = read_narrow("");
    for (seed, reason) in [(0, 11), (1, 12)] {
        let mut lent = tables.clone();
        let order = Order { seed, ..ORDER };
        assert_eq!(
            walk(&NARROW, &order, answer.counts, &mut lent).reason,
            reason
        );
        lent.places.pop();
        assert_eq!(walk(&NARROW, &order, answer.counts, &mut lent).reason, 1);
    }
}

#[test]
fn point_21_a_flip_list_tests_1_14_12_13() {
    let (counts, tables) = accepted("a\nb\n");
    let longest = vec![2; NARROW.list];
    let too_long = vec![2; NARROW.list + 1];
    let mut broken = tables.clone();
    broken.trues[0] = 1;
    let mut short = broken.clone();
    short.values.pop();
    let reason = |list: &[u64], tables: &Tables| {
        let mut lent = tables.clone();
        let answer = flip(&NARROW, list, counts, &mut lent);
        assert_eq!((&lent, answer.counts), (tables, counts));
        answer.reason
    };
    assert_eq!(reason(&too_long, &short), 1);
    assert_eq!(reason(&too_long, &broken), 14);
    assert_eq!(reason(&longest, &broken), 12);
    assert_eq!(reason(&longest, &tables), 13);
    assert_eq!(reason(&[0, 1, 2], &tables), 13);
}

#[test]
fn point_22_any_counts_and_starts_are_12() {
    let (counts, tables) = accepted("a b\n~a b\n");
    for wild in [3, 65_535, u64::from(u32::MAX), u64::MAX] {
        for count in 0..4 {
            let mut changed = counts;
            *changed.all_mut()[count] = wild;
            let mut lent = tables.clone();
            assert_eq!(walk(&NARROW, &ORDER, changed, &mut lent).reason, 12);
        }
        for table in 2..TABLES {
            let mut lent = tables.clone();
            lent.all_mut()[table][1] = wild;
            assert_eq!(walk(&NARROW, &ORDER, counts, &mut lent).reason, 12);
        }
    }
}

#[test]
fn point_23_the_rest_is_0() {
    let (counts, tables) = accepted("a b\n~a b\n~a ~b\n");
    assert!(agree(&NARROW, &counts, &tables));
    let spoiled = |spoil: fn(&mut Tables)| {
        let mut lent = tables.clone();
        spoil(&mut lent);
        agree(&NARROW, &counts, &lent)
    };
    assert!(!spoiled(|tables| tables.places[1] = 1));
    assert!(!spoiled(|tables| tables.uncovered[1] = 1));
    assert!(!spoiled(|tables| tables.values[0] = 1 << 2));
    assert!(!spoiled(|tables| tables.values[1] = 1));
    assert!(!spoiled(|tables| tables.starts[4] = 6));
    assert!(!spoiled(|tables| tables.occurrence_starts[5] = 6));
    assert!(!spoiled(|tables| tables.names[2] = 33));
}

#[test]
fn point_24_the_first_faulty_sheet_line_is_named() {
    let cases = [
        ("seed=0", 10, 1),
        ("seed=0\n", 11, 1),
        ("", 10, 1),
        ("seed=1\n", 10, 2),
    ];
    for (input, reason, line) in cases {
        assert_eq!(printed(input, ""), refusal(reason, line), "{input:?}");
    }
}

#[test]
fn point_25_numbers_have_one_to_ten_digits() {
    let cases = [
        ("4294967297", 11),
        ("4294967296", 11),
        ("9999999999", 11),
        ("10000000000", 10),
        ("00", 10),
        ("01", 10),
        ("1 ", 10),
        ("1\r", 10),
        ("", 10),
    ];
    for (number, reason) in cases {
        let sheet = GOOD_SHEET.replace("seed=1\n", &format!("seed={number}\n"));
        assert_eq!(printed(&sheet, "a\n"), refusal(reason, 1), "{number:?}");
    }
    let highest = GOOD_SHEET.replace("seed=1\n", "seed=4294967295\n");
    assert!(printed(&highest, "a\n~b\n").starts_with("result=found\n"));
}

#[test]
fn point_26_the_sheets_reason_11_carries_its_line() {
    let changes = [
        ("seed=1\n", "seed=0\n"),
        ("=10\n", "=100001\n"),
        ("s=1\n", "s=0\n"),
    ];
    for (line, (from, to)) in (1..).zip(changes) {
        assert_eq!(
            printed(&GOOD_SHEET.replace(from, to), "a\n"),
            refusal(11, line)
        );
    }
}

#[test]
fn point_27_a_refused_sheet_returns_zeros() {
    let answer = read_sheet(b"seed=1\nflips=10\nwalks=1\nbias=1001\na\n");
    assert_eq!((answer.result, answer.reason, answer.line), (0, 11, 4));
    assert_eq!((answer.order, answer.text_start), (Order::default(), 0));
    let good = read_sheet(GOOD_SHEET.as_bytes());
    assert_eq!(
        (good.result, good.order, good.text_start),
        (1, ORDER, GOOD_SHEET.len())
    );
}

#[test]
fn point_28_every_printed_line_ends_with_byte_10() {
    for (text, lines) in [("a b\n~a b\n", 5), ("a\n~a\n", 5), ("", 3)] {
        let printed = printed(GOOD_SHEET, text);
        assert!(printed.ends_with('\n'));
        assert_eq!(printed.matches('\n').count(), lines);
    }
}

#[test]
fn point_29_reason_2_is_tested_on_the_whole_input_first() {
    let most = vec![b'x'; NARROW.text];
    assert_eq!(run(&NARROW, &most), refusal(10, 1).into_bytes());
    let more = vec![b'x'; NARROW.text + 1];
    assert_eq!(run(&NARROW, &more), refusal(2, 0).into_bytes());
}

#[test]
fn point_30_the_result_line_decides() {
    let lines = printed(GOOD_SHEET, "~?\n");
    assert!(lines.starts_with("result=found\n"));
    assert!(lines.ends_with("chosen=0\nanswer=~?\n"));
}

/// Tables and an output, all of full size and not 0.
fn lent_to_a_run() -> (Tables, Vec<u8>) {
    (full_of(&NARROW, 7), vec![b'-'; NARROW.output_size()])
}

/// Runs a good input over these: the three numbers of the answer, and what is left.
fn run_over((mut tables, mut out): (Tables, Vec<u8>)) -> ([u64; 3], (Tables, Vec<u8>)) {
    let input = [GOOD_SHEET, "a\n"].concat();
    let answer = run_on(&NARROW, input.as_bytes(), &mut tables, &mut out);
    let numbers = [answer.result, answer.reason, answer.length];
    (numbers, (tables, out))
}

#[test]
fn point_31_a_short_table_and_a_short_output_are_reason_1() {
    let mut short = vec![lent_to_a_run(); TABLES + 1];
    for (table, (tables, _)) in short[..TABLES].iter_mut().enumerate() {
        tables.all_mut()[table].pop();
    }
    short[TABLES].1.pop();
    for lent in short {
        assert!(run_over(lent.clone()) == ([0, 1, 0], lent));
    }
    let report = printed(GOOD_SHEET, "a\n");
    let (numbers, (_, out)) = run_over(lent_to_a_run());
    assert_eq!(numbers, [1, 0, report.len() as u64]);
    assert!(out.starts_with(report.as_bytes()));
}

#[test]
fn point_32_a_blank_line_is_met_at_its_end_and_a_dropped_line_is_none() {
    assert_refused("  \t\n", 4, 1);
    assert_refused("a\n  ", 3, 0);
    assert_refused(
        text_of_clauses(NARROW.clauses) + "  \n",
        15,
        NARROW.clauses as u64 + 1,
    );
    accepted("~\n~ \na ~a \nb ~\na\n");
    assert_refused("", 9, 0);
}

#[test]
fn point_33_a_line_that_begins_with_choice_is_the_fifth_or_a_fault() {
    let fault = refusal(10, 5);
    for line in [
        "choice=a\n",
        "choice=\n",
        "choice=eve",
        "choice=even",
        "choice=even \n",
        "choice=even\r\n",
    ] {
        assert_eq!(printed(GOOD_SHEET, line), fault, "{line:?}");
    }
    assert_eq!(printed(GOOD_SHEET, "choice"), refusal(3, 0));
    assert_eq!(
        printed(GOOD_SHEET, "choice=even\nchoice=even\n"),
        refusal(5, 1)
    );
    let read = read_sheet(format!("{GOOD_SHEET}choice=even\na\n").as_bytes());
    assert_eq!(
        (read.order.even, read.text_start),
        (1, GOOD_SHEET.len() + 12)
    );
}

#[test]
fn point_34_the_modes_differ_but_among_one() {
    for state in draws_from(1).take(1_000).map(u64::from) {
        assert_eq!(choice_even(state, 1), choice(state, 1));
        for among in 2..20 {
            let (even, plain) = (choice_even(state, among), choice(state, among));
            assert!(even.state != plain.state || even.number != plain.number);
        }
    }
    let eighth = choice_even(8_368, 2_147_483_649);
    assert_eq!(
        (eighth.number, eighth.state),
        (1_264_041_421, 3_411_525_071)
    );
    assert_eq!(draws_from(8_368).nth(7), Some(3_411_525_071));
    for (state, among) in [(0, 3), (7, 0)] {
        assert_eq!(choice_even(state, among), choice(state, among));
    }
}

#[test]
fn point_35_a_list_given_twice_brings_back_the_set_and_not_the_order() {
    let (counts, read) = accepted("a\nb\nc\n");
    let mut tables = read.clone();
    let once = flip(&NARROW, &[0], counts, &mut tables);
    let twice = flip(&NARROW, &[0], once.counts, &mut tables);
    assert_eq!((twice.result, twice.counts), (1, counts));
    assert_eq!(read.uncovered[..3], [0, 1, 2]);
    assert_eq!(tables.uncovered[..3], [2, 1, 0]);
    assert_eq!(tables.places[..3], [2, 1, 0]);
    let mut joined = read.clone();
    flip(&NARROW, &[0, 0], counts, &mut joined);
    assert!(joined == tables);
    let longest = vec![1; NARROW.list];
    for _ in 0..2 {
        assert_eq!(flip(&NARROW, &longest, counts, &mut tables).reason, 0);
    }
    let too_long = longest.repeat(2);
    assert_eq!(flip(&NARROW, &too_long, counts, &mut tables).reason, 14);
    tables.trues[0] = 1;
    let broken = tables.clone();
    assert_eq!(flip(&NARROW, &[], counts, &mut tables).reason, 12);
    assert!(tables == broken);
}

#[test]
fn point_36_which_draws_are_made_among_free_literals() {
    // From seed 1 terms 1 to 4 start at 0, as they are pinned.
    let ties = "t1 t2\nt3 t4\n";
    let broken = "t1 t2\nt3 t4\n~t1\n~t3\n";
    let cases: [(&str, u64, &[u64], usize); 10] = [
        (ties, 0, &[], 2),
        (ties, 0, &[1, 3], 1),
        (ties, 1000, &[2, 4], 1),
        (ties, 0, &[1, 2, 3, 4], 1),
        ("t1\nt2\n", 1000, &[1, 2], 1),
        (broken, 0, &[], 1),
        (broken, 0, &[1, 3], 1),
        (broken, 0, &[2, 4], 2),
        (broken, 1000, &[2, 4], 3),
        (broken, 1000, &[1, 2, 3, 4], 1),
    ];
    for (clauses, bias, pinned, draws) in cases {
        let made = draws_of_the_first_walk(clauses, bias, pinned);
        assert_eq!(made, draws, "{clauses} {bias} {pinned:?}");
    }
}

/// From seed 2 a starts at 0, so `a b` may be chosen and a flipped, but no value of a covers `b`.
#[test]
fn point_36_flips_made_before_a_walk_sticks_count() {
    let (counts, read) = accepted("a b\n~a b\nb\n");
    let mut tables = read.clone();
    pin(&NARROW, 1, 0, counts, &mut tables);
    let order = Order {
        seed: 2,
        flips: 20,
        walks: 2,
        bias: 500,
        ..ORDER
    };
    let answer = walk(&NARROW, &order, counts, &mut tables);
    assert_eq!(ended(answer), [2, 2, 1]);
    assert_eq!(
        (tables.values[0], &tables.uncovered[..3]),
        (0, &[0, 2, 0][..])
    );
}

#[test]
fn point_36_20_is_looked_for_after_13_over_the_whole_list() {
    let (counts, mut tables) = accepted("a b\n~a b\nc d\n");
    pin(&NARROW, 1, 0, counts, &mut tables);
    let before = tables.clone();
    let longest = vec![1; NARROW.list];
    let too_long = vec![1; NARROW.list + 1];
    let lists: [(&[u64], u64); 8] = [
        (&[1, 9], 13),
        (&[9, 1], 13),
        (&[0, 4], 13),
        (&[0, 1], 20),
        (&[1, 1], 20),
        (&[1], 20),
        (&longest, 20),
        (&too_long, 14),
    ];
    for (list, reason) in lists {
        let answer = flip(&NARROW, list, counts, &mut tables);
        assert_eq!(
            (answer.result, answer.reason, answer.counts),
            (0, reason, counts)
        );
        assert!(tables == before);
    }
    assert_eq!(flip(&NARROW, &[0, 2, 3], counts, &mut tables).reason, 0);
}

#[test]
fn point_36_a_term_may_be_pinned_again_and_a_free_one_lifted() {
    let (counts, mut tables) = accepted("a b\n~a b\nc d\n");
    let at_0 = pin(&NARROW, 1, 0, counts, &mut tables);
    assert_eq!((at_0.reason, at_0.counts, tables.marks[1]), (0, counts, 1));
    let at_1 = pin(&NARROW, 1, 1, at_0.counts, &mut tables);
    assert_eq!((at_1.reason, at_1.counts.uncovered), (0, 1));
    assert_eq!((tables.values[0], tables.marks[1]), (2, 2));
    let before = tables.clone();
    let again = pin(&NARROW, 1, 1, at_1.counts, &mut tables);
    let free = lift(&NARROW, 0, at_1.counts, &mut tables);
    assert_eq!((again, free), (at_1, at_1));
    assert!(tables == before);
}

#[test]
fn point_36_reason_1_and_tables_0_take_in_the_marks() {
    let (counts, mut tables) = accepted("a b\n");
    assert!(tables.marks.iter().all(|mark| *mark == 0));
    tables.marks.pop();
    let short = tables.clone();
    let reasons = [
        read(&NARROW, b"", &mut tables).reason,
        walk(&NARROW, &Order { seed: 0, ..ORDER }, counts, &mut tables).reason,
        flip(&NARROW, &[9], counts, &mut tables).reason,
        pin(&NARROW, 9, 0, counts, &mut tables).reason,
        lift(&NARROW, 9, counts, &mut tables).reason,
    ];
    assert_eq!(reasons, [1; 5]);
    assert!(tables == short);
    for (input, left) in [
        (GOOD_SHEET.to_owned() + "a\n", 0),
        (GOOD_SHEET.to_owned() + "a", 0),
        ("a".repeat(NARROW.text + 1), 0),
        ("seed=0\n".to_owned(), 7),
    ] {
        let (mut tables, mut out) = lent_to_a_run();
        run_on(&NARROW, input.as_bytes(), &mut tables, &mut out);
        assert!(tables.marks.iter().all(|mark| *mark == left));
    }
}

#[test]
fn point_36_marks_past_the_terms_are_0_where_tables_agree() {
    let (counts, tables) = accepted("a b\n");
    for entry in [2, 3, NARROW.terms - 1] {
        let mut lent = tables.clone();
        lent.marks[entry] = 1;
        assert!(!agree(&NARROW, &counts, &lent));
    }
    let mut longer = tables.clone();
    longer.marks.push(9);
    assert!(agree(&NARROW, &counts, &longer));
}

#[test]
fn point_37_any_value_but_0_pins_at_1() {
    let (counts, tables) = accepted("a b\n~a b\nc d\n");
    let mut at_1 = tables.clone();
    let expected = pin(&NARROW, 1, 1, counts, &mut at_1);
    assert_eq!((at_1.marks[1], bit(&at_1, 1)), (2, 1));
    for value in [2, 3, 255, 256, 1 << 16, 1 << 31, u64::from(u32::MAX)] {
        let mut lent = tables.clone();
        assert_eq!(pin(&NARROW, 1, value, counts, &mut lent), expected);
        assert!(lent == at_1);
    }
}

//! What document 01 says of the program, its printed example, and the points that are easy to get wrong, one by one.

use boundary::texts::{first_names, last_line, negated, then, unit_lines};
use boundary::{Runs, NARROW};
use oracle::reasons::*;

/// The sheet of document 01's example, by its lines.
const SHEET: [(&str, &str); 4] = [
    ("seed=", "1"),
    ("flips=", "10"),
    ("walks=", "1"),
    ("bias=", "400"),
];

/// The first so many lines of a sheet.
fn lines(sheet: &[(&str, &str)]) -> String {
    let line = |(key, number): &(&str, &str)| format!("{key}{number}\n");
    sheet.iter().map(line).collect()
}

/// That sheet, then a clause text.
fn after_sheet(text: &str) -> Vec<u8> {
    (lines(&SHEET) + text).into_bytes()
}

/// That sheet with another number in one line, counted from 1, then the example's text.
fn with_number(line: usize, number: &str) -> Vec<u8> {
    let mut sheet = SHEET;
    sheet[line - 1].1 = number;
    (lines(&sheet) + "a b\n~a b\n").into_bytes()
}

const FOUND_BY_ONE_FLIP: &str = "result=found\nwalks=1\nflips=1\nchosen=2\nanswer=a b\n";

#[test]
fn the_printed_example_of_the_document() {
    let input = "\
seed=1
flips=10
walks=1
bias=400
a b
~a b
";
    let output = "\
result=found
walks=1
flips=1
chosen=2
answer=a b
";
    Runs::start().prints(input.as_bytes(), output);
}

#[test]
fn the_other_examples_of_the_document() {
    let mut runs = Runs::start();
    runs.prints(
        b"seed=1\nflips=2\nwalks=1\nbias=400\na\n~a\n",
        "result=gaveup\nwalks=1\nflips=2\nchosen=0\nanswer=~?\n",
    );
    runs.prints(&after_sheet("a ~a\nb\n"), FOUND_BY_ONE_FLIP);
    let no_flip = |answer: &str| format!("result=found\nwalks=1\nflips=0\nchosen=1\n{answer}\n");
    runs.prints(&after_sheet("a a\n"), &no_flip("answer=a"));
    runs.prints(&after_sheet("abcdefgh\n"), &no_flip("answer=abcdefgh"));
    let covering = b"seed=1\nflips=0\nwalks=1\nbias=400\na\n~b\n";
    runs.prints(covering, &no_flip("answer=a ~b"));
}

#[test]
fn the_refusals_of_the_document() {
    let mut runs = Runs::start();
    runs.prints(&after_sheet(""), "result=refused\nreason=9\nline=0\n");
    for (text, reason, line) in [
        ("", NO_CLAUSE, 0),
        ("~ note\n", NO_CLAUSE, 0),
        ("\n", BLANK_LINE, 1),
        ("a\n\n", BLANK_LINE, 2),
        ("a ~ \t\n", NO_CLAUSE, 0),
        ("abcdefghi\n", NINTH_BYTE, 1),
        ("a~b\n", BYTE_NOT_ALLOWED, 1),
        ("a ~\t\n", BYTE_NOT_ALLOWED, 1),
        ("a", TEXT_CUT, 0),
    ] {
        runs.refuses(&after_sheet(text), reason, line);
    }
    runs.refuses(&with_number(1, "0"), OUT_OF_RANGE, 1);
    runs.refuses(&with_number(4, "1001"), OUT_OF_RANGE, 4);
}

#[test]
fn point_24_a_line_that_is_missing_or_lacks_its_byte_10_is_reason_10() {
    let mut runs = Runs::start();
    runs.refuses(b"seed=0", SHEET_FORM, 1);
    runs.refuses(b"seed=0\n", OUT_OF_RANGE, 1);
    runs.refuses(b"", SHEET_FORM, 1);
    runs.refuses(b"seed=1\n", SHEET_FORM, 2);
    for line in 1..=4 {
        let before = lines(&SHEET[..line - 1]);
        runs.refuses(before.as_bytes(), SHEET_FORM, line as u64);
        let (key, number) = SHEET[line - 1];
        for number in [number, "99999999999", "4294967297", "", "x"] {
            let cut = format!("{before}{key}{number}");
            runs.refuses(cut.as_bytes(), SHEET_FORM, line as u64);
        }
    }
}

#[test]
fn point_24_a_key_that_is_cut_or_another_is_reason_10() {
    let mut runs = Runs::start();
    for line in 1..=4 {
        let (before, after) = (lines(&SHEET[..line - 1]), lines(&SHEET[line..]));
        let (key, number) = SHEET[line - 1];
        let cut = (0..key.len()).map(|end| key[..end].to_string());
        let put = |at: usize, put: &str| format!("{}{put}{}", &key[..at], &key[at + 1..]);
        let changed = (0..key.len()).flat_map(|at| ["", "x"].map(|letter| put(at, letter)));
        let others = SHEET.iter().map(|other| other.0.to_string());
        let written = [key.to_uppercase(), key.repeat(2), format!(" {key}")];
        let keys = cut.chain(changed).chain(others).chain(written);
        for wrong in keys.filter(|wrong| wrong != key) {
            for number in [number, ""] {
                let input = format!("{before}{wrong}{number}\n{after}a\n");
                runs.refuses(input.as_bytes(), SHEET_FORM, line as u64);
            }
        }
    }
}

#[test]
fn point_24_the_first_faulty_line_is_named_by_its_own_fault() {
    let mut runs = Runs::start();
    let faults = [("", SHEET_FORM), ("4294967297", OUT_OF_RANGE)];
    for (number, reason) in faults {
        for first in 1..=4 {
            for (later, _) in faults {
                let mut sheet = SHEET;
                sheet[first - 1].1 = number;
                sheet[first..].iter_mut().for_each(|line| line.1 = later);
                let input = lines(&sheet) + "\t\n";
                runs.refuses(input.as_bytes(), reason, first as u64);
            }
        }
    }
}

#[test]
fn point_25_numbers_of_another_form_are_reason_10() {
    let mut runs = Runs::start();
    for line in 1..=4 {
        for number in [
            "10000000000",
            "00000000001",
            "00",
            "01",
            "010",
            "1 ",
            " 1",
            "1\r",
            "1\t",
            "",
            "-1",
            "+1",
            "1.",
            "0x1",
            "1a",
            "1/",
            "1:",
            "a",
            "=1",
            "1=",
            "1\0",
            "\u{661}",
        ] {
            runs.refuses(&with_number(line, number), SHEET_FORM, line as u64);
        }
    }
}

#[test]
fn point_25_ten_digits_past_32_bits_are_reason_11() {
    let mut runs = Runs::start();
    for line in 1..=4 {
        for number in [
            "4294967296",
            "4294967297",
            "4294967306",
            "8589934593",
            "9999999999",
        ] {
            runs.refuses(&with_number(line, number), OUT_OF_RANGE, line as u64);
        }
    }
}

#[test]
fn point_26_a_number_out_of_range_is_reason_11_with_its_line() {
    let mut runs = Runs::start();
    for (line, number) in [
        (1, "0"),
        (1, "4294967296"),
        (2, "100001"),
        (2, "4294967295"),
        (3, "0"),
        (3, "1001"),
        (4, "1001"),
        (4, "4294967295"),
    ] {
        runs.refuses(&with_number(line, number), OUT_OF_RANGE, line as u64);
    }
}

#[test]
fn point_26_a_number_at_an_end_of_its_range_is_walked_by() {
    let mut runs = Runs::start();
    for (line, number) in [
        (1, "1"),
        (1, "4294967295"),
        (2, "1"),
        (2, "100000"),
        (3, "1"),
        (3, "1000"),
        (4, "0"),
        (4, "1000"),
    ] {
        let printed = runs.run(&with_number(line, number));
        assert!(printed.starts_with(b"result=found\n"), "{number}");
    }
    let gave_up = "result=gaveup\nwalks=1\nflips=0\nchosen=0\nanswer=~?\n";
    runs.prints(&with_number(2, "0"), gave_up);
}

/// Nothing is begun: neither the tables nor the text are looked at.
#[test]
fn point_27_a_refused_sheet_leaves_all_as_it_was() {
    let mut runs = Runs::start();
    for text in ["a b\n~a b\n", "a\t\n", "a", ""] {
        let input = format!("seed=1\nflips=10\nwalks=1\nbias=1001\n{text}");
        runs.refuses(input.as_bytes(), OUT_OF_RANGE, 4);
        let input = format!("seed=1\nflips=10\nwalks=1\nbias=400 \n{text}");
        runs.refuses(input.as_bytes(), SHEET_FORM, 4);
    }
}

#[test]
fn point_28_every_printed_line_ends_with_byte_10() {
    let mut runs = Runs::start();
    for (text, printed_lines) in [("a b\n~a b\n", 5), ("a\n~a\n", 5), ("", 3)] {
        let printed = runs.run(&after_sheet(text));
        assert_eq!(printed.last(), Some(&b'\n'));
        assert_eq!(last_line(&printed), printed_lines);
    }
    assert_eq!(last_line(&runs.run(b"")), 3);
}

#[test]
fn point_29_reason_2_is_tested_on_the_whole_input_first() {
    let mut runs = Runs::start();
    for byte in [b'x', b'\n', b' ', 0] {
        runs.refuses(&vec![byte; NARROW.text], SHEET_FORM, 1);
        runs.refuses(&vec![byte; NARROW.text + 1], TEXT_TOO_LONG, 0);
    }
    runs.refuses(&[b'x'; 1 << 20], TEXT_TOO_LONG, 0);
    for number in ["1", "0", "", "01"] {
        let long = then(&with_number(1, number), &[b'\n'; 65_536]);
        runs.refuses(&long, TEXT_TOO_LONG, 0);
    }
}

/// A text of that size alone is read, but the sheet counts too.
#[test]
fn point_29_inputs_of_65_536_bytes_are_walked_on_and_of_65_537_are_reason_2() {
    let mut runs = Runs::start();
    let input = after_sheet("a b\n~a b\n~");
    for (filler, more) in [(b' ', 0), (b'~', 1), (b'\n', 1), (b' ', 34), (b'\n', 100)] {
        let mut long = input.clone();
        long.resize(NARROW.text + more - 1, filler);
        long.push(b'\n');
        assert_eq!(long.len(), 65_536 + more);
        match more {
            0 => runs.prints(&long, FOUND_BY_ONE_FLIP),
            _ => runs.refuses(&long, TEXT_TOO_LONG, 0),
        }
    }
}

#[test]
fn point_30_the_result_line_decides() {
    let mut runs = Runs::start();
    runs.prints(
        &after_sheet("~?\n"),
        "result=found\nwalks=1\nflips=1\nchosen=0\nanswer=~?\n",
    );
    runs.prints(
        &after_sheet("?\n"),
        "result=found\nwalks=1\nflips=0\nchosen=1\nanswer=?\n",
    );
    runs.prints(
        &after_sheet("?\n~?\n"),
        "result=gaveup\nwalks=1\nflips=10\nchosen=0\nanswer=~?\n",
    );
}

#[test]
fn lines_count_again_from_1_in_the_clause_text() {
    let mut runs = Runs::start();
    let faulty = [
        ("abcdefghi\n", NINTH_BYTE),
        ("\t\n", BYTE_NOT_ALLOWED),
        (" \n", BLANK_LINE),
    ];
    for before in [0, 1, 2, 3, 4, 5, 9, 254, 255, 256, 32_746] {
        for (line, reason) in faulty {
            let input = after_sheet(&("~\n".repeat(before) + line));
            runs.refuses(&input, reason, before as u64 + 1);
        }
    }
    runs.refuses(&after_sheet(&"a\n".repeat(8_193)), TOO_MANY_CLAUSES, 8_193);
}

/// Such lines are clauses like others; a name has at most 8 bytes.
#[test]
fn a_sheet_after_the_sheet_is_clause_text() {
    let mut runs = Runs::start();
    let printed = runs.run(&after_sheet(&lines(&SHEET)));
    assert!(printed.ends_with(b"answer=seed=1 flips=10 walks=1 bias=400\n"));
    let long = after_sheet("seed=1\nflips=100\nwalks=1\n");
    runs.refuses(&long, NINTH_BYTE, 2);
}

/// Terms known from a dropped line alone are printed too, each in its place.
#[test]
fn the_answer_lists_every_term_in_order() {
    let mut runs = Runs::start();
    let printed = runs.run(&after_sheet("~x y ~\nb\n~a z ~z\n~b ~a\n"));
    let answer = String::from_utf8_lossy(&printed).replace('~', "");
    assert!(answer.ends_with("answer=x y b a z\n"), "{answer}");
    assert!(printed.ends_with(b" b ~a z\n") || printed.ends_with(b" b ~a ~z\n"));
}

#[test]
fn names_of_every_byte_and_of_every_length_are_printed() {
    let mut runs = Runs::start();
    let bytes = (33..=125).map(|byte| char::from(byte).to_string());
    let lengths = (1..=8).map(|length| "AbCdEfGh"[..length].to_string());
    for name in bytes.chain(lengths) {
        for literal in [format!("~{name}"), name] {
            let printed = runs.run(&after_sheet(&format!("{literal}\n")));
            assert!(printed.ends_with(format!("\nanswer={literal}\n").as_bytes()));
        }
    }
}

/// Where the terms fill their last value word, or do not, or leave it; all of them end at 1, or all at 0.
#[test]
fn chosen_counts_the_terms_at_1() {
    let mut runs = Runs::start();
    for terms in [1, 2, 31, 32, 33, 63, 64, 65, 127, 128, 129, 2_047, 2_048] {
        let names = first_names(terms);
        for (literals, chosen) in [(negated(&names), 0), (names, terms)] {
            let sheet = b"seed=9\nflips=100000\nwalks=1\nbias=0\n";
            let printed = runs.run(&then(sheet, &unit_lines(&literals)));
            let lines = String::from_utf8_lossy(&printed);
            assert!(lines.contains(&format!("\nchosen={chosen}\n")), "{terms}");
        }
    }
}

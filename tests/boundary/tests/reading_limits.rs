//! Texts that hold as much as there may be, and one more.

use boundary::texts::*;
use boundary::{Readings, NARROW};
use oracle::generate::limit_texts::{text_full_of_all, text_of_bytes};
use oracle::generate::names::{distinct_names, NameStyle};
use oracle::generate::Random;
use oracle::reasons::*;

#[test]
fn terms_2_048_are_held_and_one_more_is_reason_6() {
    let mut readings = Readings::start("terms");
    for (seed, style) in (0..).zip(NameStyle::ALL) {
        let names = distinct_names(style, NARROW.terms + 1, &mut Random::new(seed));
        let full = unit_lines(&names[..NARROW.terms]);
        let counts = readings.of(format!("{style:?}")).accept(&full);
        assert_eq!(held(counts), [2_048; 3]);
        assert_eq!(
            held(readings.accept(&full.repeat(2))),
            [2_048, 4_096, 4_096]
        );
        readings.refuse(&unit_lines(&names), TOO_MANY_TERMS, 2_049);
        let dropped = [b"~", &names[NARROW.terms][..], b" ~\n"].concat();
        readings.refuse(&then(&full, &dropped), TOO_MANY_TERMS, 2_049);
    }
}

#[test]
fn terms_2_048_in_one_clause_are_held_and_one_more_is_reason_6() {
    let mut readings = Readings::start("one clause");
    let names = first_names(NARROW.terms + 1);
    for (literals, uncovered) in [(negated(&names), 0), (names, 1)] {
        let counts = readings.accept(&one_line(&literals[..NARROW.terms]));
        assert_eq!(held(counts), [2_048, 1, 2_048]);
        assert_eq!(counts.uncovered, uncovered);
        readings.refuse(&one_line(&literals), TOO_MANY_TERMS, 1);
    }
}

#[test]
fn literals_16_384_are_held_and_one_more_is_reason_7() {
    let mut readings = Readings::start("literals");
    for width in [2, 4, 16, 64, 2_048] {
        let clauses = NARROW.literals / width;
        let full = one_line(&first_names(width)).repeat(clauses);
        let counts = readings.of(format!("{width} to a clause")).accept(&full);
        assert_eq!(held(counts), [width as u64, clauses as u64, 16_384]);
        let line = clauses as u64 + 1;
        readings.refuse(&then(&full, b"!\n"), TOO_MANY_LITERALS, line);
        readings.refuse(&then(&full, b"~\n ~!\n"), TOO_MANY_LITERALS, line + 1);
    }
}

#[test]
fn clauses_8_192_are_held_and_one_more_is_reason_8() {
    let mut readings = Readings::start("clauses");
    for clause in [&b"a\n"[..], b"~a\n", b" a \n", b"a a\n"] {
        let full = clause.repeat(NARROW.clauses);
        assert_eq!(held(readings.accept(&full)), [1, 8_192, 8_192]);
        readings.refuse(&then(&full, clause), TOO_MANY_CLAUSES, 8_193);
        readings.refuse(&then(&full, b"~ \n~\n ~new\n"), TOO_MANY_CLAUSES, 8_195);
    }
}

#[test]
fn every_limit_may_be_met_at_once() {
    let mut readings = Readings::start("every limit");
    for seed in 0..6 {
        let full = text_full_of_all(&NARROW, &mut Random::new(seed));
        assert_eq!(held(readings.accept(&full)), [2_048, 8_192, 16_384]);
        readings.accept(&then(&full, b"~\n  ~\n~ !\n~\n"));
        readings.refuse(&then(&full, b"newterm1\n"), TOO_MANY_TERMS, 8_193);
        readings.refuse(&then(&full, b"!\n"), TOO_MANY_LITERALS, 8_193);
    }
}

#[test]
fn texts_of_65_536_bytes_are_read_and_of_65_537_are_reason_2() {
    let mut readings = Readings::start("bytes");
    for seed in 0..12 {
        let full = text_of_bytes(NARROW.text, &mut Random::new(seed));
        assert_eq!(full.len(), 65_536);
        readings.accept(&full);
        readings.refuse(&then(&full, b"\n"), TEXT_TOO_LONG, 0);
    }
    readings.refuse(&[b'a'; 1 << 20], TEXT_TOO_LONG, 0);
}

/// Such a text is too long before it is cut, or wrong in its first byte.
#[test]
fn one_byte_65_536_and_65_537_times() {
    let mut readings = Readings::start("one byte");
    for byte in 0..=255 {
        let long = vec![byte; NARROW.text + 1];
        readings.refuse(&long, TEXT_TOO_LONG, 0);
        let (reason, line) = match byte {
            b'\n' => (BLANK_LINE, 1),
            _ => (TEXT_CUT, 0),
        };
        readings.refuse(&long[1..], reason, line);
    }
}

#[test]
fn names_of_8_bytes_are_read_and_a_ninth_is_reason_5() {
    let mut readings = Readings::start("names");
    for before in ["", "~", "a  ", "a\n~\n~ b\n", "a ~b\n  ~"] {
        for after in ["\n", " \n", "  b\n", " ~c\n", " ~\n"] {
            let text = |name: &str| format!("kept\n{before}{name}{after}").into_bytes();
            let line = last_line(&text(""));
            readings.accept(&text("abcdefgh"));
            readings.refuse(&text("abcdefghi"), NINTH_BYTE, line);
            readings.refuse(&text("abcdefghi\t"), NINTH_BYTE, line);
            readings.refuse(&text("abcdefgh\t"), BYTE_NOT_ALLOWED, line);
        }
    }
}

#[test]
fn lines_are_counted_up_to_the_highest_that_a_fault_can_have() {
    let mut readings = Readings::start("dropped lines");
    for before in [0, 1, 254, 255, 256, 257, 4_095, 32_766, 32_767] {
        let dropped = b"~\n".repeat(before);
        let line = before as u64 + 1;
        readings.refuse(&then(&dropped, b"\t\n"), BYTE_NOT_ALLOWED, line);
        readings.refuse(&then(&dropped, b" \n"), BLANK_LINE, line);
    }
    readings.accept(&then(&b"~\n".repeat(32_767), b"a\n"));
}

#[test]
fn lines_of_every_form_are_counted() {
    let mut readings = Readings::start("lines");
    let dropped = ["~\n", "~ a\t\n", "a ~a\n", "a ~a \t\n", "a ~ ~\n"];
    let others = ["a\n", "~a b \n", "a a\n"];
    for line in dropped.into_iter().chain(others) {
        let text = line.repeat(300) + "b\nabcdefghi\n";
        readings.refuse(text.as_bytes(), NINTH_BYTE, 302);
    }
}

//! The rows that request 4 lists: a numbered text, and what its reading answers.

use crate::reasons::{
    BLANK_LINE, BYTE_NOT_ALLOWED, CLAUSE_COUNT, HEADER_FORM, NO_CLAUSE, PAST_HEADER,
    TOO_MANY_CLAUSES, TOO_MANY_LITERALS, TOO_MANY_TERMS,
};

/// What a row says of the reading.
#[derive(Clone, Copy, Debug, PartialEq, Eq)]
pub enum Said {
    /// It is accepted; terms, clauses and literals.
    Holds([u64; 3]),
    /// It is refused for this reason, at this line.
    Refused(u64, u64),
}

use Said::*;

#[derive(Clone, Debug)]
pub struct Row {
    pub text: Vec<u8>,
    pub said: Said,
}

/// Lines, each of them ended.
fn row(lines: &[&str], said: Said) -> Row {
    let text = lines.iter().flat_map(|line| [line, "\n"]);
    Row {
        text: text.collect::<String>().into_bytes(),
        said,
    }
}

/// A row for each of these lines: the text is the lines before and that one.
fn each(before: &[&str], lines: &[&str], said: Said) -> Vec<Row> {
    let with = |line| row(&[before, &[line]].concat(), said);
    lines.iter().map(|line| with(*line)).collect()
}

/// In the order of request 4's table.
pub fn rows() -> Vec<Row> {
    let [held, at_limits] = [held_rows(), limit_rows()];
    let refused = [header_rows(), number_rows(), count_rows()].concat();
    [held, refused, at_limits].concat()
}

fn held_rows() -> Vec<Row> {
    let both = Holds([2, 2, 4]);
    vec![
        row(&["c hi", "p cnf 2 2", "1 2 0", "-1 2 0"], both),
        row(&["p cnf 2 2", "1 2 0 -1", "2 0"], both),
        row(&["p cnf 2 2", "1\t2 0", "", "", "-1 2", "0"], both),
        row(&["p  cnf\t1\t 1", "\t-1\t0", " \t", ""], Holds([1, 1, 1])),
        row(&["cnf", "p cnf 1 1", "1 0"], Holds([1, 1, 1])),
    ]
}

fn header_rows() -> Vec<Row> {
    let malformed = [
        " p cnf 1 1",
        "p cnf 1 1 ",
        "p cnf 1 1\r",
        "pcnf 1 1",
        "P cnf 1 1",
        "p cnf 1",
        "p cnf 1 1 0",
        "p cnf 03 1",
        "p cnf -1 1",
        "p cnf 10000000000 1",
    ];
    let mut rows = vec![
        row(&[], Refused(HEADER_FORM, 0)),
        row(&["c only"], Refused(HEADER_FORM, 0)),
    ];
    rows.extend(each(&[], &malformed, Refused(HEADER_FORM, 1)));
    rows.extend([
        row(&["", "p cnf 1 1", "1 0"], Refused(HEADER_FORM, 1)),
        row(&["p cnf 2049 x"], Refused(HEADER_FORM, 1)),
        row(&["p cnf 2049 1"], Refused(TOO_MANY_TERMS, 1)),
        row(&["p cnf 9999999999 1"], Refused(TOO_MANY_TERMS, 1)),
        row(&["p cnf 2048 1", "2048 0"], Holds([2_048, 1, 1])),
    ]);
    rows
}

fn number_rows() -> Vec<Row> {
    let one = ["p cnf 1 1"];
    let not_numbers = [
        "c later",
        "1 0\r",
        "99x 0",
        "-0",
        "- 1 0",
        "+1 0",
        "01 0",
        "12345678901 0",
        "1\0 0",
    ];
    let mut rows = each(&one, &not_numbers, Refused(BYTE_NOT_ALLOWED, 2));
    rows.extend([
        row(
            &["p cnf 1 1", "1 0", "%", "0"],
            Refused(BYTE_NOT_ALLOWED, 3),
        ),
        row(
            &["p cnf 1 1", "1 0", "p cnf 1 1"],
            Refused(BYTE_NOT_ALLOWED, 3),
        ),
    ]);
    let above = ["4294967297 0", "2 x"];
    rows.extend(each(&one, &above, Refused(PAST_HEADER, 2)));
    rows
}

fn count_rows() -> Vec<Row> {
    let none = ["p cnf 1 0"];
    vec![
        row(&["p cnf 1 1", "0"], Refused(BLANK_LINE, 2)),
        row(&["p cnf 0 1", "0"], Refused(BLANK_LINE, 2)),
        row(&["p cnf 1 1", "1 0", "0"], Refused(CLAUSE_COUNT, 3)),
        row(&["p cnf 2 1", "1 -1 2 0", "2 0"], Refused(CLAUSE_COUNT, 3)),
        row(&[none[0], "0"], Refused(CLAUSE_COUNT, 2)),
        row(&[none[0], "2"], Refused(PAST_HEADER, 2)),
        row(&[none[0], "x"], Refused(BYTE_NOT_ALLOWED, 2)),
        row(&[none[0], "1"], Refused(CLAUSE_COUNT, 0)),
        row(&["p cnf 1 2", "1 0"], Refused(CLAUSE_COUNT, 0)),
        row(&["p cnf 1 1", "1"], Refused(CLAUSE_COUNT, 0)),
        row(&["p cnf 1 1", "1 0 1"], Refused(CLAUSE_COUNT, 0)),
        row(&["p cnf 1 4294967297", "1 0"], Refused(CLAUSE_COUNT, 0)),
        row(&["p cnf 3 0"], Refused(NO_CLAUSE, 0)),
        row(&["p cnf 0 0"], Refused(NO_CLAUSE, 0)),
        row(&["p cnf 1 1", "1 -1 0"], Refused(NO_CLAUSE, 0)),
        row(&["p cnf 2 2", "1 -1 2 0", "2 0"], Holds([2, 1, 1])),
        row(&["p cnf 2 2", "1 -1 3 0", "2 0"], Refused(PAST_HEADER, 2)),
        row(
            &["p cnf 2 2", "1 -1 x 0", "2 0"],
            Refused(BYTE_NOT_ALLOWED, 2),
        ),
    ]
}

const EIGHT: &str = "1 2 3 4 5 6 7 8 0";
const SEVEN: &str = "1 2 3 4 5 6 7 0";

/// A header of so many variables and clauses, one line so many times, then these.
fn repeated(header: [u64; 2], line: &str, times: usize, then: &[&str], said: Said) -> Row {
    let header = format!("p cnf {} {}", header[0], header[1]);
    row(
        &[&[&header[..]][..], &vec![line; times], then].concat(),
        said,
    )
}

fn limit_rows() -> Vec<Row> {
    let units = |clauses, said| repeated([1, clauses], "1 0", 8_193, &[], said);
    let full = |clauses, then, said| repeated([9, clauses], EIGHT, 2_048, &[then], said);
    let but_one =
        |then: &[&str], said| repeated([9, 2_050], EIGHT, 2_047, &[&[SEVEN], then].concat(), said);
    let late_fault = [
        vec!["c"; 10],
        vec!["p cnf 1 1"],
        vec![""; 60_000],
        vec!["x 0"],
    ];
    vec![
        units(8_193, Refused(TOO_MANY_CLAUSES, 8_194)),
        units(8_192, Refused(CLAUSE_COUNT, 8_194)),
        full(2_049, "9 0", Refused(TOO_MANY_LITERALS, 2_050)),
        full(2_049, "0", Refused(BLANK_LINE, 2_050)),
        full(2_048, "0", Refused(CLAUSE_COUNT, 2_050)),
        but_one(&["9 -9 1 2 3 0", "1 1 0"], Holds([9, 2_049, 16_384])),
        but_one(&["9 8 -9 0"], Refused(TOO_MANY_LITERALS, 2_050)),
        row(&late_fault.concat(), Refused(BYTE_NOT_ALLOWED, 60_012)),
    ]
}

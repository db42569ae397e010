//! The vectors of document 02's requests, as whole runs and, where the sheet is the example's and good, as readings.

use boundary::{Readings, Runs};
use oracle::reasons::SHEET_FORM;
use oracle::vectors::{vectors, SHEET};

/// The fifth line that a sheet may have.
const EVEN: &[u8] = b"choice=even\n";

#[test]
fn every_row_is_run_as_it_says() {
    let mut runs = Runs::start();
    for vector in vectors() {
        runs.prints(&vector.input, &String::from_utf8_lossy(&vector.printed));
    }
}

/// The reason and the line of a refusal as it is printed.
fn refusal(printed: &[u8]) -> Option<(u64, u64)> {
    let text = std::str::from_utf8(printed).expect("names are ASCII");
    let mut lines = text.strip_prefix("result=refused\nreason=")?.lines();
    let reason = lines.next()?.parse().ok()?;
    let line = lines.next()?.strip_prefix("line=")?.parse().ok()?;
    Some((reason, line))
}

#[test]
fn every_rows_text_is_read_as_it_says() {
    let mut readings = Readings::start("vectors");
    let mut read = 0;
    for vector in vectors() {
        let Some(text) = vector.input.strip_prefix(SHEET) else {
            continue;
        };
        let text = text.strip_prefix(EVEN).unwrap_or(text);
        readings.of(vector.row.into());
        match refusal(&vector.printed) {
            Some((SHEET_FORM, _)) => continue,
            Some((reason, line)) => readings.refuse(text, reason, line),
            None => assert!(readings.accept(text).clauses > 0),
        }
        read += 1;
    }
    assert!(read >= 24);
}

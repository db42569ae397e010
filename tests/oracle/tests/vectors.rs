//! The vectors of document 02's requests.

mod common;

use common::*;
use oracle::run;
use oracle::vectors::vectors;

#[test]
fn every_row_is_printed_as_it_says() {
    for vector in vectors() {
        let printed = run(&NARROW, &vector.input);
        assert_eq!(
            printed.escape_ascii().to_string(),
            vector.printed.escape_ascii().to_string(),
            "{}",
            vector.row
        );
    }
}

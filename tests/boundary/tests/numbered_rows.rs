//! The rows that request 4 lists, through the library.

use boundary::texts::held;
use boundary::Readings;
use oracle::numbered_rows::{rows, Said};

#[test]
fn every_row_of_request_4_is_read_as_it_says() {
    let mut readings = Readings::start_numbered("a row");
    for row in rows() {
        match row.said {
            Said::Holds(counts) => assert_eq!(held(readings.accept(&row.text)), counts),
            Said::Refused(reason, line) => readings.refuse(&row.text, reason, line),
        }
    }
}

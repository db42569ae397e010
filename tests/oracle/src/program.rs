//! The whole run program over one input.

use crate::limits::Limits;
use crate::reading::read;
use crate::reasons::{Fault, NONE, TABLE_TOO_SHORT, TEXT_TOO_LONG};
use crate::report::{found, gave_up, refused};
use crate::sheet::read_sheet;
use crate::tables::Tables;
use crate::walk::walk;

/// Result 1 is a written report, 0 refused; the length is that of the report.
#[derive(Clone, Copy, Debug, PartialEq, Eq)]
pub struct RunAnswer {
    pub result: u64,
    pub reason: u64,
    pub length: u64,
}

/// What the run program prints for this input.
pub fn run(limits: &Limits, input: &[u8]) -> Vec<u8> {
    print_over(limits, input, &mut Tables::zeros(limits))
}

/// Runs over lent tables into a lent output; where one of them is shorter than its full size,
/// reason 1 is given and nothing is written.
pub fn run_on(limits: &Limits, input: &[u8], tables: &mut Tables, out: &mut [u8]) -> RunAnswer {
    if !tables.reach_full_size(limits) || out.len() < limits.output_size() {
        return RunAnswer {
            result: 0,
            reason: TABLE_TOO_SHORT,
            length: 0,
        };
    }
    let printed = print_over(limits, input, tables);
    out[..printed.len()].copy_from_slice(&printed);
    RunAnswer {
        result: 1,
        reason: NONE,
        length: printed.len() as u64,
    }
}

/// "The program tests 2 on its whole input, then the sheet, then reads."
fn print_over(limits: &Limits, input: &[u8], tables: &mut Tables) -> Vec<u8> {
    if input.len() > limits.text {
        tables.clear(limits);
        return refused(Fault::without_line(TEXT_TOO_LONG));
    }
    let sheet = read_sheet(input);
    if sheet.result == 0 {
        return refused(Fault {
            reason: sheet.reason,
            line: sheet.line,
        });
    }
    let reading = read(limits, &input[sheet.text_start..], tables);
    if reading.result == 0 {
        return refused(Fault {
            reason: reading.reason,
            line: reading.line,
        });
    }
    let answer = walk(limits, &sheet.order, reading.counts, tables);
    match answer.result {
        1 => found(limits, &answer, tables),
        2 => gave_up(&answer),
        _ => refused(Fault::without_line(answer.reason)),
    }
}

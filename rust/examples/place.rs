//! Prints the places that a walk finds: `cargo run --release --offline --example place -- FILE`.
//!
//! FILE is an order sheet whose terms are named `child:parent`, as in `examples/sheets/merge.txt`, or
//! such clause text alone, for which an order is supplied here.

use std::process::ExitCode;
use std::{env, fs};

use ngiyarumba::{Choice, Order, Outcome, Tables};

/// For clause text that comes with no sheet.
const ORDER: Order = Order {
    seed: 1,
    flips: 10_000,
    walks: 100,
    bias: 400,
    choice: Choice::Remainder,
};

fn main() -> ExitCode {
    let Some(path) = env::args_os().nth(1) else {
        eprintln!("usage: place FILE");
        return ExitCode::from(2);
    };
    let input = fs::read_to_string(&path).map_err(|error| error.to_string());
    match input.and_then(|input| place(&input)) {
        Ok(lines) => {
            print!("{lines}");
            ExitCode::SUCCESS
        }
        Err(words) => {
            eprintln!("{}: {words}", path.to_string_lossy());
            ExitCode::FAILURE
        }
    }
}

/// A line for each term that is chosen, or why there is none.
pub fn place(input: &str) -> Result<String, String> {
    let (order, text) = match input.starts_with("seed=") {
        true => split(input).ok_or("the order sheet has the wrong form")?,
        false => (ORDER, input),
    };
    let mut tables = Tables::new();
    tables.read(text).map_err(|error| error.to_string())?;
    match tables.walk(order).map_err(|error| error.to_string())? {
        Outcome::Found { .. } => Ok(chosen(&tables)),
        Outcome::GaveUp { flips, .. } => Err(format!(
            "gave up after {flips} flips; left uncovered:\n{}",
            left(&tables)
        )),
    }
}

fn chosen(tables: &Tables) -> String {
    let chosen = tables.terms().filter(|(_, value)| *value);
    chosen
        .map(|(name, _)| name.replacen(':', " under ", 1) + "\n")
        .collect()
}

/// The clauses that the last walk has left uncovered.
fn left(tables: &Tables) -> String {
    let clauses: Vec<String> = tables.clauses().collect();
    let uncovered = tables
        .uncovered()
        .iter()
        .map(|number| &clauses[usize::from(*number)][..]);
    uncovered.collect::<Vec<_>>().join("\n")
}

/// The numbers of a sheet, how it chooses, and the clause text after them.
fn split(input: &str) -> Option<(Order, &str)> {
    let mut lines = input.splitn(5, '\n');
    let mut number = |key| lines.next()?.strip_prefix(key)?.parse().ok();
    let order = Order {
        seed: number("seed=")?,
        flips: number("flips=")?,
        walks: number("walks=")?,
        bias: number("bias=")?,
        choice: Choice::Remainder,
    };
    let rest = lines.next()?;
    if !rest.starts_with("choice=") {
        return Some((order, rest));
    }
    let choice = Choice::Even;
    Some((
        Order { choice, ..order },
        rest.strip_prefix("choice=even\n")?,
    ))
}

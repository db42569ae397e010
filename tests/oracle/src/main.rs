//! The run program: standard input holds an order sheet and a clause text.

use std::io::{self, Read, Write};

fn main() -> io::Result<()> {
    let mut input = Vec::new();
    io::stdin().lock().read_to_end(&mut input)?;
    let printed = oracle::run(&oracle::Limits::NARROW, &input);
    io::stdout().lock().write_all(&printed)
}

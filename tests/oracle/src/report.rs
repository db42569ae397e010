//! The lines that the run program prints; each ends with byte 10.

use crate::limits::{words_for, Limits};
use crate::reader::unpack;
use crate::reasons::Fault;
use crate::state::values_of;
use crate::tables::{Counts, Tables};
use crate::walk::WalkAnswer;

/// "Refusal prints three lines".
pub fn refused(fault: Fault) -> Vec<u8> {
    format!(
        "result=refused\nreason={}\nline={}\n",
        fault.reason, fault.line
    )
    .into_bytes()
}

/// "Giving up prints result=gaveup, the same keys, chosen=0 and answer=~?."
pub fn gave_up(answer: &WalkAnswer) -> Vec<u8> {
    let WalkAnswer { walks, flips, .. } = answer;
    format!("result=gaveup\nwalks={walks}\nflips={flips}\nchosen=0\nanswer=~?\n").into_bytes()
}

/// A found walk, with the answer that the tables hold.
pub fn found(limits: &Limits, answer: &WalkAnswer, tables: &Tables) -> Vec<u8> {
    let WalkAnswer {
        walks,
        flips,
        counts,
        ..
    } = answer;
    let chosen = ones_in(&tables.values[..words_for(limits.terms)]);
    let head = format!("result=found\nwalks={walks}\nflips={flips}\nchosen={chosen}\nanswer=");
    [head.into_bytes(), answer_line(counts, tables)].concat()
}

/// "chosen is the count of ones in the stored words"
fn ones_in(words: &[u64]) -> u32 {
    words.iter().map(|word| word.count_ones()).sum()
}

/// "the answer lists every term in order, ~ before those at 0, one space between"
fn answer_line(counts: &Counts, tables: &Tables) -> Vec<u8> {
    let terms = values_of(counts, tables).into_iter().zip(&tables.names);
    let literals: Vec<Vec<u8>> = terms.map(|(value, name)| literal(value, *name)).collect();
    let mut line = literals.join(&b' ');
    line.push(b'\n');
    line
}

fn literal(value: bool, name: u64) -> Vec<u8> {
    let sign: &[u8] = if value { b"" } else { b"~" };
    [sign, &unpack(name)].concat()
}

//! Runs generated inputs on both sides until two runs differ: `soak COUNT SEED`. `tests/soak` builds what it needs.
//! Each input has a seed of its own, the first the given one, so that it can be run again alone.

use std::fs;
use std::process::ExitCode;
use std::sync::atomic::{AtomicBool, Ordering};

use boundary::run_kinds::{compare, Compared, Met};
use boundary::tally::share_out;
use boundary::{Runs, Tally};
use oracle::generate::InputKind;

/// Where a difference is written, from the root of the repository.
const DIRECTORY: &str = "target/soak";

fn main() -> ExitCode {
    let words = std::env::args().skip(1);
    let numbers: Vec<u64> = words.filter_map(|word| word.parse().ok()).collect();
    let [count, first] = numbers[..] else {
        eprintln!("usage: soak COUNT SEED");
        return ExitCode::from(2);
    };
    println!("{count} inputs from seed {first} on");
    let differs = AtomicBool::new(false);
    let met = share_out(count, |seeds| run_until(&differs, first, seeds));
    if differs.into_inner() {
        return ExitCode::FAILURE;
    }
    println!("{count} inputs from seed {first} on, no difference: {met}");
    ExitCode::SUCCESS
}

/// Runs the inputs of these seeds, counted from the first, until two runs differ here or elsewhere.
fn run_until(differs: &AtomicBool, first: u64, seeds: &[u64]) -> Tally<Met> {
    let mut runs = Runs::start();
    let mut met = Tally::default();
    for seed in seeds.iter().map(|seed| first.wrapping_add(*seed)) {
        if differs.load(Ordering::Relaxed) {
            break;
        }
        let compared = compare(&mut runs, kind_of(seed), seed, &mut met);
        if !compared.ran.report.is_empty() && !differs.swap(true, Ordering::Relaxed) {
            tell(seed, &compared);
        }
    }
    met
}

/// The kinds in turn, but for the last, which is always the same input.
fn kind_of(seed: u64) -> InputKind {
    let kinds = InputKind::ALL.len() as u64 - 1;
    InputKind::ALL[(seed % kinds) as usize]
}

/// Writes what differs into files and names them.
fn tell(seed: u64, Compared { input, ran }: &Compared) {
    println!("difference: {}", ran.report);
    fs::create_dir_all(DIRECTORY).expect("target can be written");
    let files = [
        ("input", input),
        ("expected", &ran.printed),
        ("got", &ran.got),
    ];
    for (name, bytes) in files {
        let file = format!("{DIRECTORY}/{seed}.{name}");
        fs::write(&file, bytes).expect("target can be written");
        println!("{name}: {file}");
    }
    println!("again: tests/soak 1 {seed}");
}

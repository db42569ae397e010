//! Orders on files of every kind, walk after walk on the same tables: found or given up, all tables and counts are compared.

use boundary::tally::share_out;
use boundary::texts::{first_names, then};
use boundary::walk_kinds::{walk_and_note, Kinds, Met, Met::*};
use boundary::{agreeing, for_each_file, holding, Lent, Sides};
use oracle::generate::lines::{random_lines, write};
use oracle::generate::*;
use oracle::order::MODES;
use oracle::Order;

const FILES: u64 = 2_000;
const ORDERS_ON_EACH: u64 = 4;

/// Walks on the file of each seed; notes what the walks were.
fn compare_files(seeds: &[u64]) -> Kinds {
    let mut met = Kinds::default();
    for_each_file(seeds.iter().copied(), agreeing, |sides, random| {
        for _ in 0..ORDERS_ON_EACH {
            let order = order_in_range(random);
            for even in MODES {
                walk_and_note(sides, &Order { even, ..order }, &mut met);
            }
        }
    });
    met
}

#[test]
fn eight_thousand_random_walks_in_each_mode_end_as_the_independent_program_ends_them() {
    let met = share_out(FILES, compare_files);
    met.expect([
        (ByTheRemainder, 8_000),
        (Evenly, 8_000),
        (TermInNoClause, 1_000),
    ]);
    met.expect(Met::ORDERS.map(|kind| (kind, 1_400)));
    met.expect(Met::ENDS.map(|kind| (kind, 200)));
    met.expect(Met::STEPS.map(|kind| (kind, 14_000)));
}

/// A file of so many terms, all of them known from a first line that is dropped, so that some may stand in no clause.
fn file_of(terms: usize, random: &mut Random) -> Lent {
    let names = first_names(terms);
    let known = [names.join(&b' '), b" ~\n!\n".to_vec()].concat();
    let clauses = random.between(terms.div_ceil(2), (4 * terms).min(3_000));
    let lines = random_lines(&names, clauses, [2, 3], random);
    holding(&then(&known, &write(&lines)), random)
}

/// Where the terms fill their last value word, or do not, or leave it.
#[test]
fn walks_over_1_to_65_terms_and_2_048_end_as_the_independent_program_ends_them() {
    let mut sides = Sides::start();
    for terms in [1, 2, 31, 32, 33, 63, 64, 65, 2_047, 2_048] {
        let mut met = Kinds::default();
        let files = if terms < 100 { 25 } else { 5 };
        for seed in 0..files {
            let random = &mut Random::new(seed);
            let case = format!("{terms} terms, seed {seed}");
            sides.lend(case, file_of(terms, random));
            assert_eq!(sides.counts.terms, terms as u64);
            for _ in 0..ORDERS_ON_EACH {
                walk_and_note(&mut sides, &order_in_range(random), &mut met);
            }
        }
        let found = met.times(FoundInTheFirstWalk) + met.times(FoundInALaterWalk);
        assert!(found > 0 && found < met.times(Walk), "{terms} {met:?}");
    }
}

//! Walks with pinned terms: how they end, how they start, and which draws they make.

use boundary::pin_kinds::{walk_and_note, Met};
use boundary::tally::share_out;
use boundary::{agreeing, few_steps, for_each_file, holding, order_for, pinned};
use boundary::{Lent, Sides, Tally, NARROW};
use oracle::draw::draws_from;
use oracle::generate::*;
use oracle::limits::{words_for, TERMS_IN_A_WORD};
use oracle::marks::FREE;
use oracle::order::MODES;
use oracle::{Counts, Order, Tables};

const FILES: u64 = 1_000;
const ORDERS_ON_EACH: u64 = 4;

#[test]
fn four_thousand_walks_with_pins_in_each_mode_end_as_the_independent_program_ends_them() {
    let met = share_out(FILES, |seeds| {
        let mut met = Tally::default();
        for_each_file(seeds.iter().copied(), pinned, |sides, random| {
            for _ in 0..ORDERS_ON_EACH {
                let order = order_in_range(random);
                for even in MODES {
                    walk_and_note(sides, &Order { even, ..order }, &mut met);
                }
            }
        });
        met
    });
    let walks: u64 = Met::ENDS.iter().map(|end| met.times(*end)).sum();
    assert!(walks >= 8_000, "{met:?}");
    met.expect(Met::ENDS.map(|end| (end, 1_000)));
    met.expect(Met::STUCK.map(|kind| (kind, 400)));
    met.expect(Met::PINS.map(|kind| (kind, 1_000)));
    met.expect(Met::STEPS.map(|kind| (kind, 200)));
}

fn lent(sides: &Sides) -> Lent {
    (sides.counts, sides.tables.clone())
}

/// Whatever was pinned meanwhile, and wherever it left the values.
#[test]
fn once_every_pin_is_lifted_an_order_walks_as_before() {
    for_each_file(0..60, agreeing, |sides, random| {
        let order = few_steps(random);
        let first = (sides.walk(&order), lent(sides));
        let terms: Vec<u64> = (0..random.between(1, 5))
            .map(|_| random.bits() % sides.counts.terms)
            .collect();
        for term in &terms {
            sides.apply_pin(*term, random.bits() % 2);
            sides.walk_by(&few_steps(random));
        }
        for term in &terms {
            sides.apply_lift(*term);
        }
        let again = (sides.walk_by(&order), lent(sides));
        assert!(again == first, "{}", sides.case);
    });
}

/// A text that makes so many terms known, t0 the first, and then has these lines.
fn with_known_terms(terms: usize, lines: &str) -> String {
    let names: Vec<String> = (0..terms).map(|term| format!("t{term}")).collect();
    format!("{} ~\n{lines}", names.join(" "))
}

/// The draws of the last of so many walks from seed 1, a word each, with the bits of pinned terms as marked and those past the terms 0.
fn words_of_start(terms: usize, walks: usize, marks: &[u64]) -> Vec<u64> {
    let words = words_for(terms);
    let draws: Vec<u64> = draws_from(1)
        .skip(words * (walks - 1))
        .map(u64::from)
        .take(words)
        .collect();
    let mut values = vec![0; NARROW.full_sizes()[1]];
    for (term, mark) in marks[..terms].iter().enumerate() {
        let (word, bit) = (term / TERMS_IN_A_WORD, term % TERMS_IN_A_WORD);
        let value = match *mark {
            FREE => draws[word] >> bit & 1,
            mark => mark - 1,
        };
        values[word] |= value << bit;
    }
    values
}

/// Where the terms fill their last value word, or do not, or leave it.
#[test]
fn a_start_gives_pinned_terms_their_values_in_place_of_bits_that_are_drawn_all_the_same() {
    let mut sides = Sides::start();
    for (seed, terms) in (0..).zip([1, 2, 31, 32, 33, 64, 65, 2_047, 2_048].repeat(4)) {
        let random = &mut Random::new(seed);
        let text = with_known_terms(terms, "t0\n~t0\n");
        let (counts, mut tables) = holding(text.as_bytes(), random);
        let kinds = [PinKind::AnyNumber, PinKind::AllButOne, PinKind::EveryTerm];
        pin_some(random.pick(&kinds), &counts, &mut tables, random);
        sides.lend(format!("{terms} terms, seed {seed}"), (counts, tables));
        for walks in [1, 2, 5] {
            sides.walk(&order_for(0, walks as u64, 400));
            let expected = words_of_start(terms, walks, &sides.tables.marks);
            assert_eq!(sides.tables.values, expected, "{terms} terms, seed {seed}");
        }
    }
}

/// From seed 1 terms 1 to 4 start at 0, as they are pinned. Terms 5 to 31 stand in no clause, so their values tell which draw began the
/// second walk.
#[test]
fn point_36_which_draws_are_made_among_free_literals() {
    let ties = "t1 t2\nt3 t4\n";
    let broken = "t1 t2\nt3 t4\n~t1\n~t3\n";
    let cases: [(&str, u64, &[u64], usize); 10] = [
        (ties, 0, &[], 2),
        (ties, 0, &[1, 3], 1),
        (ties, 1_000, &[2, 4], 1),
        (ties, 0, &[1, 2, 3, 4], 1),
        ("t1\nt2\n", 1_000, &[1, 2], 1),
        (broken, 0, &[], 1),
        (broken, 0, &[1, 3], 1),
        (broken, 0, &[2, 4], 2),
        (broken, 1_000, &[2, 4], 3),
        (broken, 1_000, &[1, 2, 3, 4], 1),
    ];
    let mut sides = Sides::start();
    for (clauses, bias, pins, draws) in cases {
        let case = format!("{clauses:?} {bias} {pins:?}");
        sides.lend(case.clone(), (Counts::default(), Tables::zeros(&NARROW)));
        sides.accept(with_known_terms(32, clauses).as_bytes());
        for term in pins {
            sides.apply_pin(*term, 0);
        }
        let answer = sides.walk(&order_for(1, 2, bias));
        assert_eq!(answer.walks, 2, "{case}");
        let second_start = draws_from(1).nth(1 + draws).map(u64::from);
        let begun_by = second_start.map(|draw| draw >> 5);
        assert_eq!(Some(sides.tables.values[0] >> 5), begun_by, "{case}");
    }
}

//! The walk's examples in document 01 and its points that are easy to get wrong, one by one.

use boundary::differences::begins;
use boundary::{order_for, Readings, Sides, NARROW, ORDER};
use oracle::draw::draws_from;
use oracle::limits::{words_for, TERMS_IN_A_WORD};
use oracle::reasons::{NONE, NO_CLAUSE, OUT_OF_RANGE, TABLES_DISAGREE};
use oracle::walk::WalkAnswer;
use oracle::Order;

const FOUND: u64 = 1;
const GAVE_UP: u64 = 2;

/// Texts that are read and walked on.
struct Walks(Readings);

impl Walks {
    fn start() -> Walks {
        Walks(Readings::start(""))
    }

    /// Reads a text, which must be accepted, and walks on it; tells what stands then.
    fn walk(&mut self, text: &str, order: &Order) -> (WalkAnswer, &mut Sides) {
        self.0.of(text.into()).accept(text.as_bytes());
        let answer = self.0.sides.walk(order);
        assert_eq!(answer.reason, NONE, "{text:?}");
        (answer, &mut self.0.sides)
    }

    /// The same, where the result, the walks and the flips must be these.
    fn ends(&mut self, text: &str, order: Order, expected: [u64; 3]) -> &Sides {
        let (answer, sides) = self.walk(text, &order);
        let told = [answer.result, answer.walks, answer.flips];
        assert_eq!(told, expected, "{text:?} {order:?}");
        sides
    }
}

/// A line that is dropped and makes so many terms known, t0 the first.
fn known_terms(terms: usize) -> String {
    let names: Vec<String> = (0..terms).map(|term| format!("t{term}")).collect();
    names.join(" ") + " ~\n"
}

#[test]
fn two_clauses_start_with_one_uncovered_and_are_found_by_one_flip() {
    let mut walks = Walks::start();
    let text = "a b\n~a b\n";
    let sides = walks.ends(text, Order { flips: 0, ..ORDER }, [GAVE_UP, 1, 0]);
    assert_eq!(sides.counts.uncovered, 1);
    begins(&sides.tables.values, &[0b01, 0]);
    begins(&sides.tables.trues, &[1, 0, 0]);
    begins(&sides.tables.breaks, &[1, 0, 0]);
    begins(&sides.tables.uncovered, &[1, 0]);
    begins(&sides.tables.places, &[0, 0, 0]);
    let sides = walks.ends(text, ORDER, [FOUND, 1, 1]);
    assert_eq!(sides.counts.uncovered, 0);
    begins(&sides.tables.values, &[0b11, 0]);
    begins(&sides.tables.trues, &[2, 1, 0]);
    begins(&sides.tables.breaks, &[0, 1, 0]);
    begins(&sides.tables.uncovered, &[0, 0]);
}

/// Of two clauses that are uncovered at the start each mode picks another.
#[test]
fn one_order_in_both_modes_ends_as_request_5_says() {
    let mut walks = Walks::start();
    let text = "a b\nc a\na ~c\n~c ~a\n~b c\n";
    for (even, flips) in [(0, 6), (1, 2)] {
        let order = Order {
            seed: 38,
            even,
            ..order_for(6, 1, 500)
        };
        walks.ends(text, order, [FOUND, 1, flips]);
    }
    for (even, values) in [(0, 1), (1, 2)] {
        let order = Order {
            seed: 3_764_646_662,
            even,
            ..order_for(1, 1, 400)
        };
        let sides = walks.ends("~a\n~b\n", order, [GAVE_UP, 1, 1]);
        begins(&sides.tables.values, &[values, 0]);
    }
}

#[test]
fn the_other_examples_of_the_document() {
    let mut walks = Walks::start();
    walks.ends("a\n~a\n", Order { flips: 2, ..ORDER }, [GAVE_UP, 1, 2]);
    walks.ends("a a\n", ORDER, [FOUND, 1, 0]);
    let sides = walks.ends("a ~a\nb\n", ORDER, [FOUND, 1, 1]);
    begins(&sides.tables.values, &[0b11, 0]);
}

#[test]
fn a_covering_start_is_found_with_no_flip_allowed() {
    let mut walks = Walks::start();
    let sides = walks.ends("a\n~b\n", order_for(0, 1, 400), [FOUND, 1, 0]);
    begins(&sides.tables.values, &[0b01, 0]);
    walks.ends("a\n~b\n", order_for(0, 5, 400), [FOUND, 1, 0]);
    walks.ends("a ~b\nc\n", order_for(0, 5, 400), [FOUND, 3, 0]);
}

/// From seed 1 terms 1 to 4 start at 0, so the clauses without ~ start uncovered. Terms 5 to 31 stand in no clause, so their values tell
/// which draw began the second walk.
#[test]
fn point_16_which_draws_a_flip_takes() {
    let cases = [
        ("t1\nt2\n", 0, 1),
        ("t1\nt2\n", 1_000, 1),
        ("t1\n~t0\n", 1_000, 1),
        ("t1 t3\nt2 t4\n", 1_000, 2),
        ("t1\n~t1\n", 0, 2),
        ("t1\n~t1\n", 1_000, 3),
        ("t1 t2\n~t1\n~t2\n~t2\n", 0, 2),
        ("t1 t2\n~t1\n~t2\n~t2\n", 1_000, 3),
        ("t1 t2\n~t1\n~t2\n", 0, 3),
        ("t1 t2\n~t1\n~t2\n", 1_000, 3),
    ];
    let mut walks = Walks::start();
    for (clauses, bias, draws) in cases {
        let text = known_terms(32) + clauses;
        let (answer, sides) = walks.walk(&text, &order_for(1, 2, bias));
        assert_eq!(answer.walks, 2, "{clauses:?}");
        let second_start = draws_from(1).nth(1 + draws).map(u64::from);
        let begun_by = second_start.map(|draw| draw >> 5);
        assert_eq!(Some(sides.tables.values[0] >> 5), begun_by, "{clauses:?}");
    }
}

#[test]
fn point_17_the_last_allowed_flip_may_find() {
    let mut walks = Walks::start();
    walks.ends("a b\n~a b\n", order_for(1, 1, 400), [FOUND, 1, 1]);
    walks.ends("a b\n~a b\n", order_for(1, 3, 400), [FOUND, 1, 1]);
    walks.ends("~a\n~b\n", order_for(1, 3, 400), [FOUND, 1, 1]);
}

/// From seed 1 the first step chooses the last of two clauses, and the middle one of three.
#[test]
fn point_18_the_last_entry_fills_the_slot_of_a_clause_that_leaves() {
    let mut walks = Walks::start();
    let sides = walks.ends("a\nb\nc\n", order_for(1, 1, 400), [GAVE_UP, 1, 1]);
    begins(&sides.tables.uncovered, &[1, 0, 0]);
    begins(&sides.tables.places, &[0, 0, 0]);
    let sides = walks.ends("a\nb\nc\nd\n", order_for(1, 1, 400), [GAVE_UP, 1, 1]);
    begins(&sides.tables.uncovered, &[1, 3, 0]);
    begins(&sides.tables.places, &[0, 0, 0, 1]);
}

#[test]
fn point_19_giving_up_leaves_the_last_walks_end() {
    let mut walks = Walks::start();
    let sides = walks.ends("a\n~a\nb\n", order_for(0, 2, 400), [GAVE_UP, 2, 0]);
    begins(&sides.tables.values, &[67_634_689 & 3, 0]);
    begins(&sides.tables.uncovered, &[1, 2, 0]);
    begins(&sides.tables.places, &[0, 0, 1, 0]);
    assert_eq!(sides.counts.uncovered, 2);
}

#[test]
fn point_20_tables_of_a_refused_reading_never_agree() {
    let mut readings = Readings::start("refused");
    readings.refuse(b"a ~a\n", NO_CLAUSE, 0);
    let sides = &mut readings.sides;
    sides.refuse_order(&ORDER, TABLES_DISAGREE);
    sides.refuse_order(&Order { seed: 0, ..ORDER }, OUT_OF_RANGE);
    sides.refuse_order(&order_for(10, 1, 1_001), OUT_OF_RANGE);
}

/// The value words of the last of so many walks from seed 1 that make no flip.
fn words_of_start(terms: usize, walks: usize) -> Vec<u64> {
    let words = words_for(terms);
    let draws = draws_from(1).skip(words * (walks - 1)).take(words);
    let mut values: Vec<u64> = draws.map(u64::from).collect();
    let held = terms - TERMS_IN_A_WORD * (words - 1);
    values[words - 1] &= (1 << held) - 1;
    values.resize(NARROW.full_sizes()[1], 0);
    values
}

#[test]
fn every_32_terms_take_one_draw_and_the_generator_is_not_seeded_again() {
    let mut walks = Walks::start();
    for terms in [1, 2, 31, 32, 33, 64, 65, 96, 2_047, 2_048] {
        let text = known_terms(terms) + "t0\n~t0\n";
        for begun in [1, 2, 5] {
            let (_, sides) = walks.walk(&text, &order_for(0, begun as u64, 400));
            let values = &sides.tables.values[..NARROW.full_sizes()[1]];
            assert_eq!(values, words_of_start(terms, begun), "{terms} terms");
        }
    }
}

/// What stood before, values and list alike, does not show in a walk.
#[test]
fn one_order_walks_the_same_whatever_stood_before() {
    let text = "a b c\n~a ~b\n~b ~c\n~a ~c d\n~d e\n~e b\nc d\n~c ~d e\nx\n~x\n";
    let mut walks = Walks::start();
    let (first, sides) = walks.walk(text, &ORDER);
    let left = sides.tables.clone();
    for seed in 2..12 {
        sides.walk(&Order { seed, ..ORDER });
        sides.apply(&[seed % 5, 0, seed % 3]);
        assert_eq!(sides.walk(&ORDER), first);
        assert!(sides.tables == left);
    }
}

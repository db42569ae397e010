//! Draws, choices in both modes and heads asked for alone.

use boundary::{Draws, Tally};
use oracle::draw::{draws_from, Drawn};
use oracle::generate::{draw_case, DrawCase, Random};
use oracle::reasons::{NONE, OUT_OF_RANGE};

const LAST: u64 = u32::MAX as u64;

/// States at the ends of their range, of one bit, and of many.
const STATES: [u64; 8] = [
    1,
    2,
    1 << 15,
    1 << 16,
    1 << 31,
    (1 << 31) - 1,
    LAST - 1,
    LAST,
];

fn drawn(number: u64, state: u64) -> Drawn {
    Drawn {
        reason: NONE,
        number,
        state,
    }
}

/// "the number is then 0 and the state stays"
fn refused(state: u64) -> Drawn {
    Drawn {
        reason: OUT_OF_RANGE,
        number: 0,
        state,
    }
}

#[test]
fn seed_1_draws_what_the_document_says() {
    let mut draws = Draws::start();
    let mut state = 1;
    for number in [270_369, 67_634_689, 2_647_435_461] {
        assert_eq!(draws.draw(state), drawn(number, number));
        state = number;
    }
    assert_eq!(draws.choice(270_369, 3), drawn(1, 67_634_689));
}

#[test]
fn state_0_is_reason_11() {
    let mut draws = Draws::start();
    assert_eq!(draws.draw(0), refused(0));
    for number in [0, 1, 3, 400, 1_000, 1_001, LAST] {
        assert_eq!(draws.choice(0, number), refused(0));
        assert_eq!(draws.choice_even(0, number), refused(0));
        assert_eq!(draws.heads(0, number), refused(0));
    }
}

#[test]
fn a_choice_among_0_is_reason_11_and_among_any_other_number_is_not() {
    let mut draws = Draws::start();
    for state in STATES {
        assert_eq!(draws.choice(state, 0), refused(state));
        assert_eq!(draws.choice_even(state, 0), refused(state));
        let next = draws.draw(state).number;
        assert_eq!(draws.choice(state, 1), drawn(0, next));
        for among in [2, 3, 255, 256, 8_192, 65_535, 65_536, 1 << 31, LAST] {
            assert_eq!(draws.choice(state, among), drawn(next % among, next));
        }
        for among in [next - 1, next, next.saturating_add(1).min(LAST)] {
            draws.choice(state, among);
        }
    }
}

/// The state, the number chosen among, the choice, and the state after as many draws.
const EVEN: [(u64, u64, u64, u64, usize); 8] = [
    (1, 3, 2, 270_369, 1),
    (270_369, 3, 0, 67_634_689, 1),
    (1, 1, 0, 270_369, 1),
    (1_584_200_935, 2, 0, 253_983, 2),
    (1_584_200_935, 3, 2, LAST, 1),
    (1_236_431_772, 7, 6, LAST - 3, 1),
    (3_137_861_301, 7, 5, 761_949, 2),
    (8_368, 2_147_483_649, 1_264_041_421, 3_411_525_071, 8),
];

#[test]
fn even_choices_are_those_that_request_5_lists() {
    let mut draws = Draws::start();
    for (state, among, number, after, times) in EVEN {
        assert_eq!(draws.choice_even(state, among), drawn(number, after));
        let last = draws_from(state as u32).nth(times - 1);
        assert_eq!(last.map(u64::from), Some(after));
    }
    assert_eq!(draws.choice_even(0, 3), refused(0));
    assert_eq!(draws.choice_even(7, 0), refused(7));
}

/// Each draw of a choice among 2^31 + 1 is taken at once about every second time.
#[test]
fn an_even_choice_takes_one_to_eight_draws() {
    let mut draws = Draws::start();
    let mut met = Tally::default();
    for state in draws_from(1).take(6_000) {
        let after = draws.choice_even(state.into(), (1 << 31) + 1).state;
        let drawn = draws_from(state).position(|draw| u64::from(draw) == after);
        met.note(drawn.expect("it is drawn") + 1);
    }
    met.expect((1..=8).map(|times| (times, 10)));
    assert_eq!(met.total(), (1..=8).map(|times| met.times(times)).sum());
}

#[test]
fn a_bias_over_1_000_is_reason_11() {
    let mut draws = Draws::start();
    for state in STATES {
        for bias in [1_001, 65_536, 65_936, 1 << 31, LAST] {
            assert_eq!(draws.heads(state, bias), refused(state));
        }
    }
}

#[test]
fn heads_never_come_at_bias_0_and_always_at_1_000() {
    let mut draws = Draws::start();
    let mut state = 1;
    for _ in 0..1_000 {
        let next = draws.draw(state).number;
        assert_eq!(draws.heads(state, 0), drawn(0, next));
        assert_eq!(draws.heads(state, 1_000), drawn(1, next));
        state = next;
    }
}

/// The remainder itself is tails; the remainder is 0 and 999 too.
#[test]
fn heads_come_where_the_remainder_is_below_the_bias() {
    let mut draws = Draws::start();
    let mut met = Tally::default();
    let mut state = 1;
    for _ in 0..3_000 {
        let next = draws.draw(state).number;
        let remainder = next % 1_000;
        assert_eq!(draws.heads(state, remainder), drawn(0, next));
        assert_eq!(draws.heads(state, remainder + 1), drawn(1, next));
        met.note(remainder);
        state = next;
    }
    met.expect([(0, 1), (999, 1)]);
}

#[test]
fn twenty_thousand_random_draws_are_those_of_the_independent_program() {
    let mut draws = Draws::start();
    let mut met = Tally::default();
    for seed in 0..20_000 {
        let DrawCase { state, among, bias } = draw_case(&mut Random::new(seed));
        met.note(("draw", draws.draw(state).reason));
        met.note(("choice", draws.choice(state, among).reason));
        met.note(("even", draws.choice_even(state, among).reason));
        let heads = draws.heads(state, bias);
        met.note(("heads", heads.reason));
        met.note(("heads are", heads.number));
    }
    met.expect(["draw", "choice", "even", "heads"].map(|call| ((call, NONE), 10_000)));
    met.expect(["draw", "choice", "even", "heads"].map(|call| ((call, OUT_OF_RANGE), 2_000)));
    met.expect([0, 1].map(|number| (("heads are", number), 4_000)));
}

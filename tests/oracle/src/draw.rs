//! Marsaglia's 32-bit xorshift, choosing in both modes and heads.

use crate::order::{BIASES, SEEDS, THOUSANDTHS};
use crate::reasons::{NONE, OUT_OF_RANGE};

/// Of an even choice.
const MOST_DRAWS: u64 = 8;

/// What a draw, a choice or heads gives when it is asked for alone.
#[derive(Clone, Copy, Debug, PartialEq, Eq)]
pub struct Drawn {
    pub reason: u64,
    pub number: u64,
    pub state: u64,
}

/// The generator inside a walk; its state is never 0.
#[derive(Clone, Copy, Debug, PartialEq, Eq)]
pub struct Generator {
    pub state: u32,
}

impl Generator {
    /// "the new y is both draw and state"
    pub fn draw(&mut self) -> u32 {
        self.state = drawn_from(self.state);
        self.state
    }

    /// "A choice among m is the draw's remainder by m, counted from 0."
    pub fn choice(&mut self, among: usize) -> usize {
        (u64::from(self.draw()) % among as u64) as usize
    }

    /// "otherwise draw again, at most eight draws in all, and then take the remainder of the eighth less 1 anyway"
    pub fn even_choice(&mut self, among: u64) -> u64 {
        let runs = u64::from(u32::MAX) / among;
        let mut place = 0;
        for _ in 0..MOST_DRAWS {
            place = u64::from(self.draw()) - 1;
            if place < among * runs {
                break;
            }
        }
        place % among
    }

    /// "Heads means that the draw's remainder by 1,000 is below the bias."
    pub fn heads(&mut self, bias: u64) -> bool {
        u64::from(self.draw()) % THOUSANDTHS < bias
    }
}

/// One draw: left 13, right 17, left 5, "each kept to 32 bits".
fn drawn_from(state: u32) -> u32 {
    let mut y = state;
    y ^= y << 13;
    y ^= y >> 17;
    y ^= y << 5;
    y
}

/// All draws from this state, one after the other.
pub fn draws_from(state: u32) -> impl Iterator<Item = u32> {
    std::iter::successors(Some(drawn_from(state)), |state| Some(drawn_from(*state)))
}

/// A draw asked for alone.
pub fn draw(state: u64) -> Drawn {
    drawn_alone(state, true, |draw| draw)
}

/// A choice asked for alone.
pub fn choice(state: u64, among: u64) -> Drawn {
    drawn_alone(state, among != 0, |draw| draw % among)
}

/// An even choice asked for alone.
pub fn choice_even(state: u64, among: u64) -> Drawn {
    if among == 0 || !SEEDS.contains(&state) {
        return refused(state);
    }
    let mut generator = Generator {
        state: state as u32,
    };
    let number = generator.even_choice(among);
    Drawn {
        reason: NONE,
        number,
        state: u64::from(generator.state),
    }
}

/// Heads asked for alone; the number is 1 for heads and 0 for tails.
pub fn heads(state: u64, bias: u64) -> Drawn {
    let is_heads = |draw: u64| u64::from(draw % THOUSANDTHS < bias);
    drawn_alone(state, BIASES.contains(&bias), is_heads)
}

/// Out of range, "the number is then 0 and the state stays".
fn refused(state: u64) -> Drawn {
    Drawn {
        reason: OUT_OF_RANGE,
        number: 0,
        state,
    }
}

fn drawn_alone(state: u64, in_range: bool, number_of: impl Fn(u64) -> u64) -> Drawn {
    if !in_range || !SEEDS.contains(&state) {
        return refused(state);
    }
    let draw = u64::from(drawn_from(state as u32));
    Drawn {
        reason: NONE,
        number: number_of(draw),
        state: draw,
    }
}

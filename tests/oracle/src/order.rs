//! The numbers of an order and their ranges.

use std::ops::RangeInclusive;

pub const SEEDS: RangeInclusive<u64> = 1..=4_294_967_295;
pub const FLIPS: RangeInclusive<u64> = 0..=100_000;
pub const WALKS: RangeInclusive<u64> = 1..=1_000;
/// A bias is given in thousandths.
pub const THOUSANDTHS: u64 = 1_000;
pub const BIASES: RangeInclusive<u64> = 0..=THOUSANDTHS;
/// How a choice is made: 0 by the remainder, 1 evenly.
pub const MODES: RangeInclusive<u64> = 0..=1;

/// What a walk is asked to do; `flips` are those allowed for each walk.
#[derive(Clone, Copy, Debug, Default, PartialEq, Eq)]
pub struct Order {
    pub seed: u64,
    pub flips: u64,
    pub walks: u64,
    pub bias: u64,
    pub even: u64,
}

impl Order {
    /// Document 01's examples: "Numbers are those above unless said."
    pub const EXAMPLE: Order = Order {
        seed: 1,
        flips: 10,
        walks: 1,
        bias: 400,
        even: 0,
    };

    pub fn all(&self) -> [u64; 5] {
        [self.seed, self.flips, self.walks, self.bias, self.even]
    }

    pub fn is_in_range(&self) -> bool {
        SEEDS.contains(&self.seed)
            && FLIPS.contains(&self.flips)
            && WALKS.contains(&self.walks)
            && BIASES.contains(&self.bias)
            && MODES.contains(&self.even)
    }
}

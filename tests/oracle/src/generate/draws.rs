//! Numbers for draws asked for alone.

use super::random::Random;
use crate::order::{SEEDS, THOUSANDTHS};

/// A state, a number to choose among and a bias; each fits in 32 bits.
#[derive(Clone, Copy, Debug, PartialEq, Eq)]
pub struct DrawCase {
    pub state: u64,
    pub among: u64,
    pub bias: u64,
}

/// Numbers at the ends of their ranges, 0 and past them too, or any.
pub fn draw_case(random: &mut Random) -> DrawCase {
    let any = random.bits() >> 32;
    let small = random.between(1, 20) as u64;
    let most = *SEEDS.end();
    let state = random.pick(&[0, 1, 2, most, any, any, any, any]);
    let half = 1 << 31;
    let among = random.pick(&[0, 1, 2, 3, THOUSANDTHS, half, half + 1, most, any, small]);
    let bias = random.pick(&[
        0,
        1,
        400,
        THOUSANDTHS - 1,
        THOUSANDTHS,
        THOUSANDTHS + 1,
        most,
    ]);
    DrawCase { state, among, bias }
}

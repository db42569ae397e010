//! Orders for a walk, in and out of range; every number fits in 32 bits.

use super::random::Random;
use crate::kinds;
use crate::order::{Order, BIASES, FLIPS, MODES, SEEDS, THOUSANDTHS, WALKS};

kinds! {
    pub enum OrderKind {
        IN_RANGE {
            /// No flip, one or two for each walk.
            ZeroFlips,
            OneFlip,
            TwoFlips,
            FewFlips,
            HundredsOfFlips,
            ThousandsOfFlips,
        }
        OUT_OF_RANGE {
            SeedOut,
            FlipsOut,
            WalksOut,
            BiasOut,
            ModeOut,
            /// Several numbers out of range at once.
            ManyOut,
        }
    }
}

/// An order of any kind, mostly in range.
pub fn order(random: &mut Random) -> Order {
    if random.one_in(10) {
        let kind = random.pick(&OrderKind::OUT_OF_RANGE);
        return order_of(kind, random);
    }
    order_in_range(random)
}

/// An order in range; one of thousands of flips is rare, since it takes long.
pub fn order_in_range(random: &mut Random) -> Order {
    let usual = &OrderKind::IN_RANGE[..OrderKind::IN_RANGE.len() - 1];
    let kind = if random.one_in(60) {
        OrderKind::ThousandsOfFlips
    } else {
        random.pick(usual)
    };
    order_of(kind, random)
}

pub fn order_of(kind: OrderKind, random: &mut Random) -> Order {
    let mut order = Order {
        seed: some_seed(random),
        flips: some_flips(kind, random),
        walks: random.between(1, 5) as u64,
        bias: some_bias(random),
        even: random.below(2) as u64,
    };
    put_out_of_range(&mut order, kind, random);
    order
}

fn some_seed(random: &mut Random) -> u64 {
    match random.below(8) {
        0 => *SEEDS.start(),
        1 => *SEEDS.end(),
        2 => random.between(1, 10) as u64,
        _ => random.bits() % SEEDS.end() + 1,
    }
}

fn some_flips(kind: OrderKind, random: &mut Random) -> u64 {
    let flips = match kind {
        OrderKind::ZeroFlips => 0,
        OrderKind::OneFlip => 1,
        OrderKind::TwoFlips => 2,
        OrderKind::HundredsOfFlips => random.between(100, 999),
        OrderKind::ThousandsOfFlips => random.between(1_000, 5_000),
        _ => random.between(3, 60),
    };
    flips as u64
}

fn some_bias(random: &mut Random) -> u64 {
    let any = random.bits() % (THOUSANDTHS + 1);
    random.pick(&[0, 400, THOUSANDTHS, any])
}

fn put_out_of_range(order: &mut Order, kind: OrderKind, random: &mut Random) {
    let many = kind == OrderKind::ManyOut;
    let most = u64::from(u32::MAX);
    if kind == OrderKind::SeedOut || many && random.coin() {
        order.seed = 0;
    }
    if kind == OrderKind::FlipsOut || many && random.coin() {
        order.flips = random.pick(&[FLIPS.end() + 1, most]);
    }
    if kind == OrderKind::WalksOut || many && random.coin() {
        order.walks = random.pick(&[0, WALKS.end() + 1, most]);
    }
    if kind == OrderKind::BiasOut || many {
        order.bias = random.pick(&[BIASES.end() + 1, most]);
    }
    if kind == OrderKind::ModeOut || many && random.coin() {
        order.even = random.pick(&[MODES.end() + 1, most]);
    }
}

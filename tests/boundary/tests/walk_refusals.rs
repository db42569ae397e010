//! Orders that are refused, and which reason comes first.

use boundary::lengths::for_each_shorter;
use boundary::{agreeing, disagreeing, few_steps, for_each_file, holding, Sides, ORDER};
use oracle::generate::*;
use oracle::reasons::{NONE, OUT_OF_RANGE, TABLES_DISAGREE, TABLE_TOO_SHORT};
use oracle::{Counts, Order};

const FILES: u64 = 12;
const LAST: u64 = u32::MAX as u64;

/// The usual order with one of its numbers changed.
fn changed(place: usize, number: u64) -> Order {
    let mut order = ORDER;
    let numbers = [
        &mut order.seed,
        &mut order.flips,
        &mut order.walks,
        &mut order.bias,
        &mut order.even,
    ];
    *numbers[place] = number;
    order
}

/// An order for each of these seeds, flips, walks, biases and modes.
fn orders_with(numbers: [&[u64]; 5]) -> Vec<Order> {
    let places = numbers.into_iter().enumerate();
    let orders = |(place, numbers): (usize, &[u64])| -> Vec<Order> {
        let order = |number: &u64| changed(place, *number);
        numbers.iter().map(order).collect()
    };
    places.flat_map(orders).collect()
}

/// One number just out of range, in range but for its high bits, or at the type's end.
fn orders_with_one_number_out() -> Vec<Order> {
    orders_with([
        &[0],
        &[100_001, 1 << 17, (1 << 31) + 10, LAST],
        &[0, 1_001, (1 << 16) + 1, (1 << 31) + 1, LAST],
        &[1_001, (1 << 16) + 400, (1 << 31) + 400, LAST],
        &[2, 3, (1 << 8) + 1, 1 << 16, (1 << 31) + 1, LAST],
    ])
}

/// One number at an end of its range, or with no low bits.
fn orders_at_the_ends() -> Vec<Order> {
    orders_with([
        &[1, 1 << 16, 1 << 31, LAST],
        &[0, 1 << 16, 100_000],
        &[1, 1 << 8, 1_000],
        &[0, 1 << 8, 1_000],
        &[0, 1],
    ])
}

#[test]
fn each_number_out_of_its_range_is_reason_11() {
    for_each_file(0..FILES, agreeing, |sides, _| {
        for order in orders_with_one_number_out() {
            sides.refuse_order(&order, OUT_OF_RANGE);
        }
        assert_eq!(sides.walk(&ORDER).reason, NONE);
    });
}

/// On a file that is soon found, so that the longest orders end.
#[test]
fn each_number_at_an_end_of_its_range_is_walked_by() {
    let mut sides = Sides::start();
    let standing = holding(b"a b\n~a b\nc ~b\n", &mut Random::new(1));
    sides.lend("soon found".into(), standing);
    let highest = Order {
        seed: LAST,
        flips: 100_000,
        walks: 1_000,
        bias: 1_000,
        even: 1,
    };
    for order in orders_at_the_ends().into_iter().chain([highest]) {
        assert_eq!(sides.walk(&order).reason, NONE);
    }
}

#[test]
fn several_numbers_out_of_their_ranges_are_reason_11() {
    let all = Order {
        seed: 0,
        flips: LAST,
        walks: 0,
        bias: LAST,
        even: LAST,
    };
    for_each_file(0..FILES, agreeing, |sides, random| {
        for _ in 0..10 {
            sides.refuse_order(&order_of(OrderKind::ManyOut, random), OUT_OF_RANGE);
        }
        sides.refuse_order(&all, OUT_OF_RANGE);
    });
}

#[test]
fn tables_that_disagree_are_reason_12_and_11_before_it() {
    for_each_file(0..FILES, disagreeing, |sides, random| {
        for order in orders_at_the_ends() {
            sides.refuse_order(&order, TABLES_DISAGREE);
        }
        for order in orders_with_one_number_out() {
            sides.refuse_order(&order, OUT_OF_RANGE);
        }
        sides.refuse_order(&few_steps(random), TABLES_DISAGREE);
    });
}

#[test]
fn a_table_too_short_is_reason_1_whatever_else_is_wrong() {
    for make in [agreeing, disagreeing] {
        for_each_shorter(make, |sides, random| {
            sides.refuse_order(&few_steps(random), TABLE_TOO_SHORT);
            for kind in OrderKind::OUT_OF_RANGE {
                sides.refuse_order(&order_of(kind, random), TABLE_TOO_SHORT);
            }
        });
    }
}

/// At an end of its type, or anywhere.
fn any_count(random: &mut Random) -> u64 {
    let any = random.bits() >> 32;
    random.pick(&[0, 1, 65_536, 1 << 31, LAST, any])
}

/// The counts come back as they were given, whatever the reason.
#[test]
fn counts_of_any_32_bits_come_back_from_a_refusal() {
    let mut sides = Sides::start();
    for seed in 0..40 {
        let random = &mut Random::new(seed);
        let (_, mut tables) = agreeing(random);
        let mut counts = Counts::default();
        for count in counts.all_mut() {
            *count = any_count(random);
        }
        sides.lend(format!("seed {seed}"), (counts, tables.clone()));
        sides.refuse_order(&ORDER, TABLES_DISAGREE);
        sides.refuse_order(&Order { walks: 0, ..ORDER }, OUT_OF_RANGE);
        tables.places.pop();
        sides.lend(format!("seed {seed}, short"), (counts, tables));
        sides.refuse_order(&ORDER, TABLE_TOO_SHORT);
    }
}

//! Order sheets, good and damaged.

use super::faulty_texts::change_bytes;
use super::orders::order_in_range;
use super::random::Random;
use crate::kinds;
use crate::order::{Order, BIASES, FLIPS, SEEDS, WALKS};
use crate::sheet::LINES;

/// The fifth line.
const EVEN: &str = "choice=even";

kinds! {
    pub enum SheetKind {
        Good,
        /// Numbers at the ends of their ranges, such that no walk is long.
        RangeEnds,
        LineMissing,
        EndsEarly,
        /// Nothing follows the line that lacks its byte 10.
        NoByte10,
        LeadingZero,
        ElevenDigits,
        OutOfRange,
        NoDigits,
        NotADigit,
        WrongKey,
        CarriageReturn,
        Spaces,
        LinesSwapped,
        ExtraLine,
        /// A fifth line that is nearly the one that may stand there, or only looks like it.
        NearlyEven,
        /// The input ends inside the fifth line.
        EvenCut,
        ChangedBytes,
        /// Two lines are faulty; the upper one is named.
        TwoFaults,
    }
}

/// Whether clause text may follow the sheet; a sheet that is cut must end the input.
pub fn text_may_follow(kind: SheetKind) -> bool {
    !matches!(
        kind,
        SheetKind::NoByte10 | SheetKind::EndsEarly | SheetKind::EvenCut
    )
}

/// A sheet of any kind.
pub fn sheet(random: &mut Random) -> Vec<u8> {
    let kind = random.pick(&SheetKind::ALL);
    sheet_of(kind, random)
}

/// The sheet of an order, as it should be written.
pub fn good_sheet(order: &Order) -> Vec<u8> {
    join(&lines_of(order))
}

pub fn sheet_of(kind: SheetKind, random: &mut Random) -> Vec<u8> {
    let order = order_in_range(random);
    sheet_of_order(kind, &order, random)
}

/// The sheet of this order with this fault; only the ends of the ranges replace the order.
pub fn sheet_of_order(kind: SheetKind, order: &Order, random: &mut Random) -> Vec<u8> {
    let line = random.below(LINES.len());
    let mut lines = lines_of(order);
    match kind {
        SheetKind::NearlyEven => lines.insert(LINES.len(), nearly_even(random)),
        SheetKind::EvenCut => return even_cut(order, random),
        SheetKind::RangeEnds => lines = lines_of(&order_at_range_ends(random)),
        SheetKind::LineMissing => drop(lines.remove(line)),
        SheetKind::EndsEarly => lines.truncate(line),
        SheetKind::NoByte10 => return without_byte_10(&mut lines, line, random),
        SheetKind::LinesSwapped => lines.swap(line, (line + 1) % LINES.len()),
        SheetKind::ExtraLine => lines.insert(line, random.pick(&["", " ", "~", "seed=1"]).into()),
        SheetKind::ChangedBytes => return changed(&lines, random),
        SheetKind::TwoFaults => put_two_faults(&mut lines, random),
        _ => put_fault(kind, &mut lines[line], line, random),
    }
    join(&lines)
}

fn lines_of(order: &Order) -> Vec<String> {
    let numbers = LINES.iter().zip(order.all());
    let mut lines: Vec<String> = numbers
        .map(|((key, _), number)| format!("{key}{number}"))
        .collect();
    if order.even == 1 {
        lines.push(EVEN.into());
    }
    lines
}

fn nearly_even(random: &mut Random) -> String {
    let lines = [
        "choice=",
        "choice=e",
        "choice=eve",
        "choice=evenly",
        "choice=odd",
        "choice=even ",
        "choice=even\r",
        "choice=even\t",
        "choice= even",
        "choice=EVEN",
        "choice==",
        "choice=1",
        "choice=~",
        "choice",
        "choic=even",
        "Choice=x",
        " choice=x",
        "~choice=x",
        "~ choice=even",
        "choice even",
        EVEN,
    ];
    random.pick(&lines).into()
}

/// The last line is at least begun.
fn even_cut(order: &Order, random: &mut Random) -> Vec<u8> {
    let mut bytes = good_sheet(&Order { even: 0, ..*order });
    bytes.extend(&EVEN.as_bytes()[..random.between(1, EVEN.len())]);
    bytes
}

fn join(lines: &[String]) -> Vec<u8> {
    lines
        .iter()
        .flat_map(|line| [line.as_bytes(), b"\n"].concat())
        .collect()
}

/// Many flips or many walks, not both.
fn order_at_range_ends(random: &mut Random) -> Order {
    let seed = random.pick(&[*SEEDS.start(), *SEEDS.end()]);
    let bias = random.pick(&[*BIASES.start(), *BIASES.end()]);
    let (fewest, most) = (*FLIPS.start(), *FLIPS.end());
    let (one, many) = (*WALKS.start(), *WALKS.end());
    let (flips, walks) = random.pick(&[(fewest, one), (fewest, many), (most, one)]);
    Order {
        seed,
        flips,
        walks,
        bias,
        even: random.below(2) as u64,
    }
}

/// Changes one line so that it has this fault.
fn put_fault(kind: SheetKind, line: &mut String, index: usize, random: &mut Random) {
    let key = LINES[index].0;
    let number = line[key.len()..].to_string();
    *line = match kind {
        SheetKind::LeadingZero => format!("{key}{}{number}", random.pick(&["0", "00"])),
        SheetKind::ElevenDigits => format!("{key}1{:010}", random.bits() % 10_000_000_000),
        SheetKind::OutOfRange => format!("{key}{}", out_of_range(index, random)),
        SheetKind::NoDigits => key.to_string(),
        SheetKind::NotADigit => not_a_digit(key, &number, random),
        SheetKind::WrongKey => format!("{}{number}", wrong_key(key, random)),
        SheetKind::CarriageReturn => format!("{key}{number}\r"),
        SheetKind::Spaces => with_space(key, &number, random),
        _ => return,
    };
}

/// Just outside the range, or far, also past 32 bits.
fn out_of_range(index: usize, random: &mut Random) -> u64 {
    let range = &LINES[index].1;
    let past = range.end() + 1;
    let mut numbers = vec![
        past,
        past + random.bits() % 1_000,
        4_294_967_297,
        9_999_999_999,
    ];
    if *range.start() > 0 {
        numbers.push(0);
    }
    random.pick(&numbers)
}

fn not_a_digit(key: &str, number: &str, random: &mut Random) -> String {
    let wrong = random.pick(&["x", "-", "+", ".", "/", ":", "~", "\0"]);
    if random.coin() {
        format!("{key}{wrong}{number}")
    } else {
        format!("{key}{number}{wrong}")
    }
}

fn wrong_key(key: &str, random: &mut Random) -> String {
    let other = LINES[random.below(LINES.len())].0.to_string();
    let without_last = key[..key.len() - 1].to_string();
    let without_first = key[1..].to_string();
    let capital = key.to_uppercase();
    let keys = [
        format!("x{other}"),
        without_last,
        without_first,
        capital,
        key.repeat(2),
    ];
    random.pick(&keys)
}

fn with_space(key: &str, number: &str, random: &mut Random) -> String {
    let bare = &key[..key.len() - 1];
    let lines = [
        format!(" {key}{number}"),
        format!("{key}{number} "),
        format!("{key} {number}"),
        format!("{bare} ={number}"),
        format!("{key}{number}\t"),
    ];
    random.pick(&lines)
}

/// Two different lines get a fault each, one of form and one of range in either order.
fn put_two_faults(lines: &mut [String], random: &mut Random) {
    let first = random.below(LINES.len());
    let second = (first + random.between(1, LINES.len() - 1)) % LINES.len();
    put_fault(SheetKind::OutOfRange, &mut lines[first], first, random);
    put_fault(SheetKind::NoDigits, &mut lines[second], second, random);
}

/// The line may be faulty besides: `seed=0` without byte 10 is reason 10.
fn without_byte_10(lines: &mut Vec<String>, line: usize, random: &mut Random) -> Vec<u8> {
    lines.truncate(line + 1);
    if random.one_in(3) {
        put_fault(SheetKind::OutOfRange, &mut lines[line], line, random);
    }
    let mut bytes = join(lines);
    bytes.pop();
    bytes
}

/// One digit becomes another, or any bytes any others.
fn changed(lines: &[String], random: &mut Random) -> Vec<u8> {
    let mut bytes = join(lines);
    if random.coin() {
        change_bytes(&mut bytes, random);
        return bytes;
    }
    let digits: Vec<usize> = (0..bytes.len())
        .filter(|at| bytes[*at].is_ascii_digit())
        .collect();
    bytes[random.pick(&digits)] = random.pick(b"0123456789");
    bytes
}

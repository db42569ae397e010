//! Prints calls with what they answer and leave, as rows of an antt table: `rows SEED COUNT`.
//! `tools/compare_written.py` has the prover compute them from the definitions.

use std::fmt::Display;

use oracle::agree::agree;
use oracle::draw::{choice, choice_even, heads};
use oracle::flips::{flip, FlipAnswer};
use oracle::generate::{
    damage_of, draw_case, flip_case, numbered_case, order_in_range, pin_case, pin_of_some_term,
    pinned_tables, read_case, reader_case, run_case, walk_case, DamageKind, DrawCase, FlipCase,
    PinCase, Random, ReadCase, WalkCase,
};
use oracle::marks::FREE;
use oracle::numbered::{read_numbered, read_numbered_state};
use oracle::pins::{lift, pin};
use oracle::reader::ReaderStep;
use oracle::reading::{read, ReadAnswer};
use oracle::reasons::{HEADER_FORM, PINNED_TERM, TEXT_CUT, TEXT_TOO_LONG, TOO_MANY_TERMS};
use oracle::walk::{walk, walk_telling, End, Event};
use oracle::{run_on, Counts, Limits, Reader, Tables};

/// Small enough for the prover to compute, and met by short texts.
const LIMITS: Limits = Limits {
    text: 120,
    terms: 5,
    clauses: 7,
    literals: 16,
    list: 9,
};

/// More flips than this take the prover too long.
const FLIPS: u64 = 40;

/// As do longer texts where each of many steps looks at the whole of them.
const SCANNED: usize = 60;

/// Makes a row, or none where the prover would take too long or the case is not of the kind.
type Make = fn(&mut Random) -> Option<String>;

/// What a list, a pin or a lift answers, and the tables that it leaves.
type Done = (FlipAnswer, Tables);

/// The kinds of row, one after the other: 207 rows are nine times these.
const KINDS: [Make; 23] = [
    reading,
    walking,
    flipping,
    running,
    drawing,
    scanning,
    pinning,
    lifting,
    reading,
    walking_with_pins,
    flipping_with_pins,
    on_damaged_marks,
    pinning_with_a_flip,
    lifting_a_pin,
    reading,
    running,
    scanning,
    naming_a_pin,
    sticking,
    on_short_marks,
    numbering,
    numbering_past_the_header,
    numbering_past_the_header,
];

/// Damage to marks alone.
const MARKS: [DamageKind; 3] = [
    DamageKind::MarkPast2,
    DamageKind::PinnedAtTheOtherValue,
    DamageKind::MarkPastTheTerms,
];

fn main() {
    let numbers: Vec<u64> = std::env::args()
        .skip(1)
        .filter_map(|word| word.parse().ok())
        .collect();
    let [seed, count] = numbers[..] else {
        eprintln!("usage: rows SEED COUNT");
        return;
    };
    let mut random = Random::new(seed);
    for make in KINDS.iter().cycle().take(count as usize) {
        println!("{}", made(*make, &mut random));
    }
}

/// The first row that is made.
fn made(make: Make, random: &mut Random) -> String {
    loop {
        if let Some(row) = make(random) {
            return row;
        }
    }
}

fn reading(random: &mut Random) -> Option<String> {
    let case = read_case(&LIMITS, random);
    read_row("reading", read, case, random)
}

fn numbering(random: &mut Random) -> Option<String> {
    let case = numbered_case(&LIMITS, random);
    read_row("numbering", read_numbered, case, random)
}

/// Nothing is wrong up to the header's line: it is accepted, or a number or the count is wrong.
fn numbering_past_the_header(random: &mut Random) -> Option<String> {
    let case = numbered_case(&LIMITS, random);
    let told = read_numbered_state(&LIMITS, &case.text);
    let early = [TEXT_TOO_LONG, TEXT_CUT, TOO_MANY_TERMS, HEADER_FORM];
    let is_early = told.is_err_and(|fault| early.contains(&fault.reason));
    (!is_early).then(|| read_row("numbering", read_numbered, case, random))?
}

/// A reading of either form.
fn read_row(
    asked: &str,
    read: fn(&Limits, &[u8], &mut Tables) -> ReadAnswer,
    mut case: ReadCase,
    random: &mut Random,
) -> Option<String> {
    if case.text.len() > LIMITS.text + 1 {
        return None;
    }
    lend_marks(&mut case.tables, random);
    let mut after = case.tables.clone();
    let told = read(&LIMITS, &case.text, &mut after);
    let numbers = [told.result, told.reason, told.line, 0, 0];
    Some(format!(
        "({asked} {} {}) tells {}",
        list(&case.text),
        tables(&case.tables),
        seen(numbers, &told.counts, &after),
    ))
}

fn walking(random: &mut Random) -> Option<String> {
    walk_row(&walk_case(&LIMITS, random))
}

/// On tables that agree, with pinned terms that leave each walk a literal to look at.
fn walking_with_pins(random: &mut Random) -> Option<String> {
    let case = walk_case(&LIMITS, random);
    let wanted = holds_a_pin(&case.counts, &case.tables) && !sticks(&case);
    wanted.then(|| walk_row(&case)).flatten()
}

/// A walk comes to a clause with no literal of a free term.
fn sticking(random: &mut Random) -> Option<String> {
    let case = walk_case(&LIMITS, random);
    sticks(&case).then(|| walk_row(&case)).flatten()
}

fn sticks(case: &WalkCase) -> bool {
    let (mut after, mut stuck) = (case.tables.clone(), false);
    let mut tell = |event| stuck |= event == Event::End(End::Stuck);
    walk_telling(&LIMITS, &case.order, case.counts, &mut after, &mut tell);
    stuck
}

fn walk_row(case: &WalkCase) -> Option<String> {
    if case.order.is_in_range() && case.order.flips * case.order.walks > FLIPS {
        return None;
    }
    let mut after = case.tables.clone();
    let told = walk(&LIMITS, &case.order, case.counts, &mut after);
    let numbers = [told.result, told.reason, 0, told.walks, told.flips];
    Some(format!(
        "(walking (order {}) {} {}) tells {}",
        spaced(&case.order.all()),
        counts(&case.counts),
        tables(&case.tables),
        seen(numbers, &told.counts, &after),
    ))
}

fn flipping(random: &mut Random) -> Option<String> {
    Some(flip_row(&flip_case(&LIMITS, random)))
}

/// On tables that agree, with pinned terms.
fn flipping_with_pins(random: &mut Random) -> Option<String> {
    let case = flip_case(&LIMITS, random);
    holds_a_pin(&case.counts, &case.tables).then(|| flip_row(&case))
}

/// Refused for that alone.
fn naming_a_pin(random: &mut Random) -> Option<String> {
    let case = flip_case(&LIMITS, random);
    let (told, _) = flipped(&case);
    (told.reason == PINNED_TERM).then(|| flip_row(&case))
}

fn flipped(case: &FlipCase) -> Done {
    let mut after = case.tables.clone();
    let told = flip(&LIMITS, &case.list, case.counts, &mut after);
    (told, after)
}

fn flip_row(case: &FlipCase) -> String {
    let asked = format!("flipping {}", list(&case.list));
    on_a_file(&asked, &case.counts, &case.tables, flipped(case))
}

fn pinning(random: &mut Random) -> Option<String> {
    Some(pin_row(&pin_case(&LIMITS, random)))
}

/// The term has the other value.
fn pinning_with_a_flip(random: &mut Random) -> Option<String> {
    let case = pin_case(&LIMITS, random);
    let (_, after) = pinned(&case);
    (after.values != case.tables.values).then(|| pin_row(&case))
}

fn pinned(case: &PinCase) -> Done {
    let mut after = case.tables.clone();
    let told = pin(&LIMITS, case.term, case.value, case.counts, &mut after);
    (told, after)
}

fn pin_row(case: &PinCase) -> String {
    let asked = format!("pinning {} {}", case.term, case.value);
    on_a_file(&asked, &case.counts, &case.tables, pinned(case))
}

fn lifting(random: &mut Random) -> Option<String> {
    Some(lift_row(&pin_case(&LIMITS, random)))
}

/// The term is pinned.
fn lifting_a_pin(random: &mut Random) -> Option<String> {
    let case = pin_case(&LIMITS, random);
    let (_, after) = lifted(&case);
    (after != case.tables).then(|| lift_row(&case))
}

fn lifted(case: &PinCase) -> Done {
    let mut after = case.tables.clone();
    let told = lift(&LIMITS, case.term, case.counts, &mut after);
    (told, after)
}

fn lift_row(case: &PinCase) -> String {
    let asked = format!("lifting {}", case.term);
    on_a_file(&asked, &case.counts, &case.tables, lifted(case))
}

/// A call that answers as a flip list does.
fn on_a_file(asked: &str, given: &Counts, before: &Tables, (told, after): Done) -> String {
    let numbers = [told.result, told.reason, 0, 0, 0];
    format!(
        "({asked} {} {}) tells {}",
        counts(given),
        tables(before),
        seen(numbers, &told.counts, &after),
    )
}

fn running(random: &mut Random) -> Option<String> {
    let mut case = run_case(&LIMITS, random);
    if case.input.len() > LIMITS.text + 1 || walks_long(&case.input) {
        return None;
    }
    lend_marks(&mut case.tables, random);
    let (mut after, mut out) = (case.tables.clone(), case.out.clone());
    let told = run_on(&LIMITS, &case.input, &mut after, &mut out);
    Some(format!(
        "(running {} {} {}) tells (ran {} {} {})",
        list(&case.input),
        tables(&case.tables),
        list(&case.out),
        spaced(&[told.result, told.reason, told.length]),
        tables(&after),
        list(&out),
    ))
}

/// A call on tables that agree but for their marks.
fn on_damaged_marks(random: &mut Random) -> Option<String> {
    let (mut counts, mut tables) = pinned_tables(&LIMITS, random);
    let kind = random.pick(&MARKS);
    damage_of(kind, &LIMITS, &mut counts, &mut tables, random);
    let hold = agree(&LIMITS, &counts, &tables);
    any_row(counts, tables, random).filter(|_| !hold)
}

/// A call with marks that are shorter than their full size.
fn on_short_marks(random: &mut Random) -> Option<String> {
    let (counts, mut tables) = pinned_tables(&LIMITS, random);
    shorten_marks(&mut tables, random);
    any_row(counts, tables, random)
}

/// The marks become too short, stay, or stand as a call may have left them.
fn lend_marks(tables: &mut Tables, random: &mut Random) {
    match random.below(10) {
        0 => shorten_marks(tables, random),
        1..=3 => {}
        _ => tables.marks.fill_with(|| random.bits() % 3),
    }
}

fn shorten_marks(tables: &mut Tables, random: &mut Random) {
    let length = random.below(LIMITS.terms);
    tables.marks.truncate(length);
}

/// An order, a list, a pin or a lift.
fn any_row(counts: Counts, tables: Tables, random: &mut Random) -> Option<String> {
    let (term, value) = pin_of_some_term(counts.terms, random);
    let (order, list) = (order_in_range(random), vec![term]);
    let row = random.pick(&[pin_row, lift_row]);
    match random.below(3) {
        0 => walk_row(&WalkCase {
            order,
            counts,
            tables,
        }),
        1 => Some(flip_row(&FlipCase {
            list,
            counts,
            tables,
        })),
        _ => Some(row(&PinCase {
            term,
            value,
            counts,
            tables,
        })),
    }
}

/// Whether tables agree and have a pinned term.
fn holds_a_pin(counts: &Counts, tables: &Tables) -> bool {
    agree(&LIMITS, counts, tables)
        && tables.marks[..LIMITS.terms]
            .iter()
            .any(|mark| *mark != FREE)
}

/// Choices in both modes and heads, each asked for alone.
fn drawing(random: &mut Random) -> Option<String> {
    let DrawCase { state, among, bias } = draw_case(random);
    let told = [
        choice(state, among),
        choice_even(state, among),
        heads(state, bias),
    ];
    let numbers = told.map(|drawn| [drawn.reason, drawn.number, drawn.state]);
    Some(format!(
        "(drawing {}) tells (stepped {})",
        spaced(&[state, among, bias]),
        list(&numbers.concat()),
    ))
}

/// The steps of a script, each from where the one before has left the reader, in one list of numbers.
fn scanning(random: &mut Random) -> Option<String> {
    let case = reader_case(random);
    if case.text.len() > SCANNED {
        return None;
    }
    let mut reader = Reader::standing_at(&case.text, case.at, case.line);
    let rows = reader.follow(&case.script);
    let begun = [case.at as u64, case.line];
    let left = rows.iter().map(|[.., at, line]| [*at, *line]);
    let places = [begun].into_iter().chain(left);
    let asked: Vec<String> = case.script.iter().zip(places).map(asked).collect();
    Some(format!(
        "(scanning {} {}) tells (stepped {})",
        list(&case.text),
        list(&asked),
        list(&rows.concat()),
    ))
}

fn asked((step, place): (&ReaderStep, [u64; 2])) -> String {
    let word = match step {
        ReaderStep::Next => "next",
        ReaderStep::Pass => "pass",
    };
    format!("{word} {}", spaced(&place))
}

/// Whether the sheet's flips and walks, as far as they can be read, are many together.
fn walks_long(input: &[u8]) -> bool {
    let lines = String::from_utf8_lossy(input);
    let number = |key: &str| {
        let line = lines.lines().find_map(|line| line.strip_prefix(key));
        line.and_then(|digits| digits.parse::<u64>().ok())
            .unwrap_or(0)
    };
    number("flips=").saturating_mul(number("walks=")) > FLIPS
}

/// Result, reason, line, walks and flips, then what is left.
fn seen(numbers: [u64; 5], left: &Counts, after: &Tables) -> String {
    let numbers = spaced(&numbers);
    format!("(seen {numbers} {} {})", counts(left), tables(after))
}

fn counts(counts: &Counts) -> String {
    format!("(counts {})", spaced(&counts.all()))
}

/// The ten tables, and the marks beside them.
fn tables(tables: &Tables) -> String {
    let lists = tables.all().map(|table| list(table));
    let (marks, ten) = lists.split_last().expect("there are eleven");
    format!("(lent {}) {marks}", spaced(ten))
}

fn spaced(words: &[impl ToString]) -> String {
    let words: Vec<String> = words.iter().map(ToString::to_string).collect();
    words.join(" ")
}

fn list(entries: &[impl Display]) -> String {
    let joined: String = entries.iter().map(|entry| format!("{entry} ∷ ")).collect();
    format!("({joined}[])")
}

//! What must hold on every generated case, and that the generator meets every kind.

mod common;

use std::collections::{BTreeMap, BTreeSet};

use common::*;
use oracle::agree::agree;
use oracle::draw::{choice, choice_even, draw, draws_from, heads};
use oracle::flips::flip;
use oracle::generate::lent::lengthen;
use oracle::generate::lines::opposite_word;
use oracle::generate::*;
use oracle::reader::{Item, Reader, ReaderStep, Told};
use oracle::reading::read;
use oracle::reasons::TEXT_CUT;
use oracle::sheet::read_sheet;
use oracle::state::State;
use oracle::walk::{walk, walk_telling, End, Event};
use oracle::{run, run_on, Counts, Limits, Tables};

/// Cases under the limits of document 01, and under limits that small texts meet.
const SCALES: [(Limits, u64); 2] = [(NARROW, 400), (SMALL, 3_000)];

/// Cuts of each flip list, over 5,000 in all.
const CUTS: usize = 2;

fn for_each_case(check: impl Fn(&Limits, &mut Random)) {
    for (limits, cases) in SCALES {
        for seed in 0..cases {
            check(&limits, &mut Random::new(seed));
        }
    }
}

/// Cuts tables to their full sizes.
fn within_full_size(limits: &Limits, tables: &Tables) -> Tables {
    let mut cut = tables.clone();
    for (table, size) in cut.all_mut().into_iter().zip(limits.full_sizes()) {
        table.truncate(size);
    }
    cut
}

#[test]
fn a_reading_is_accepted_with_agreeing_tables_or_refused_with_zeros() {
    for_each_case(|limits, random| {
        let ReadCase { text, mut tables } = read_case(limits, random);
        let before = tables.clone();
        let answer = read(limits, &text, &mut tables);
        assert_excess_untouched(limits, &before, &tables);
        assert_eq!(answer.line > 0, matches!(answer.reason, 4..=8 | 15));
        assert_eq!(answer.reason == 1, !before.reach_full_size(limits));
        if answer.result == 1 {
            assert!(agree(limits, &answer.counts, &tables));
            assert_counted_afresh(&answer.counts, &tables);
            let words = &tables.values[..limits.full_sizes()[1]];
            assert!(words.iter().all(|word| *word == 0));
            assert!(tables.uncovered[..answer.counts.uncovered as usize].is_sorted());
        } else {
            assert_eq!(answer.counts, Counts::default());
            let left = if answer.reason == 1 {
                before
            } else {
                Tables::zeros(limits)
            };
            let same = within_full_size(limits, &tables) == within_full_size(limits, &left);
            assert!(same);
        }
    });
}

#[test]
fn a_walk_that_finds_covers_every_clause_and_one_that_gives_up_is_spent() {
    for_each_case(|limits, random| {
        let mut case = walk_case(limits, random);
        let (order, before) = (case.order, (case.counts, case.tables.clone()));
        let mut stuck = false;
        let tell = &mut |event| stuck |= event == Event::End(End::Stuck);
        let answer = walk_telling(limits, &order, case.counts, &mut case.tables, tell);
        let after = (answer.counts, case.tables);
        if !is_accepted(limits, answer.result, &before, &after) {
            assert_eq!(ended(answer), [0, 0, 0]);
            return;
        }
        let covered = |clause: u64| !true_literals(&after.1, clause as usize).is_empty();
        let all_covered = (0..case.counts.clauses).all(covered);
        if all_covered {
            assert!(answer.result == 1 && (1..=order.walks).contains(&answer.walks));
            assert!(answer.flips <= answer.walks * order.flips);
        } else {
            assert_eq!([answer.result, answer.walks], [2, order.walks]);
            assert!(answer.flips <= order.walks * order.flips);
            assert!(stuck || answer.flips == order.walks * order.flips);
        }
    });
}

#[test]
fn the_steps_told_of_a_walk_are_its_flips() {
    let mut tossed = [0; 3];
    for seed in 0..1_000 {
        let mut case = walk_case(&SMALL, &mut Random::new(seed));
        let (mut steps, mut ends) = (Vec::new(), Vec::new());
        let tell = &mut |event| match event {
            Event::Flip(step) => steps.push(step),
            Event::End(end) => ends.push(end),
        };
        let answer = walk_telling(&SMALL, &case.order, case.counts, &mut case.tables, tell);
        assert_eq!(
            [steps.len(), ends.len()],
            [answer.flips, answer.walks].map(|n| n as usize)
        );
        let found = ends.iter().position(|end| *end == End::Found);
        assert_eq!(found, (answer.result == 1).then(|| ends.len() - 1));
        for step in steps {
            assert!((1..=case.counts.clauses as usize).contains(&step.uncovered));
            assert!((1..=step.literals).contains(&step.at_least));
            assert_eq!(step.heads.is_some(), step.least > 0);
            tossed[step.heads.map_or(0, |heads| 1 + usize::from(heads))] += 1;
        }
    }
    assert!(tossed.iter().all(|steps| *steps > 500), "{tossed:?}");
}

#[test]
fn a_flip_list_turns_the_terms_named_an_odd_number_of_times() {
    for_each_case(|limits, random| {
        let mut case = flip_case(limits, random);
        let before = (case.counts, case.tables.clone());
        let answer = flip(limits, &case.list, case.counts, &mut case.tables);
        let after = (answer.counts, case.tables);
        if !is_accepted(limits, answer.result, &before, &after) {
            return;
        }
        let mut named = vec![0; case.counts.terms as usize];
        case.list.iter().for_each(|term| named[*term as usize] += 1);
        for (term, times) in named.into_iter().enumerate() {
            assert_eq!(bit(&after.1, term), bit(&before.1, term) ^ (times % 2));
        }
    });
}

/// An accepted list over standing tables, with the counts and tables before and after it.
struct Flipped {
    list: Vec<u64>,
    before: Lent,
    after: Lent,
}

fn flipped(limits: &Limits, random: &mut Random) -> Flipped {
    let (counts, tables) = standing_tables(limits, random);
    let usual = &FlipListKind::ACCEPTED[..FlipListKind::ACCEPTED.len() - 1];
    let list = flip_list_of(random.pick(usual), limits, counts.terms, random);
    let mut lent = tables.clone();
    let answer = flip(limits, &list, counts, &mut lent);
    assert_eq!((answer.result, answer.reason), (1, 0));
    Flipped {
        list,
        before: (counts, tables),
        after: (answer.counts, lent),
    }
}

/// "only the order within the uncovered list, and the places noted for it, may differ"
fn assert_same_but_for_order(one: Lent, other: Lent) {
    assert_eq!(one.0, other.0);
    assert!(one.1.without_list_order(&one.0) == other.1.without_list_order(&other.0));
}

fn for_each_flip(check: impl Fn(&Limits, &mut Random, Flipped)) {
    for_each_case(|limits, random| {
        let case = flipped(limits, random);
        check(limits, random, case);
    });
}

#[test]
fn two_orders_of_one_list_leave_the_same_but_for_the_lists_order() {
    for_each_flip(|limits, random, mut case| {
        random.shuffle(&mut case.list);
        let (counts, mut tables) = case.before;
        let answer = flip(limits, &case.list, counts, &mut tables);
        assert_same_but_for_order((answer.counts, tables), case.after);
    });
}

#[test]
fn a_list_given_twice_restores_the_values() {
    for_each_flip(|limits, _, case| {
        let (counts, mut tables) = case.after;
        let answer = flip(limits, &case.list, counts, &mut tables);
        assert_same_but_for_order((answer.counts, tables), case.before);
    });
}

#[test]
fn a_list_may_be_cut_anywhere_and_its_parts_given_in_order() {
    for_each_flip(|limits, random, case| {
        for _ in 0..CUTS {
            let (first, second) = case.list.split_at(random.between(0, case.list.len()));
            let (counts, mut tables) = case.before.clone();
            let middle = flip(limits, first, counts, &mut tables);
            let end = flip(limits, second, middle.counts, &mut tables);
            assert_eq!([middle.result, end.result], [1, 1]);
            assert!((end.counts, tables) == case.after);
        }
    });
}

/// Step 5 in the document's own words, on the list and places of the tables themselves.
fn move_the_list(counts: &mut Counts, tables: &mut Tables, term: usize) {
    let becomes_true = 2 * term + bit(tables, term) as usize;
    let run = |tables: &Tables, literal: usize| {
        let starts = &tables.occurrence_starts[literal..literal + 2];
        tables.occurrences[starts[0] as usize..starts[1] as usize].to_vec()
    };
    let was_uncovered = |tables: &Tables, clause| true_literals(tables, clause).is_empty();
    let mut leaving = run(tables, becomes_true);
    leaving.retain(|clause| was_uncovered(tables, *clause as usize));
    tables.values[term / 32] ^= 1 << (term % 32);
    for clause in leaving {
        counts.uncovered -= 1;
        let (slot, last) = (tables.places[clause as usize], counts.uncovered as usize);
        tables.uncovered[slot as usize] = tables.uncovered[last];
        tables.places[tables.uncovered[last] as usize] = slot;
        tables.uncovered[last] = 0;
        tables.places[clause as usize] = 0;
    }
    for clause in run(tables, becomes_true ^ 1) {
        if was_uncovered(tables, clause as usize) {
            tables.uncovered[counts.uncovered as usize] = clause;
            tables.places[clause as usize] = counts.uncovered;
            counts.uncovered += 1;
        }
    }
}

#[test]
fn a_flip_list_moves_the_uncovered_list_as_step_5_says() {
    for_each_flip(|_, _, case| {
        let (mut counts, mut tables) = case.before;
        for term in case.list {
            move_the_list(&mut counts, &mut tables, term as usize);
        }
        let (counts_after, after) = case.after;
        assert_eq!(counts, counts_after);
        assert!(tables.values == after.values);
        assert!(tables.uncovered == after.uncovered && tables.places == after.places);
    });
}

/// "Tables agree if", said another way: a state laid out afresh gives the same tables.
fn agrees_said_another_way(limits: &Limits, counts: &Counts, tables: &Tables) -> bool {
    if !tables.reach_full_size(limits) || !counts.are_within(limits) || counts.clauses == 0 {
        return false;
    }
    let starts = &tables.starts[..=counts.clauses as usize];
    if !starts.is_sorted() || starts.last() != Some(&counts.literals) {
        return false;
    }
    let state = State::standing(counts, tables);
    let known = |literal: &usize| *literal < 2 * state.names.len();
    let sound = |clause: &Vec<usize>| {
        let terms: BTreeSet<usize> = clause.iter().map(|literal| literal / 2).collect();
        !clause.is_empty() && clause.iter().all(known) && terms.len() == clause.len()
    };
    let listed: BTreeSet<usize> = state.uncovered.iter().copied().collect();
    state.clauses.iter().all(sound)
        && listed.len() == state.uncovered.len()
        && listed.iter().all(|clause| *clause < state.clauses.len())
        && listed.iter().all(|clause| state.true_count(*clause) == 0)
        && state.uncovered_rising().len() == listed.len()
        && state
            .pins
            .iter()
            .zip(&state.values)
            .all(|(pin, value)| pin.is_none_or(|pin| pin == *value))
        && names_can_be_written(&state.names)
        && state.lay_out(limits) == within_full_size(limits, tables)
}

/// Whether a text of these names as unit clauses is read back as these names.
fn names_can_be_written(names: &[u64]) -> bool {
    let limits = Limits {
        text: 10 * names.len(),
        terms: names.len(),
        ..NARROW
    };
    let line = |name: &u64| {
        let bytes = name.to_le_bytes();
        let end = bytes
            .iter()
            .position(|byte| *byte == 0)
            .unwrap_or(bytes.len());
        [&bytes[..end], b"\n"].concat()
    };
    let text: Vec<u8> = names.iter().flat_map(line).collect();
    oracle::reading::read_state(&limits, &text).is_ok_and(|state| state.names == names)
}

#[test]
fn agreement_is_judged_alike_when_said_another_way() {
    let verdicts = SCALES.map(|(limits, cases)| {
        let mut verdicts = [0; 2];
        for seed in 0..cases {
            let WalkCase { counts, tables, .. } = walk_case(&limits, &mut Random::new(seed));
            let verdict = agree(&limits, &counts, &tables);
            let said_another_way = agrees_said_another_way(&limits, &counts, &tables);
            assert_eq!(verdict, said_another_way, "{seed}");
            verdicts[usize::from(verdict)] += 1;
        }
        verdicts
    });
    let often = verdicts.concat().iter().all(|met| *met > 100);
    assert!(often, "{verdicts:?}");
}

#[test]
fn agreement_never_panics_on_tables_of_any_length() {
    for seed in 0..4_000 {
        let random = &mut Random::new(seed);
        let (mut counts, mut tables) = standing_tables(&SMALL, random);
        damage(&SMALL, &mut counts, &mut tables, random);
        for table in tables.all_mut() {
            if random.one_in(3) {
                table.truncate(random.between(0, table.len()));
            }
        }
        let verdict = agree(&SMALL, &counts, &tables);
        assert!(!verdict || tables.reach_full_size(&SMALL));
    }
}

#[test]
fn what_lies_past_the_full_size_is_never_read() {
    for_each_case(|limits, random| {
        let WalkCase {
            order,
            counts,
            mut tables,
        } = walk_case(limits, random);
        let mut exact = within_full_size(limits, &tables);
        let mut other = exact.clone();
        if exact.reach_full_size(limits) {
            lengthen(&mut other, limits, random);
        }
        let answers =
            [&mut tables, &mut exact, &mut other].map(|lent| walk(limits, &order, counts, lent));
        assert!(answers[0] == answers[1] && answers[1] == answers[2]);
        assert!(within_full_size(limits, &tables) == exact);
        assert!(within_full_size(limits, &other) == exact);
    });
}

/// Whether the answer covers a line of the text, judged on words alone.
fn covers(answer: &BTreeSet<Vec<u8>>, line: &[u8]) -> bool {
    let words = line.split(|byte| *byte == b' ');
    let words: Vec<&[u8]> = words.filter(|word| !word.is_empty()).collect();
    let drops = |index: usize| {
        let opposite = opposite_word(words[index]);
        words[index] == b"~" || words[..index].contains(&&opposite[..])
    };
    let covering = |index: usize| answer.contains(words[index]) || drops(index);
    words.is_empty() || (0..words.len()).any(covering)
}

/// The literals of the answer line, which is the fifth.
fn printed_answer(printed: &[u8]) -> BTreeSet<Vec<u8>> {
    let line = printed
        .split(|byte| *byte == b'\n')
        .nth(4)
        .unwrap_or_default();
    let words = line.strip_prefix(b"answer=").unwrap_or_default();
    words
        .split(|byte| *byte == b' ')
        .map(<[u8]>::to_vec)
        .collect()
}

#[test]
fn a_printed_answer_covers_every_line_of_the_text() {
    let mut found = 0;
    for seed in 0..1_500 {
        let input = input(&mut Random::new(seed));
        let printed = run(&NARROW, &input);
        if !printed.starts_with(b"result=found\n") {
            continue;
        }
        found += 1;
        let text = &input[read_sheet(&input).text_start..];
        let answer = printed_answer(&printed);
        let mut lines = text.split(|byte| *byte == b'\n');
        assert!(lines.all(|line| covers(&answer, line)), "{seed}");
    }
    assert!(found > 300, "{found}");
}

#[test]
fn the_program_leaves_output_and_tables_as_said() {
    for_each_case(|limits, random| {
        let RunCase {
            input,
            mut tables,
            mut out,
        } = run_case(limits, random);
        let (tables_before, out_before) = (tables.clone(), out.clone());
        let told = run_on(limits, &input, &mut tables, &mut out);
        assert_excess_untouched(limits, &tables_before, &tables);
        if !tables_before.reach_full_size(limits) || out.len() < limits.output_size() {
            assert_eq!((told.result, told.reason, told.length), (0, 1, 0));
            assert!(tables == tables_before && out == out_before);
            return;
        }
        assert_eq!((told.result, told.reason), (1, 0));
        let length = told.length as usize;
        assert!(out[..length] == run(limits, &input));
        assert!(out[length..] == out_before[length..]);
        if input.len() > limits.text {
            assert_eq!(out[..length], *refusal(2, 0).as_bytes());
            assert!(within_full_size(limits, &tables) == Tables::zeros(limits));
        } else if read_sheet(&input).result == 0 {
            assert!(tables == tables_before);
        } else {
            assert!(left_as_reading_and_walk(limits, &input, &tables));
        }
    });
}

fn left_as_reading_and_walk(limits: &Limits, input: &[u8], tables: &Tables) -> bool {
    let sheet = read_sheet(input);
    let mut lent = Tables::zeros(limits);
    let reading = read(limits, &input[sheet.text_start..], &mut lent);
    if reading.result == 1 {
        walk(limits, &sheet.order, reading.counts, &mut lent);
    }
    within_full_size(limits, tables) == lent
}

#[test]
fn the_longest_output_fits() {
    let names: Vec<String> = (0..NARROW.terms)
        .map(|term| format!("n{term:07}"))
        .collect();
    let text = format!("{} ~\n~n0000000\n", names.join(" "));
    let mut out = vec![0; NARROW.output_size()];
    let input = [GOOD_SHEET.as_bytes(), text.as_bytes()].concat();
    let told = run_on(&NARROW, &input, &mut Tables::zeros(&NARROW), &mut out);
    let length = told.length as usize;
    assert!(out[..length].starts_with(b"result=found\n"));
    assert!(length > 9 * NARROW.terms);
}

/// After the end or a fault comes the same again; once a fault is passed, the end of its line, or that the text is cut there.
fn may_follow(end: Item, passed: bool, item: Item) -> bool {
    if end.told == Told::TextEnd || !passed {
        return item == end;
    }
    matches!(item.told, Told::LineEnd | Told::Fault(TEXT_CUT)) && item.line == end.line
}

/// Has a reader follow a script; counts what it tells after the end and after faults.
fn follow(text: &[u8], script: Vec<ReaderStep>, met: &mut BTreeMap<String, u64>) {
    let mut reader = Reader::new(text);
    let (mut line, mut end, mut passed) = (1, None, false);
    for step in script {
        if step == ReaderStep::Pass {
            reader.pass();
            passed = true;
            continue;
        }
        let item = reader.next();
        assert!(item.line >= line);
        if let Some(end) = end {
            assert!(may_follow(end, passed, item), "{item:?} after {end:?}");
            let pair = format!("{:?} after {:?}", item.told, end.told);
            *met.entry(pair).or_insert(0) += 1;
        }
        let ends = matches!(item.told, Told::TextEnd | Told::Fault(_));
        (line, end, passed) = (item.line, ends.then_some(item), false);
    }
}

#[test]
fn the_reader_repeats_its_end_and_repeats_faults_until_told_to_pass() {
    let mut met = BTreeMap::new();
    for seed in 0..6_000 {
        let random = &mut Random::new(seed);
        let text = clause_text_within(&SMALL, random);
        let script = reader_script(text.len() + 8, random);
        follow(&text, script, &mut met);
    }
    for same in ["TextEnd", "Fault(3)", "Fault(4)", "Fault(5)"] {
        assert!(met[&format!("{same} after {same}")] > 50, "{met:?}");
    }
    for passed in [
        "LineEnd after Fault(4)",
        "LineEnd after Fault(5)",
        "Fault(3) after Fault(4)",
    ] {
        assert!(met[passed] > 50, "{met:?}");
    }
}

#[test]
fn draws_asked_for_alone_are_those_of_the_rules() {
    let (mut refused, mut again) = (0, 0);
    for seed in 0..20_000 {
        let DrawCase { state, among, bias } = draw_case(&mut Random::new(seed));
        let (drawn, chosen, tossed) = (draw(state), choice(state, among), heads(state, bias));
        let even = choice_even(state, among);
        assert_eq!(even.reason, chosen.reason);
        if even.reason == 0 {
            let drawn = draws_from(state as u32).position(|draw| u64::from(draw) == even.state);
            again += u64::from(drawn.expect("it is drawn") > 0);
            assert!(drawn < Some(8) && even.number == (even.state - 1) % among);
        } else {
            assert_eq!((even.number, even.state), (0, state));
        }
        assert_eq!(drawn.reason == 11, state == 0);
        assert_eq!(chosen.reason == 11, state == 0 || among == 0);
        assert_eq!(tossed.reason == 11, state == 0 || bias > 1_000);
        for answer in [drawn, chosen, tossed] {
            let moved = if answer.reason == 0 {
                drawn.number
            } else {
                state
            };
            assert_eq!(answer.state, moved);
            assert!(answer.reason == 0 || answer.number == 0);
            refused += answer.reason / 11;
        }
        assert!(state == 0 || drawn.number != 0 && drawn.number <= u64::from(u32::MAX));
        assert!(chosen.reason != 0 || chosen.number == drawn.number % among);
        let below = u64::from(drawn.number % 1_000 < bias);
        assert!(tossed.reason != 0 || tossed.number == below);
    }
    assert!(refused > 1_000 && again > 1_000);
}

/// The number after a key of the printed lines.
fn number_after(key: &str, printed: &[u8]) -> Option<u64> {
    let lines = printed.split(|byte| *byte == b'\n');
    let mut numbers = lines.filter_map(|line| line.strip_prefix(key.as_bytes()));
    std::str::from_utf8(numbers.next()?).ok()?.parse().ok()
}

#[test]
fn every_reason_of_the_program_and_both_results_are_met() {
    let mut reasons = BTreeSet::new();
    let mut results = BTreeMap::new();
    for seed in 0..2_000 {
        let printed = run(&NARROW, &input(&mut Random::new(seed)));
        let first = printed
            .split(|byte| *byte == b'\n')
            .next()
            .unwrap_or_default()
            .to_vec();
        *results
            .entry(String::from_utf8_lossy(&first).into_owned())
            .or_insert(0) += 1;
        reasons.extend(number_after("reason=", &printed));
        assert!(printed.ends_with(b"\n"));
    }
    assert_eq!(reasons, (2..=11).chain([15]).collect());
    assert_eq!(results.len(), 3);
    assert!(results.values().all(|met| *met > 200), "{results:?}");
}

#[test]
fn every_reason_of_the_library_and_every_result_is_met() {
    let mut reasons = BTreeSet::new();
    let mut results = BTreeSet::new();
    for seed in 0..1_500 {
        let random = &mut Random::new(seed);
        let mut case = read_case(&NARROW, random);
        reasons.insert(read(&NARROW, &case.text, &mut case.tables).reason);
        let mut case = walk_case(&SMALL, random);
        let answer = walk(&SMALL, &case.order, case.counts, &mut case.tables);
        reasons.insert(answer.reason);
        results.insert(answer.result);
        let mut case = flip_case(&SMALL, random);
        reasons.insert(flip(&SMALL, &case.list, case.counts, &mut case.tables).reason);
        reasons.insert(read_sheet(&sheet(random)).reason);
    }
    assert_eq!(reasons, (0..=15).chain([20]).collect());
    assert_eq!(results, (0..=2).collect());
}

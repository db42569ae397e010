//! Tables too short and too long for a reading, and what a reading leaves to the calls after it.

use boundary::lengths::{for_each_longer, for_each_shorter};
use boundary::rubbish::rubbish;
use boundary::{any_tables, few_flips, few_steps, Sides, NARROW, ORDER};
use oracle::generate::limit_texts::text_full_of_all;
use oracle::generate::*;
use oracle::reasons::*;
use oracle::{Counts, Order, Tables};

/// An accepted text, and one for each reason that a text can give.
fn a_text_for_each_reason() -> Vec<(u64, Vec<u8>)> {
    let of = |kind| clause_text_of(kind, &NARROW, &mut Random::new(1));
    vec![
        (NONE, b"a b ~c\n~a c\nb\n".to_vec()),
        (TEXT_TOO_LONG, of(TextKind::BytesPastLimit)),
        (TEXT_CUT, b"a\nb".to_vec()),
        (BYTE_NOT_ALLOWED, b"a\nb\t\n".to_vec()),
        (NINTH_BYTE, b"a b\n~abcdefghi\n".to_vec()),
        (TOO_MANY_TERMS, of(TextKind::TermsPastLimit)),
        (TOO_MANY_LITERALS, of(TextKind::LiteralsPastLimit)),
        (TOO_MANY_CLAUSES, of(TextKind::ClausesPastLimit)),
        (NO_CLAUSE, b"a ~a\n".to_vec()),
        (NO_CLAUSE, Vec::new()),
        (BLANK_LINE, b"a b\n  \nb\n".to_vec()),
    ]
}

fn lend(sides: &mut Sides, case: String, tables: Tables) {
    sides.lend(case, (Counts::default(), tables));
}

#[test]
fn a_table_too_short_is_reason_1_whatever_the_text() {
    let texts = a_text_for_each_reason();
    for_each_shorter(any_tables, |sides, _| {
        for (_, text) in &texts {
            sides.refuse_text(text, TABLE_TOO_SHORT, 0);
        }
    });
}

#[test]
fn rubbish_beyond_the_tables_stays() {
    let texts = a_text_for_each_reason();
    for_each_longer(any_tables, |sides, random| {
        for (reason, text) in &texts {
            assert_eq!(sides.read(text).reason, *reason);
        }
        sides.accept(&text_full_of_all(&NARROW, random));
    });
}

/// Accepted texts with what they are: small ones of each kind, and ones that meet a limit.
fn accepted_texts() -> Vec<(String, Vec<u8>)> {
    let limits = [
        TextKind::TermsAtLimit,
        TextKind::ClausesAtLimit,
        TextKind::LiteralsAtLimit,
        TextKind::BytesAtLimit,
    ];
    let mut texts = Vec::new();
    for kind in ValidKind::ALL
        .map(TextKind::Valid)
        .into_iter()
        .chain(limits)
    {
        for seed in 0..6 {
            let text = clause_text_of(kind, &NARROW, &mut Random::new(seed));
            texts.push((format!("{kind:?}, seed {seed}"), text));
        }
    }
    texts
}

/// Lends rubbish and reads each accepted text into it; then goes on from there.
fn after_each_reading(goes_on: impl Fn(&mut Sides, &[u8], &mut Random)) {
    let mut sides = Sides::start();
    for (seed, (case, text)) in (0..).zip(accepted_texts()) {
        let random = &mut Random::new(seed);
        lend(&mut sides, case, rubbish(random));
        sides.accept(&text);
        goes_on(&mut sides, &text, random);
    }
}

#[test]
fn what_a_reading_leaves_agrees_and_can_be_flipped() {
    after_each_reading(|sides, _, random| {
        let terms = sides.counts.terms;
        let each_once = flip_list_of(FlipListKind::EachTermOnce, &NARROW, terms, random);
        sides.apply(&[]);
        sides.apply(&few_flips(terms, random));
        sides.refuse(&[0, terms], UNKNOWN_TERM);
        sides.apply(&each_once);
    });
}

#[test]
fn what_a_reading_leaves_agrees_and_can_be_walked_on() {
    after_each_reading(|sides, _, random| {
        assert_eq!(sides.walk(&few_steps(random)).reason, NONE);
        sides.apply(&few_flips(sides.counts.terms, random));
        assert_eq!(sides.walk(&few_steps(random)).reason, NONE);
        assert_eq!(sides.walk(&few_steps(random)).reason, NONE);
    });
}

#[test]
fn a_reading_into_what_the_same_reading_left_leaves_the_same() {
    after_each_reading(|sides, text, random| {
        let left = (sides.counts, sides.tables.clone());
        sides.accept(text);
        assert!(left == (sides.counts, sides.tables.clone()));
        sides.apply(&few_flips(left.0.terms, random));
        sides.accept(text);
        assert!(left == (sides.counts, sides.tables.clone()));
    });
}

#[test]
fn a_reading_into_what_another_left_leaves_nothing_of_it() {
    let mut sides = Sides::start();
    let random = &mut Random::new(9);
    let full = text_full_of_all(&NARROW, random);
    lend(&mut sides, "one after the other".into(), rubbish(random));
    for (reason, text) in a_text_for_each_reason() {
        sides.accept(&full);
        sides.apply(&few_flips(sides.counts.terms, random));
        assert_eq!(sides.read(&text).reason, reason);
        sides.accept(b"~b a\na\n");
        assert_eq!(sides.read(&text).reason, reason);
    }
}

#[test]
fn what_a_refused_reading_leaves_does_not_agree() {
    let mut sides = Sides::start();
    for (reason, text) in a_text_for_each_reason().split_off(1) {
        let tables = rubbish(&mut Random::new(reason));
        lend(&mut sides, format!("reason {reason}"), tables);
        assert_eq!(sides.read(&text).reason, reason);
        sides.refuse(&[], TABLES_DISAGREE);
        sides.refuse(&[0], TABLES_DISAGREE);
        sides.refuse_order(&ORDER, TABLES_DISAGREE);
        sides.refuse_order(&Order { seed: 0, ..ORDER }, OUT_OF_RANGE);
    }
}

//! What a numbered reading leaves: what `ngi_read` leaves of the same clauses, into tables of any lengths, for the calls after it.

use boundary::lengths::{for_each_longer, for_each_shorter};
use boundary::rubbish::rubbish;
use boundary::{any_tables, few_flips, few_steps, Form, Lent, Sides, NARROW, ORDER};
use oracle::generate::*;
use oracle::reasons::*;
use oracle::Counts;
use NumberedKind::*;

/// An accepted text, and one for each reason that a text can give.
fn a_text_for_each_reason() -> Vec<(u64, Vec<u8>)> {
    let of = |kind| numbered_text_of(kind, &NARROW, &mut Random::new(1));
    vec![
        (NONE, b"c\np cnf 3 3\n1 2 -3 0\n-1 3 0 2\n0\n".to_vec()),
        (TEXT_TOO_LONG, of(BytesPastLimit)),
        (TEXT_CUT, b"p cnf 1 1\n1 0".to_vec()),
        (BYTE_NOT_ALLOWED, b"p cnf 1 1\n1 0\r\n".to_vec()),
        (TOO_MANY_TERMS, b"p cnf 2049 1\n1 0\n".to_vec()),
        (TOO_MANY_LITERALS, of(LiteralsPastLimit)),
        (TOO_MANY_CLAUSES, of(ClausesPastLimit)),
        (NO_CLAUSE, b"p cnf 1 1\n1 -1 0\n".to_vec()),
        (BLANK_LINE, b"p cnf 1 2\n1 0\n0\n".to_vec()),
        (HEADER_FORM, Vec::new()),
        (HEADER_FORM, b"p cnf 1 1 \n1 0\n".to_vec()),
        (CLAUSE_COUNT, b"p cnf 1 1\n1 0\n1 0\n".to_vec()),
        (CLAUSE_COUNT, b"p cnf 1 2\n1 0\n1\n".to_vec()),
        (PAST_HEADER, b"p cnf 1 1\n2 0\n".to_vec()),
    ]
}

/// Lends rubbish, to be read into as this form.
fn lend_rubbish(sides: &mut Sides, form: Form, case: String, random: &mut Random) {
    sides.form = form;
    sides.lend(case, (Counts::default(), rubbish(random)));
}

#[test]
fn a_table_too_short_is_reason_1_whatever_the_text() {
    let texts = a_text_for_each_reason();
    for_each_shorter(any_tables, |sides, _| {
        sides.form = Form::Numbered;
        for (_, text) in &texts {
            sides.refuse_text(text, TABLE_TOO_SHORT, 0);
        }
    });
}

#[test]
fn rubbish_beyond_the_tables_stays() {
    let texts = a_text_for_each_reason();
    for_each_longer(any_tables, |sides, random| {
        sides.form = Form::Numbered;
        for (reason, text) in &texts {
            assert_eq!(sides.read(text).reason, *reason);
        }
        sides.accept(&numbered_text_of(LiteralsAtLimit, &NARROW, random));
    });
}

/// Accepted texts with what they are: small ones of each kind, and ones that meet a limit.
fn accepted_texts(seeds: u64) -> Vec<(String, Vec<u8>)> {
    let limits = [
        VariablesAtLimit,
        ClausesAtLimit,
        LiteralsAtLimit,
        BytesAtLimit,
    ];
    let mut texts = Vec::new();
    for kind in NumberedKind::VALID.into_iter().chain(limits) {
        for seed in 0..seeds {
            let text = numbered_text_of(kind, &NARROW, &mut Random::new(seed));
            texts.push((format!("{kind:?}, seed {seed}"), text));
        }
    }
    texts
}

/// What was left, without the rubbish that may lie beyond it.
fn within_full_sizes(sides: &Sides) -> Lent {
    let mut tables = sides.tables.clone();
    for (table, size) in tables.all_mut().into_iter().zip(NARROW.full_sizes()) {
        table.truncate(size);
    }
    (sides.counts, tables)
}

/// Both texts go through the library, into rubbish of their own; only where the own text is too long none is compared.
#[test]
fn an_accepted_text_leaves_what_ngi_read_leaves_of_the_same_clauses() {
    let mut sides = Sides::start();
    let mut compared = 0;
    for (seed, (case, text)) in (0..).zip(accepted_texts(60)) {
        let random = &mut Random::new(seed);
        let own = as_own_text(&text);
        if own.len() > NARROW.text {
            continue;
        }
        lend_rubbish(&mut sides, Form::Numbered, case.clone(), random);
        sides.accept(&text);
        let left = within_full_sizes(&sides);
        lend_rubbish(&mut sides, Form::Own, case.clone(), random);
        sides.accept(&own);
        assert!(left == within_full_sizes(&sides), "{case}");
        compared += 1;
    }
    assert!(compared >= 700, "{compared}");
}

/// Lends rubbish and reads each accepted text into it; then goes on from there.
fn after_each_reading(goes_on: impl Fn(&mut Sides, &[u8], &mut Random)) {
    let mut sides = Sides::start();
    for (seed, (case, text)) in (0..).zip(accepted_texts(6)) {
        let random = &mut Random::new(seed);
        lend_rubbish(&mut sides, Form::Numbered, case, random);
        sides.accept(&text);
        goes_on(&mut sides, &text, random);
    }
}

#[test]
fn what_a_reading_leaves_agrees_and_can_be_flipped() {
    after_each_reading(|sides, _, random| {
        let terms = sides.counts.terms;
        let each_once = flip_list_of(FlipListKind::EachTermOnce, &NARROW, terms, random);
        sides.apply(&[]);
        sides.apply(&few_flips(terms, random));
        sides.refuse(&[0, terms], UNKNOWN_TERM);
        sides.apply(&each_once);
    });
}

#[test]
fn what_a_reading_leaves_agrees_and_can_be_walked_on() {
    after_each_reading(|sides, _, random| {
        sides.walk_by(&few_steps(random));
        sides.apply(&few_flips(sides.counts.terms, random));
        sides.walk_by(&few_steps(random));
    });
}

#[test]
fn a_reading_into_what_the_same_reading_left_leaves_the_same() {
    after_each_reading(|sides, text, random| {
        let left = (sides.counts, sides.tables.clone());
        sides.apply(&few_flips(left.0.terms, random));
        sides.accept(text);
        assert!(left == (sides.counts, sides.tables.clone()));
    });
}

/// Nothing is kept of names that the other form has put where it looks for them.
#[test]
fn readings_of_either_form_leave_nothing_of_one_another() {
    let mut sides = Sides::start();
    let random = &mut Random::new(9);
    lend_rubbish(&mut sides, Form::Own, "one after the other".into(), random);
    for (reason, text) in a_text_for_each_reason() {
        sides.form = Form::Own;
        sides.accept(&clause_text_of(TextKind::TermsAtLimit, &NARROW, random));
        sides.form = Form::Numbered;
        sides.accept(&numbered_text_of(VariablesAtLimit, &NARROW, random));
        sides.apply(&few_flips(sides.counts.terms, random));
        assert_eq!(sides.read(&text).reason, reason);
        sides.form = Form::Own;
        sides.accept(b"~2 1\n1\n");
    }
}

#[test]
fn what_a_refused_reading_leaves_does_not_agree() {
    let mut sides = Sides::start();
    for (reason, text) in a_text_for_each_reason().split_off(1) {
        let random = &mut Random::new(reason);
        lend_rubbish(
            &mut sides,
            Form::Numbered,
            format!("reason {reason}"),
            random,
        );
        assert_eq!(sides.read(&text).reason, reason);
        sides.refuse(&[], TABLES_DISAGREE);
        sides.refuse_order(&ORDER, TABLES_DISAGREE);
    }
}

//! Each kind that the generator can be asked for does what it says.

mod common;

use std::collections::{BTreeMap, BTreeSet};

use common::*;
use oracle::agree::agree;
use oracle::flips::flip;
use oracle::generate::*;
use oracle::reader::is_name_byte;
use oracle::reasons::{
    BLANK_LINE, NO_CLAUSE, TEXT_TOO_LONG, TOO_MANY_CLAUSES, TOO_MANY_LITERALS, TOO_MANY_TERMS,
};
use oracle::sheet::read_sheet;

#[test]
fn valid_texts_are_accepted() {
    for kind in ValidKind::ALL {
        for seed in 0..20 {
            let text = clause_text_of(TextKind::Valid(kind), &NARROW, &mut Random::new(seed));
            accepted(text);
        }
    }
}

#[test]
fn texts_at_the_limits_hold_exactly_the_limits() {
    for seed in 0..12 {
        let counts = |kind| accepted(clause_text_of(kind, &NARROW, &mut Random::new(seed))).0;
        assert_eq!(counts(TextKind::TermsAtLimit).terms, NARROW.terms as u64);
        assert_eq!(
            counts(TextKind::ClausesAtLimit).clauses,
            NARROW.clauses as u64
        );
        assert_eq!(
            counts(TextKind::LiteralsAtLimit).literals,
            NARROW.literals as u64
        );
        let full = clause_text_of(TextKind::BytesAtLimit, &NARROW, &mut Random::new(seed));
        assert_eq!(full.len(), NARROW.text);
        accepted(full);
    }
}

#[test]
fn texts_one_past_a_limit_are_refused_for_it() {
    let reasons = [
        (TextKind::TermsPastLimit, TOO_MANY_TERMS),
        (TextKind::ClausesPastLimit, TOO_MANY_CLAUSES),
        (TextKind::LiteralsPastLimit, TOO_MANY_LITERALS),
    ];
    for seed in 0..12 {
        for (kind, reason) in reasons {
            let text = clause_text_of(kind, &NARROW, &mut Random::new(seed));
            assert_eq!(read_narrow(text).0.reason, reason, "{kind:?}");
        }
        let long = clause_text_of(TextKind::BytesPastLimit, &NARROW, &mut Random::new(seed));
        assert_eq!(long.len(), NARROW.text + 1);
        assert_refused(long, 2, 0);
    }
}

/// The reasons that texts of this kind meet.
fn reasons_of(kind: TextKind, cases: u64) -> BTreeSet<u64> {
    let text = |seed| clause_text_of(kind, &NARROW, &mut Random::new(seed));
    let reasons = (0..cases).map(|seed| read_narrow(text(seed)).0.reason);
    reasons.collect()
}

#[test]
fn texts_with_nothing_to_keep_are_refused_for_it() {
    for kind in [TextKind::Empty, TextKind::NothingKept] {
        assert_eq!(reasons_of(kind, 12), [NO_CLAUSE].into(), "{kind:?}");
    }
}

#[test]
fn texts_with_a_blank_line_are_refused_for_it() {
    assert_eq!(reasons_of(TextKind::BlankLines, 60), [BLANK_LINE].into());
}

/// Texts of each kind meet each of its reasons.
fn assert_meet(expected: &[(TextKind, &[u64])], cases: u64) {
    for (kind, reasons) in expected {
        let met = reasons_of(*kind, cases);
        let all = reasons.iter().all(|reason| met.contains(reason));
        assert!(all, "{kind:?} {met:?}");
    }
}

#[test]
fn lines_after_a_full_limit_are_accepted_or_refused_in_every_way() {
    let expected: [(TextKind, &[u64]); 6] = [
        (TextKind::TermsFullThenMore, &[0, 4, 5, 6, 15]),
        (TextKind::ClausesFullThenMore, &[0, 4, 5, 8, 15]),
        (TextKind::LiteralsFullThenMore, &[0, 4, 5, 7, 15]),
        (TextKind::LiteralsNearlyFullThenMore, &[0, 4, 5, 7, 15]),
        (TextKind::TermsAndLiteralsFullThenMore, &[0, 4, 5, 6, 7, 15]),
        (TextKind::AllFullThenMore, &[0, 4, 5, 6, 7, 15]),
    ];
    assert_meet(&expected, 60);
}

#[test]
fn faulty_texts_meet_their_faults() {
    let expected: [(TextKind, &[u64]); 9] = [
        (TextKind::ChangedBytes, &[0, 3, 4, 5]),
        (TextKind::InsertedByte, &[0, 4, 5, 15]),
        (TextKind::RemovedByte, &[0, 3]),
        (TextKind::Cut, &[3]),
        (TextKind::LongName, &[5]),
        (TextKind::WrongByteAfterName, &[4]),
        (TextKind::WrongByteAfterTilde, &[4]),
        (TextKind::FewLetters, &[0, 3, 4, 9, 15]),
        (TextKind::AnyBytes, &[3, 4]),
    ];
    assert_meet(&expected, 300);
}

#[test]
fn each_kind_of_sheet_does_what_it_says() {
    for kind in SheetKind::ALL {
        let mut met = BTreeSet::new();
        for seed in 0..60 {
            let sheet = sheet_of(kind, &mut Random::new(seed));
            let answer = read_sheet(&sheet);
            assert_eq!(answer.line > 0, answer.reason > 0);
            met.insert((answer.reason, answer.line));
        }
        let reasons: BTreeSet<u64> = met.iter().map(|answer| answer.0).collect();
        let lines: BTreeSet<u64> = met.iter().map(|answer| answer.1).collect();
        match kind {
            SheetKind::Good | SheetKind::RangeEnds => assert_eq!(reasons, [0].into()),
            SheetKind::OutOfRange => assert_eq!(reasons, [11].into()),
            SheetKind::ChangedBytes => assert_eq!(reasons, [0, 10, 11].into()),
            SheetKind::TwoFaults => assert_eq!(reasons, [10, 11].into()),
            SheetKind::ExtraLine => assert!(reasons.contains(&10)),
            SheetKind::NearlyEven | SheetKind::EvenCut => {
                assert_eq!(reasons, [0, 10].into());
                assert_eq!(lines, [0, 5].into());
            }
            _ => assert_eq!(reasons, [10].into(), "{kind:?}"),
        }
        if reasons == [10].into() {
            assert!(lines.len() >= 3, "{kind:?} {lines:?}");
        }
    }
}

/// What inputs of this kind are refused for, in the program's order of tests; 0 where they are walked on.
fn reasons_of_inputs(kind: InputKind) -> BTreeSet<u64> {
    let reason = |seed| {
        let input = input_of(kind, &NARROW, &mut Random::new(seed));
        let sheet = read_sheet(&input);
        if input.len() > NARROW.text {
            return TEXT_TOO_LONG;
        }
        match sheet.reason {
            0 => read_narrow(&input[sheet.text_start..]).0.reason,
            reason => reason,
        }
    };
    (0..200).map(reason).collect()
}

#[test]
fn each_kind_of_input_does_what_it_says() {
    for kind in InputKind::ALL {
        let (only, some): (&[u64], &[u64]) = match kind {
            InputKind::ToWalk | InputKind::BytesAtLimit => (&[0], &[0]),
            InputKind::FewLetters => (&[0, 3, 4, 5, 9, 15], &[0, 3, 4, 9, 15]),
            InputKind::AnyText => (&[0, 2, 3, 4, 5, 6, 7, 8, 9, 15], &[0, 3, 4, 5, 15]),
            InputKind::AnySheet => (&[0, 3, 4, 5, 9, 10, 11], &[0, 10, 11]),
            InputKind::AnySheetAnyText => (
                &[0, 2, 3, 4, 5, 6, 7, 8, 9, 10, 11, 15],
                &[0, 4, 10, 11, 15],
            ),
            InputKind::SheetAfterSheet => (&[0, 4, 5, 15], &[0, 4, 5]),
            InputKind::BytesPastLimit => (&[2], &[2]),
            InputKind::ChangedBytes => (&[0, 3, 4, 5, 10, 11, 15], &[0, 4, 10]),
            InputKind::InsertedByte => (&[0, 3, 4, 5, 10, 11, 15], &[0, 4, 10]),
            InputKind::RemovedByte => (&[0, 3, 4, 5, 10, 11, 15], &[0, 3, 10]),
            InputKind::DoubledBytes => (&[0, 3, 4, 5, 10, 11, 15], &[0, 5, 10, 11]),
            InputKind::Cut => (&[0, 3, 9, 10], &[3, 10]),
            InputKind::AnyBytes | InputKind::Empty => (&[10], &[10]),
        };
        let met = reasons_of_inputs(kind);
        let within = met.iter().all(|reason| only.contains(reason));
        let all = some.iter().all(|reason| met.contains(reason));
        assert!(within && all, "{kind:?} {met:?}");
    }
}

#[test]
fn no_input_asks_for_many_flips() {
    for kind in InputKind::ALL {
        for seed in 0..500 {
            let input = input_of(kind, &NARROW, &mut Random::new(seed));
            let order = read_sheet(&input).order;
            assert!(order.flips * order.walks <= 100_000, "{kind:?} {order:?}");
        }
    }
}

#[test]
fn each_kind_of_order_does_what_it_says() {
    for seed in 0..200 {
        let random = &mut Random::new(seed);
        for kind in OrderKind::IN_RANGE {
            assert!(order_of(kind, random).is_in_range(), "{kind:?}");
        }
        for kind in OrderKind::OUT_OF_RANGE {
            assert!(!order_of(kind, random).is_in_range(), "{kind:?}");
        }
    }
}

#[test]
fn each_kind_of_flip_list_does_what_it_says() {
    let (counts, tables) = standing_tables(&NARROW, &mut Random::new(5));
    let reason = |kind, random: &mut Random| {
        let list = flip_list_of(kind, &NARROW, counts.terms, random);
        flip(&NARROW, &list, counts, &mut tables.clone()).reason
    };
    for seed in 0..3 {
        let random = &mut Random::new(seed);
        for kind in FlipListKind::ACCEPTED {
            assert_eq!(reason(kind, random), 0, "{kind:?}");
        }
        assert_eq!(reason(FlipListKind::UnknownTerm, random), 13);
        assert_eq!(reason(FlipListKind::PastLimit, random), 14);
        assert_eq!(reason(FlipListKind::UnknownTermPastLimit, random), 14);
    }
}

#[test]
fn each_kind_of_lent_tables_does_what_it_says() {
    for seed in 0..20 {
        for kind in LentKind::ALL {
            let tables = lent_tables_of(kind, &SMALL, &mut Random::new(seed));
            let short = [LentKind::OneShorter, LentKind::SomeEmpty].contains(&kind);
            assert_eq!(tables.reach_full_size(&SMALL), !short, "{kind:?}");
        }
    }
}

#[test]
fn each_kind_of_pinned_tables_does_what_it_says() {
    use PinKind::*;
    for seed in 0..100 {
        for kind in PinKind::ALL {
            let (counts, tables) = pinned_tables_of(kind, &SMALL, &mut Random::new(seed));
            assert!(agree(&SMALL, &counts, &tables), "{kind:?}");
            let pinned = tables.marks.iter().filter(|mark| **mark > 0).count() as u64;
            match kind {
                NoTerm => assert_eq!(pinned, 0),
                OneTerm => assert_eq!(pinned, 1),
                FewTerms => assert!(pinned <= 9 && pinned >= counts.terms.min(2)),
                AnyNumber => assert!(pinned <= counts.terms),
                AllButOne => assert_eq!(pinned, counts.terms - 1),
                EveryTerm => assert_eq!(pinned, counts.terms),
            }
        }
    }
}

#[test]
fn each_kind_of_damage_does_what_it_says() {
    use DamageKind::*;
    let mut verdicts: BTreeMap<DamageKind, BTreeSet<bool>> = BTreeMap::new();
    for seed in 0..400 {
        for kind in DamageKind::ALL {
            let random = &mut Random::new(seed);
            let (mut counts, mut tables) = standing_tables(&SMALL, random);
            let before = (counts, tables.clone());
            damage_of(kind, &SMALL, &mut counts, &mut tables, random);
            let verdict = agree(&SMALL, &counts, &tables);
            let unchanged = before == (counts, tables.clone());
            assert_eq!(tables.reach_full_size(&SMALL), kind != OneShorter);
            assert_verdict(kind, verdict, unchanged);
            verdicts.entry(kind).or_default().insert(verdict);
        }
    }
    for both in [EntryInUse, EntriesSwapped, ValueTurned] {
        assert_eq!(verdicts[&both].len(), 2, "{both:?}");
    }
    for (kind, met) in verdicts {
        let none = [None, NameOther, ListReordered, Longer].contains(&kind);
        assert_eq!(met.contains(&false), !none, "{kind:?}");
    }
}

fn assert_verdict(kind: DamageKind, agrees: bool, unchanged: bool) {
    use DamageKind::*;
    match kind {
        None | NameOther | ListReordered | Longer => assert!(agrees, "{kind:?}"),
        OneShorter => assert!(!agrees, "{kind:?}"),
        ClauseEmpty | NoClause | MarkPast2 | PinnedAtTheOtherValue => {
            assert!(!agrees, "{kind:?}")
        }
        EntryPastUse | SpareValueBit | Count | NameRepeated | NameInvalid | ListReorderedAlone
        | TermTwice | TermBothWays | OccurrencesFalling | UncoveredLeftOut | CoveredListed
        | ListedTwice | MarkPastTheTerms | AllZeros | Rubbish | SmallNumbers => {
            assert_eq!(agrees, unchanged, "{kind:?}");
        }
        EntryInUse | EntryByOne | EntriesSwapped | ValueTurned => assert!(agrees || !unchanged),
    }
}

/// Whether some word of the text, between spaces and line ends, has this form.
fn has_word(text: &[u8], form: impl Fn(&[u8]) -> bool) -> bool {
    let mut words = text.split(|byte| matches!(byte, b' ' | b'\n'));
    words.any(form)
}

fn is_name(word: &[u8], length: usize) -> bool {
    word.len() == length && word.iter().all(|byte| is_name_byte(*byte))
}

#[test]
fn reader_cases_have_every_form_and_begin_anywhere() {
    let forms: [(&str, fn(&ReaderCase) -> bool); 11] = [
        ("empty text", |case| case.text.is_empty()),
        ("empty line", |case| {
            case.text.windows(2).any(|pair| pair == b"\n\n")
        }),
        ("cut inside a line", |case| {
            case.text.last().is_some_and(|last| *last != b'\n')
        }),
        ("tab", |case| case.text.contains(&b'\t')),
        ("two ~", |case| {
            has_word(&case.text, |word| word.starts_with(b"~~"))
        }),
        ("lone ~", |case| has_word(&case.text, |word| word == b"~")),
        ("byte over 127", |case| {
            case.text.iter().any(|byte| *byte > 127)
        }),
        ("name of 8", |case| {
            has_word(&case.text, |word| is_name(word, 8))
        }),
        ("name of 9", |case| {
            has_word(&case.text, |word| is_name(word, 9))
        }),
        ("past the end", |case| case.at > case.text.len()),
        ("highest line", |case| case.line == u64::MAX),
    ];
    let cases: Vec<ReaderCase> = (0..2_000)
        .map(|seed| reader_case(&mut Random::new(seed)))
        .collect();
    for (form, has) in forms {
        let met = cases.iter().filter(|case| has(case)).count();
        assert!(met > 40, "{form}: {met}");
    }
}

#[test]
fn one_seed_always_gives_the_same() {
    for seed in 0..100 {
        let made = || {
            let random = &mut Random::new(seed);
            let case = walk_case(&SMALL, random);
            (
                clause_text(random),
                input(random),
                case.order,
                case.counts,
                case.tables,
            )
        };
        assert!(made() == made());
    }
    let texts: BTreeSet<Vec<u8>> = (0..100).map(|s| clause_text(&mut Random::new(s))).collect();
    assert!(texts.len() > 80);
}

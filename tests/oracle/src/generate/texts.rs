//! Every kind of clause text, and their mix.

use super::faulty_texts as faulty;
use super::limit_texts as limit;
use super::lines::{add_opposites, comment, lone_tilde, random_lines, write, Line};
use super::names::{distinct_names, NameStyle};
use super::random::Random;
use super::valid_texts::{valid_text_of, ValidKind};
use crate::kinds;
use crate::limits::Limits;

kinds! {
    pub enum TextKind with Valid(ValidKind) {
        /// The kinds beside the valid ones that are far from the limits.
        FAULTY {
            Empty,
            /// Comments and dropped lines only: reason 9.
            NothingKept,
            /// A valid text but for lines of nothing or only spaces: reason 15.
            BlankLines,
            ChangedBytes,
            InsertedByte,
            RemovedByte,
            Cut,
            LongName,
            WrongByteAfterName,
            WrongByteAfterTilde,
            FewLetters,
            AnyBytes,
        }
        AT_LIMITS {
            TermsAtLimit,
            TermsPastLimit,
            ClausesAtLimit,
            ClausesPastLimit,
            LiteralsAtLimit,
            LiteralsPastLimit,
            BytesAtLimit,
            BytesPastLimit,
            /// A limit is met, or met but for one, and more lines come.
            TermsFullThenMore,
            ClausesFullThenMore,
            LiteralsFullThenMore,
            LiteralsNearlyFullThenMore,
            TermsAndLiteralsFullThenMore,
            AllFullThenMore,
        }
    }
}

/// A clause text of any kind, under the limits of document 01.
pub fn clause_text(random: &mut Random) -> Vec<u8> {
    clause_text_within(&Limits::NARROW, random)
}

/// A clause text of any kind: about half are valid ones.
pub fn clause_text_within(limits: &Limits, random: &mut Random) -> Vec<u8> {
    let kind = if random.coin() {
        TextKind::Valid(random.pick(&ValidKind::ALL))
    } else {
        random.pick(&[&TextKind::FAULTY[..], &TextKind::AT_LIMITS].concat())
    };
    clause_text_of(kind, limits, random)
}

pub fn clause_text_of(kind: TextKind, limits: &Limits, random: &mut Random) -> Vec<u8> {
    match kind {
        TextKind::Valid(kind) => valid_text_of(kind, random),
        TextKind::Empty => Vec::new(),
        TextKind::NothingKept => nothing_kept(random),
        TextKind::BlankLines => faulty::blank_lines(random),
        TextKind::ChangedBytes => faulty::changed_bytes(random),
        TextKind::InsertedByte => faulty::inserted_byte(random),
        TextKind::RemovedByte => faulty::removed_byte(random),
        TextKind::Cut => faulty::cut(random),
        TextKind::LongName => faulty::long_name(random),
        TextKind::WrongByteAfterName => faulty::wrong_byte_after_name(random),
        TextKind::WrongByteAfterTilde => faulty::wrong_byte_after_tilde(random),
        TextKind::FewLetters => faulty::few_letters(random),
        TextKind::AnyBytes => faulty::any_bytes(random),
        _ => text_at_a_limit(kind, limits, random),
    }
}

fn text_at_a_limit(kind: TextKind, limits: &Limits, random: &mut Random) -> Vec<u8> {
    match kind {
        TextKind::TermsAtLimit => limit::text_of_terms(limits.terms, limits, random),
        TextKind::TermsPastLimit => limit::text_of_terms(limits.terms + 1, limits, random),
        TextKind::ClausesAtLimit => limit::text_of_clauses(limits.clauses, limits, random),
        TextKind::ClausesPastLimit => limit::text_of_clauses(limits.clauses + 1, limits, random),
        TextKind::LiteralsAtLimit => limit::text_of_literals(limits.literals, limits, random),
        TextKind::LiteralsPastLimit => limit::text_of_literals(limits.literals + 1, limits, random),
        TextKind::BytesAtLimit => limit::text_of_bytes(limits.text, random),
        TextKind::BytesPastLimit => limit::text_of_bytes(limits.text + 1, random),
        _ => text_full_then_more(kind, limits, random),
    }
}

fn text_full_then_more(kind: TextKind, limits: &Limits, random: &mut Random) -> Vec<u8> {
    let mut text = match kind {
        TextKind::TermsFullThenMore => limit::text_of_terms(limits.terms, limits, random),
        TextKind::ClausesFullThenMore => limit::text_of_clauses(limits.clauses, limits, random),
        TextKind::LiteralsFullThenMore => limit::text_of_literals(limits.literals, limits, random),
        TextKind::LiteralsNearlyFullThenMore => {
            limit::text_of_literals(limits.literals - 1, limits, random)
        }
        TextKind::TermsAndLiteralsFullThenMore => {
            limit::text_full_of_terms_and_literals(limits, random)
        }
        _ => limit::text_full_of_all(limits, random),
    };
    limit::add_tails(&mut text, random);
    text
}

fn nothing_kept(random: &mut Random) -> Vec<u8> {
    let line = |random: &mut Random| match random.below(3) {
        0 => comment(random),
        1 => lone_tilde(random),
        _ => dropped_by_opposites(random),
    };
    let count = random.between(1, 12);
    let lines: Vec<Line> = (0..count).map(|_| line(random)).collect();
    write(&lines)
}

fn dropped_by_opposites(random: &mut Random) -> Line {
    let names = distinct_names(NameStyle::AnyBytes, 3, random);
    let mut lines = random_lines(&names, 1, [1, 3], random);
    add_opposites(&mut lines, random);
    lines.concat()
}

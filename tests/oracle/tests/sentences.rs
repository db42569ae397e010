//! Sentences of the documents that neither document 01's examples nor the open points of the readings try.

mod common;

use common::*;
use oracle::flips::flip;

#[test]
fn a_line_of_nothing_or_only_spaces_is_refused() {
    for spaces in [0, 1, 2, 100].map(|count| " ".repeat(count)) {
        assert_refused(format!("{spaces}\n"), 15, 1);
        assert_refused(format!("{spaces}\na\n{spaces}\n"), 15, 1);
        assert_refused(format!("a\n{spaces}\nb\n"), 15, 2);
        assert_refused(format!("a\n~\nb\n{spaces}\n"), 15, 4);
        accepted(format!("{spaces}a{spaces}\n{spaces}~{spaces}\n"));
    }
}

#[test]
fn the_first_of_two_faults_is_told() {
    let faults = [("a\t", 4), ("abcdefghi", 5), ("~~", 4)];
    for (first, reason) in faults {
        for (second, _) in faults {
            assert_refused(format!("a\n{first} {second}\n"), reason, 2);
            assert_refused(format!("a\n~\n{first}\n{second}\n"), reason, 3);
        }
        let past_limit = text_of_clauses(NARROW.clauses + 1);
        assert_refused(format!("{first}\n{past_limit}"), reason, 1);
        let line = NARROW.clauses as u64 + 1;
        assert_refused(format!("{past_limit}{first}\n"), 8, line);
    }
}

#[test]
fn the_empty_list_is_accepted_and_changes_nothing() {
    for text in ["a\n", "~a\n", "a b\n~a b\n"] {
        let (counts, tables) = accepted(text);
        let mut lent = tables.clone();
        let answer = flip(&NARROW, &[], counts, &mut lent);
        assert_eq!((answer.result, answer.reason), (1, 0));
        assert_eq!((answer.counts, lent), (counts, tables));
    }
}

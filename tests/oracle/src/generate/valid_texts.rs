//! Clause texts that a reading accepts, of many shapes, far from the limits.

use super::lines::{
    add_opposites, add_trues, comment, insert_lines, lone_tilde, random_lines, repeat_literals,
    signed, write, write_with_runs, Line, Word,
};
use super::names::{distinct_names, NameStyle};
use super::random::Random;
use crate::kinds;

kinds! {
    pub enum ValidKind {
        /// Clauses of one width over terms drawn at random.
        UniformClauses,
        /// Clauses that hidden values cover.
        PlantedClauses,
        /// Hundreds of terms, hundreds of clauses.
        ManyClauses,
        UnitClauses,
        /// Orphans, each to be placed under one of its parents.
        Placement,
        /// Every sign pattern of a few terms, so that no values cover.
        Contradiction,
        /// One clause of hundreds of literals.
        WideClause,
        RepeatedLiterals,
        OppositeLiterals,
        /// Lines dropped by "true", after any number of their literals.
        TrueInLines,
        /// Terms that only a dropped line names.
        TermsOnlyDropped,
        Comments,
        LoneTildes,
        SpaceRuns,
        AnyNames,
        StrangeNames,
        /// All of the above together.
        Mixed,
    }
}

/// A text of this kind; a line that is always kept stands in each.
pub fn valid_text_of(kind: ValidKind, random: &mut Random) -> Vec<u8> {
    let mut lines = lines_of(kind, random);
    let place = random.between(0, lines.len());
    lines.insert(place, vec![b"kept".to_vec()]);
    match kind {
        ValidKind::SpaceRuns | ValidKind::Mixed => write_with_runs(&lines, random),
        _ => write(&lines),
    }
}

/// A text of any of the kinds.
pub fn valid_text(random: &mut Random) -> Vec<u8> {
    let kind = random.pick(&ValidKind::ALL);
    valid_text_of(kind, random)
}

fn lines_of(kind: ValidKind, random: &mut Random) -> Vec<Line> {
    match kind {
        ValidKind::UniformClauses => uniform(NameStyle::Numbered, random),
        ValidKind::PlantedClauses => planted(random),
        ValidKind::ManyClauses => many(random),
        ValidKind::UnitClauses => units(random),
        ValidKind::Placement => placement(random),
        ValidKind::Contradiction => contradiction(random),
        ValidKind::WideClause => wide(random),
        ValidKind::TermsOnlyDropped => terms_only_dropped(random),
        ValidKind::AnyNames => uniform(NameStyle::AnyBytes, random),
        ValidKind::StrangeNames => uniform(NameStyle::Strange, random),
        ValidKind::Mixed => mixed(random),
        _ => decorated(kind, planted(random), random),
    }
}

fn uniform(style: NameStyle, random: &mut Random) -> Vec<Line> {
    let names = some_names(style, 40, random);
    let width = random.between(1, 5);
    let count = random.between(1, 4 * names.len() + 2);
    random_lines(&names, count, [width, width], random)
}

fn some_names(style: NameStyle, most: usize, random: &mut Random) -> Vec<Word> {
    let count = random.between(1, most);
    distinct_names(style, count, random)
}

/// Clauses of 1 to 4 literals, one literal of each true under the hidden values.
fn planted(random: &mut Random) -> Vec<Line> {
    let style = random.pick(&NameStyle::ALL);
    let names = some_names(style, 40, random);
    let hidden: Vec<bool> = names.iter().map(|_| random.coin()).collect();
    let count = random.between(1, 3 * names.len());
    let mut lines = random_lines(&names, count, [1, 4], random);
    for line in &mut lines {
        let term = random.below(names.len());
        let place = random.below(line.len());
        line[place] = signed(&names[term], !hidden[term]);
    }
    lines
}

fn many(random: &mut Random) -> Vec<Line> {
    let count = random.between(100, 500);
    let names = distinct_names(NameStyle::Numbered, count, random);
    let clauses = random.between(count, 4 * count);
    random_lines(&names, clauses, [2, 3], random)
}

/// Each term with one sign throughout, or with both.
fn units(random: &mut Random) -> Vec<Line> {
    let names = some_names(NameStyle::Letters, 70, random);
    let both_ways = random.coin();
    let count = random.between(1, 2 * names.len());
    let unit = |random: &mut Random| {
        let name = random.pick(&names);
        vec![signed(
            &name,
            if both_ways {
                random.coin()
            } else {
                name[0] & 1 == 0
            },
        )]
    };
    (0..count).map(|_| unit(random)).collect()
}

/// At least one parent for each orphan, at most one, and pairs that are never together.
fn placement(random: &mut Random) -> Vec<Line> {
    let mut at_least = Vec::new();
    let mut at_most = Vec::new();
    for orphan in 0..random.between(1, 12) {
        let parents: Line = (0..random.between(1, 4))
            .map(|p| place_name(orphan, p))
            .collect();
        for (index, first) in parents.iter().enumerate() {
            for second in &parents[index + 1..] {
                at_most.push(vec![signed(first, true), signed(second, true)]);
            }
        }
        at_least.push(parents);
    }
    let never = exclusions(&at_least, random);
    [at_least, at_most, never].concat()
}

fn place_name(orphan: usize, parent: usize) -> Word {
    format!("o{orphan}.p{parent}").into_bytes()
}

fn exclusions(orphans: &[Line], random: &mut Random) -> Vec<Line> {
    let place = |random: &mut Random| {
        let parents = random.pick(orphans);
        signed(&random.pick(&parents), true)
    };
    let count = random.below(2 * orphans.len());
    (0..count)
        .map(|_| vec![place(random), place(random)])
        .collect()
}

fn contradiction(random: &mut Random) -> Vec<Line> {
    let names = some_names(NameStyle::Letters, 4, random);
    let pattern = |bits: usize| {
        let literals = names.iter().enumerate();
        literals
            .map(|(index, name)| signed(name, bits >> index & 1 == 1))
            .collect()
    };
    let mut lines: Vec<Line> = (0..1 << names.len()).map(pattern).collect();
    random.shuffle(&mut lines);
    lines
}

fn wide(random: &mut Random) -> Vec<Line> {
    let count = random.between(100, 600);
    let names = distinct_names(NameStyle::Numbered, count, random);
    let long = names
        .iter()
        .map(|name| signed(name, random.coin()))
        .collect();
    let mut lines = vec![long];
    lines.extend(random_lines(&names, 20, [1, 2], random));
    random.shuffle(&mut lines);
    lines
}

/// The dropped lines stand anywhere, so their terms get numbers between those of the others.
fn terms_only_dropped(random: &mut Random) -> Vec<Line> {
    let mut lines = planted(random);
    for number in 0..random.between(1, 40) {
        let name = format!("only{number}").into_bytes();
        let closing = if random.coin() {
            signed(&name, true)
        } else {
            b"~".to_vec()
        };
        let place = random.between(0, lines.len());
        lines.insert(place, vec![name, closing, b"after".to_vec()]);
    }
    lines
}

fn decorated(kind: ValidKind, mut lines: Vec<Line>, random: &mut Random) -> Vec<Line> {
    match kind {
        ValidKind::RepeatedLiterals => repeat_literals(&mut lines, random),
        ValidKind::OppositeLiterals => add_opposites(&mut lines, random),
        ValidKind::TrueInLines => add_trues(&mut lines, random),
        ValidKind::Comments => insert_lines(&mut lines, random, comment),
        ValidKind::LoneTildes => insert_lines(&mut lines, random, lone_tilde),
        _ => {}
    }
    lines
}

/// Everything that lines can suffer, in an order that keeps "true" after the literals.
fn mixed(random: &mut Random) -> Vec<Line> {
    const DECORATIONS: [ValidKind; 5] = [
        ValidKind::RepeatedLiterals,
        ValidKind::OppositeLiterals,
        ValidKind::TrueInLines,
        ValidKind::Comments,
        ValidKind::LoneTildes,
    ];
    let mut lines = planted(random);
    for kind in DECORATIONS {
        if random.coin() {
            lines = decorated(kind, lines, random);
        }
    }
    lines
}

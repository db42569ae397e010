//! Numbered texts: valid ones of many shapes, ones with each fault, and ones at the limits.

use super::faulty_texts::{change_bytes, insert_byte, remove_byte};
use super::limit_texts::lines_of_size;
use super::lines::{add_opposites, random_lines, repeat_literals, rubbish, signed, Line, Word};
use super::numbered_faults as faulty;
use super::random::Random;
use crate::kinds;
use crate::limits::Limits;

kinds! {
    pub enum NumberedKind {
        VALID {
            /// A clause to a line, one space between.
            Plain,
            /// Any spaces, tabs and line ends between the numbers.
            Scattered,
            Comments,
            RepeatedNumbers,
            /// Clauses that are dropped, but counted.
            OppositeNumbers,
            /// The header has more variables than the clauses.
            UnusedVariables,
            /// One clause of hundreds of numbers.
            WideClause,
            ManyClauses,
            /// All of the above together.
            Mixed,
        }
        /// The kinds beside the valid ones that are far from the limits.
        FAULTY {
            /// Nothing or comments only.
            NoHeader,
            HeaderMalformed,
            VariablesPastLimit,
            NotANumber,
            AboveTheHeader,
            FewerClausesSaid,
            MoreClausesSaid,
            LastNotEnded,
            LoneZero,
            NothingKept,
            Cut,
            ChangedBytes,
            InsertedByte,
            RemovedByte,
            FewLetters,
            AnyBytes,
        }
        AT_LIMITS {
            VariablesAtLimit,
            ClausesAtLimit,
            ClausesPastLimit,
            LiteralsAtLimit,
            LiteralsPastLimit,
            /// A limit is met, or met but for one, and more clauses come.
            ClausesFullThenMore,
            LiteralsFullThenMore,
            LiteralsNearlyFullThenMore,
            BytesAtLimit,
            BytesPastLimit,
        }
    }
}

use NumberedKind::*;

/// Numbers of one digit, so that the limits are met before the text is too long.
const SHORT_NUMBERS: usize = 9;

/// A numbered text that is not yet written.
pub struct Sketch {
    pub comments: Vec<Word>,
    pub variables: u64,
    /// How many clauses the header is to say that there are.
    pub said: u64,
    /// Literals as in own texts, named by their numbers.
    pub clauses: Vec<Line>,
}

impl Sketch {
    pub fn new(variables: u64, clauses: Vec<Line>) -> Sketch {
        Sketch {
            comments: Vec::new(),
            variables,
            said: clauses.len() as u64,
            clauses,
        }
    }

    pub fn header(&self) -> Word {
        format!("p cnf {} {}", self.variables, self.said).into_bytes()
    }

    /// The numbers of all clauses, with a 0 after each clause.
    pub fn numbers(&self) -> Vec<Word> {
        let ended = |clause: &Line| [clause.iter().map(as_number).collect(), vec![b"0".to_vec()]];
        self.clauses.iter().flat_map(ended).flatten().collect()
    }

    pub fn write(&self) -> Vec<u8> {
        self.write_with(&self.header(), &self.numbers())
    }

    /// With another header or other numbers; a clause to a line.
    pub fn write_with(&self, header: &[u8], numbers: &[Word]) -> Vec<u8> {
        let mut text = self.head(header);
        for number in numbers {
            text.extend(number);
            text.push(if number == b"0" { b'\n' } else { b' ' });
        }
        end_line(&mut text);
        text
    }

    /// With any gaps between the numbers.
    pub fn scatter(&self, random: &mut Random) -> Vec<u8> {
        let mut text = self.head(&self.header());
        push_gap(&mut text, 0, random);
        for number in self.numbers() {
            text.extend(number);
            push_gap(&mut text, 1, random);
        }
        end_line(&mut text);
        text
    }

    /// The comments and the header's line.
    fn head(&self, header: &[u8]) -> Vec<u8> {
        let comments = self.comments.iter().flat_map(|line| [&line[..], b"\n"]);
        comments.chain([header, b"\n"]).flatten().copied().collect()
    }
}

/// Where no line is open nothing is put.
fn end_line(text: &mut Vec<u8>) {
    if text.last() != Some(&b'\n') {
        text.push(b'\n');
    }
}

fn push_gap(text: &mut Vec<u8>, least: usize, random: &mut Random) {
    let more = if random.one_in(3) { random.below(4) } else { 0 };
    text.extend((0..least + more).map(|_| random.pick(b"  \t\n")));
}

/// The name of the term with this number.
fn decimal(term: usize) -> Word {
    (term + 1).to_string().into_bytes()
}

fn as_number(literal: &Word) -> Word {
    String::from_utf8_lossy(literal).replace('~', "-").into()
}

/// An accepted numbered text as own text: a line `N ~N` for each variable, so that all are known in order, then the same clauses.
pub fn as_own_text(text: &[u8]) -> Vec<u8> {
    let mut lines = text.split(|byte| *byte == b'\n');
    let header = lines.find(|line| !line.starts_with(b"c"));
    let header = String::from_utf8_lossy(header.expect("there is a header"));
    let variables = header.split_ascii_whitespace().nth(2);
    let variables: u64 = variables
        .and_then(|word| word.parse().ok())
        .expect("it has its form");
    let known = (1..=variables).map(|number| format!("{number} ~{number}\n"));
    let word = |number: &str| match number {
        "0" => "\n".to_string(),
        number => number.replace('-', "~") + " ",
    };
    let clauses = String::from_utf8_lossy(&lines.collect::<Vec<_>>().join(&b'\n'))
        .split_ascii_whitespace()
        .map(word)
        .collect::<String>();
    (known.collect::<String>() + &clauses).into_bytes()
}

/// Of one to four numbers each; a number may stand twice or both ways in one.
fn some_clauses(variables: usize, random: &mut Random) -> Vec<Line> {
    let numbers: Vec<Word> = (0..variables).map(decimal).collect();
    let count = random.between(1, 3 * variables.min(30));
    random_lines(&numbers, count, [1, 4], random)
}

/// A valid text of any shape; a clause that is always kept stands in it.
pub fn some_sketch(random: &mut Random) -> Sketch {
    let kind = random.pick(&NumberedKind::VALID);
    sketch_of(kind, random)
}

fn sketch_of(kind: NumberedKind, random: &mut Random) -> Sketch {
    let used = match kind {
        WideClause | ManyClauses => random.between(100, 400),
        _ => random.between(1, 40),
    };
    let mut clauses = match kind {
        WideClause => vec![wide(used, random)],
        ManyClauses => many(used, random),
        _ => some_clauses(used, random),
    };
    if kind == RepeatedNumbers || kind == Mixed {
        repeat_literals(&mut clauses, random);
    }
    if kind == OppositeNumbers || kind == Mixed {
        add_opposites(&mut clauses, random);
    }
    let place = random.between(0, clauses.len());
    clauses.insert(place, vec![decimal(random.below(used))]);
    let unused = match kind {
        UnusedVariables | Mixed => random.pick(&[1, 7, 60, 2_008]),
        _ => 0,
    };
    let mut sketch = Sketch::new((used + unused) as u64, clauses);
    if kind == Comments || kind == Mixed {
        sketch.comments = (0..random.between(1, 4)).map(|_| comment(random)).collect();
    }
    sketch
}

/// Bytes of any kind but 10 after the c.
pub fn comment(random: &mut Random) -> Word {
    let after = random.pick(&[&b""[..], b" ", b"nf ", b"c", b"\r"]);
    [&b"c"[..], after, &rubbish(random)].concat()
}

/// Each number once, with any sign.
fn wide(variables: usize, random: &mut Random) -> Line {
    let mut numbers: Line = (0..variables)
        .map(|term| signed(&decimal(term), random.coin()))
        .collect();
    random.shuffle(&mut numbers);
    numbers
}

fn many(variables: usize, random: &mut Random) -> Vec<Line> {
    let numbers: Vec<Word> = (0..variables).map(decimal).collect();
    random_lines(&numbers, 3 * variables, [2, 3], random)
}

/// A numbered text of any kind: about half are valid ones.
pub fn numbered_text_within(limits: &Limits, random: &mut Random) -> Vec<u8> {
    let others = [&NumberedKind::FAULTY[..], &NumberedKind::AT_LIMITS].concat();
    let kinds = random.pick(&[&NumberedKind::VALID[..], &others]);
    numbered_text_of(random.pick(kinds), limits, random)
}

pub fn numbered_text_of(kind: NumberedKind, limits: &Limits, random: &mut Random) -> Vec<u8> {
    match kind {
        NoHeader => faulty::no_header(random),
        HeaderMalformed => faulty::header_malformed(random),
        VariablesPastLimit => faulty::variables_past_limit(limits, random),
        NotANumber => faulty::not_a_number(random),
        AboveTheHeader => faulty::above_the_header(random),
        FewerClausesSaid => faulty::fewer_clauses_said(random),
        MoreClausesSaid => faulty::more_clauses_said(random),
        LastNotEnded => faulty::last_not_ended(random),
        LoneZero => faulty::lone_zero(random),
        NothingKept => faulty::nothing_kept(random),
        Cut => faulty::damaged(
            |text, random| text.truncate(random.below(text.len())),
            random,
        ),
        ChangedBytes => faulty::damaged(|text, random| change_bytes(text, random), random),
        InsertedByte => faulty::damaged(insert_byte, random),
        RemovedByte => faulty::damaged(remove_byte, random),
        FewLetters => faulty::few_letters(random),
        AnyBytes => faulty::any_bytes(random),
        Scattered | Mixed => sketch_of(kind, random).scatter(random),
        _ if NumberedKind::VALID.contains(&kind) => sketch_of(kind, random).write(),
        _ => text_at_a_limit(kind, limits, random),
    }
}

fn text_at_a_limit(kind: NumberedKind, limits: &Limits, random: &mut Random) -> Vec<u8> {
    let clauses = limits.clauses;
    let literals = limits.literals;
    match kind {
        VariablesAtLimit => variables_at_limit(limits, random).write(),
        ClausesAtLimit => of_clauses(clauses, limits, random).write(),
        ClausesPastLimit => of_clauses(clauses + 1, limits, random).write(),
        LiteralsAtLimit => of_literals(literals, limits, random).write(),
        LiteralsPastLimit => of_literals(literals + 1, limits, random).write(),
        ClausesFullThenMore => then_more(of_clauses(clauses, limits, random), random),
        LiteralsFullThenMore => then_more(of_literals(literals, limits, random), random),
        LiteralsNearlyFullThenMore => then_more(of_literals(literals - 1, limits, random), random),
        BytesAtLimit => text_of_bytes(limits.text, random),
        _ => text_of_bytes(limits.text + 1, random),
    }
}

fn variables_at_limit(limits: &Limits, random: &mut Random) -> Sketch {
    let mut clauses = some_clauses(limits.terms, random);
    clauses.push(vec![decimal(limits.terms - 1)]);
    Sketch::new(limits.terms as u64, clauses)
}

/// Of one or two numbers each.
fn of_clauses(clauses: usize, limits: &Limits, random: &mut Random) -> Sketch {
    let literals = random.between(clauses, limits.literals);
    of_size(clauses, literals, limits, random)
}

fn of_literals(literals: usize, limits: &Limits, random: &mut Random) -> Sketch {
    let most = limits.clauses.min(literals);
    let fewest = literals.div_ceil(short_numbers(limits)).min(most);
    of_size(random.between(fewest, most), literals, limits, random)
}

fn of_size(clauses: usize, literals: usize, limits: &Limits, random: &mut Random) -> Sketch {
    let variables = short_numbers(limits);
    let lines = lines_of_size(decimal, [variables, clauses, literals], random);
    Sketch::new(variables as u64, lines)
}

fn short_numbers(limits: &Limits) -> usize {
    SHORT_NUMBERS.min(limits.terms)
}

/// One to three clauses more, said by the header but for one more or fewer now and then.
fn then_more(mut sketch: Sketch, random: &mut Random) -> Vec<u8> {
    let mut numbers = sketch.numbers();
    let more: Vec<&str> = (0..random.between(1, 3))
        .map(|_| random.pick(&faulty::TAILS))
        .collect();
    let words = more.iter().flat_map(|clause| clause.split(' '));
    numbers.extend(words.map(|word| word.as_bytes().to_vec()));
    sketch.said += more.len() as u64 + 1 - random.pick(&[0, 1, 1, 1, 2]);
    sketch.write_with(&sketch.header(), &numbers)
}

/// An accepted text of exactly this many bytes, filled up by gaps or by a comment.
fn text_of_bytes(bytes: usize, random: &mut Random) -> Vec<u8> {
    let mut text = some_sketch(random).write();
    if text.len() + 2 > bytes {
        text = b"p cnf 1 1\n1 0\n".to_vec();
    }
    let more = bytes.saturating_sub(text.len());
    if random.coin() {
        let mut comment = vec![b'c'; more - 1];
        comment.push(b'\n');
        return [comment, text].concat();
    }
    let mut gaps: Vec<u8> = (0..more).map(|_| random.pick(b" \t\n\n")).collect();
    if let Some(last) = gaps.last_mut() {
        *last = b'\n';
    }
    [text, gaps].concat()
}

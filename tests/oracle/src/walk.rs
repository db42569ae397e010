//! The walk, step for step.

use crate::agree::agree;
use crate::draw::Generator;
use crate::limits::{Limits, TERMS_IN_A_WORD};
use crate::order::Order;
use crate::reasons::{NONE, OUT_OF_RANGE, TABLES_DISAGREE, TABLE_TOO_SHORT};
use crate::state::{term_of, Occurrences, State};
use crate::tables::{Counts, Tables};

/// Result 1 is found, 2 gave up, 0 refused.
#[derive(Clone, Copy, Debug, PartialEq, Eq)]
pub struct WalkAnswer {
    pub result: u64,
    pub reason: u64,
    /// "Walks are those begun".
    pub walks: u64,
    /// "flips are summed over all of them".
    pub flips: u64,
    pub counts: Counts,
}

/// What a test can be told of a walk.
#[derive(Clone, Copy, Debug, PartialEq, Eq)]
pub enum Event {
    Flip(Step),
    End(End),
}

/// How one walk ends; found is the run's end too.
#[derive(Clone, Copy, Debug, PartialEq, Eq, PartialOrd, Ord)]
pub enum End {
    Found,
    FlipsMade,
    /// The chosen clause has no literal of a free term.
    Stuck,
}

/// What one flip was chosen among, and what was chosen.
#[derive(Clone, Copy, Debug, PartialEq, Eq)]
pub struct Step {
    pub uncovered: usize,
    /// The literals of the clause whose terms are pinned: none of them can be picked.
    pub pinned: usize,
    /// Its other literals, the least break count among them, and how many have it.
    pub literals: usize,
    pub least: usize,
    pub at_least: usize,
    /// Whether the draw was heads, where one was made.
    pub heads: Option<bool>,
    /// The literal that was picked, and the generator's state afterwards.
    pub literal: usize,
    pub state: u32,
}

/// Walks from agreeing tables and leaves its end in them.
pub fn walk(limits: &Limits, order: &Order, counts: Counts, tables: &mut Tables) -> WalkAnswer {
    walk_telling(limits, order, counts, tables, &mut |_| {})
}

/// The same; each flip and each walk's end is told, so that a test can count what it meets.
pub fn walk_telling(
    limits: &Limits,
    order: &Order,
    counts: Counts,
    tables: &mut Tables,
    tell: &mut dyn FnMut(Event),
) -> WalkAnswer {
    if let Some(reason) = reason_against(limits, order, &counts, tables) {
        return WalkAnswer {
            result: 0,
            reason,
            walks: 0,
            flips: 0,
            counts,
        };
    }
    let mut walker = Walker::new(order, State::standing(&counts, tables), tell);
    let found = walker.walk_until_found_or_spent();
    tables.write_over(limits, &walker.state.lay_out(limits));
    WalkAnswer {
        result: if found { 1 } else { 2 },
        reason: NONE,
        walks: walker.walks,
        flips: walker.flips,
        counts: walker.state.counts(),
    }
}

/// "A walk tests 1, 11, 12."
fn reason_against(limits: &Limits, order: &Order, counts: &Counts, tables: &Tables) -> Option<u64> {
    if !tables.reach_full_size(limits) {
        Some(TABLE_TOO_SHORT)
    } else if !order.is_in_range() {
        Some(OUT_OF_RANGE)
    } else if !agree(limits, counts, tables) {
        Some(TABLES_DISAGREE)
    } else {
        None
    }
}

struct Walker<'a> {
    order: &'a Order,
    state: State,
    occurrences: Occurrences,
    generator: Generator,
    walks: u64,
    flips: u64,
    tell: &'a mut dyn FnMut(Event),
}

impl<'a> Walker<'a> {
    fn new(order: &'a Order, state: State, tell: &'a mut dyn FnMut(Event)) -> Walker<'a> {
        let occurrences = state.occurrences();
        let generator = Generator {
            state: order.seed as u32,
        };
        Walker {
            order,
            state,
            occurrences,
            generator,
            walks: 0,
            flips: 0,
            tell,
        }
    }

    /// "next walk from 1, or give up if it was the last. The generator is not seeded again."
    fn walk_until_found_or_spent(&mut self) -> bool {
        while self.walks < self.order.walks {
            let end = self.walk_once();
            (self.tell)(Event::End(end));
            if end == End::Found {
                return true;
            }
        }
        false
    }

    /// Steps 1 to 5; found is tested before the flips are. "if the chosen clause has none, the walk ends": step 3 is made by then.
    fn walk_once(&mut self) -> End {
        self.walks += 1;
        self.start();
        let mut flips_of_this_walk = 0;
        while !self.state.uncovered.is_empty() {
            if flips_of_this_walk == self.order.flips {
                return End::FlipsMade;
            }
            let clause = self.choose_clause();
            let free = self.free_literals(clause);
            if free.is_empty() {
                return End::Stuck;
            }
            let literal = self.choose_literal(clause, &free);
            self.state.flip(term_of(literal), &self.occurrences);
            flips_of_this_walk += 1;
            self.flips += 1;
        }
        End::Found
    }

    /// Step 1: "for every 32 terms, or the part of 32 at the end, one draw gives their values", and "A start gives a pinned term its value
    /// in place of the drawn bit (the bit is still drawn)".
    fn start(&mut self) {
        let pins = self.state.pins.chunks(TERMS_IN_A_WORD);
        let words = self.state.values.chunks_mut(TERMS_IN_A_WORD).zip(pins);
        for (word, pins) in words {
            let draw = self.generator.draw();
            for (bit, (value, pin)) in word.iter_mut().zip(pins).enumerate() {
                *value = pin.unwrap_or(draw >> bit & 1 == 1);
            }
        }
        self.state.uncovered = self.state.uncovered_rising();
    }

    /// Step 3: "It is drawn even when there is one."
    fn choose_clause(&mut self) -> usize {
        let slot = self.choice(self.state.uncovered.len());
        self.state.uncovered[slot]
    }

    /// "Step 4 of the walk looks only at literals of free terms"; they stay in reading order.
    fn free_literals(&self, clause: usize) -> Vec<usize> {
        let mut literals = self.state.clauses[clause].clone();
        literals.retain(|literal| self.state.pins[term_of(*literal)].is_none());
        literals
    }

    /// Step 4, among these literals of the clause.
    fn choose_literal(&mut self, clause: usize, literals: &[usize]) -> usize {
        let least = self.least_break_count(literals);
        let mut at_least = literals.to_vec();
        at_least.retain(|literal| self.break_count(*literal) == least);
        let heads = (least > 0).then(|| self.generator.heads(self.order.bias));
        let literal = match at_least[..] {
            _ if heads == Some(true) => self.choose_among(literals),
            [only] => only,
            _ => self.choose_among(&at_least),
        };
        (self.tell)(Event::Flip(Step {
            uncovered: self.state.uncovered.len(),
            pinned: self.state.clauses[clause].len() - literals.len(),
            literals: literals.len(),
            least,
            at_least: at_least.len(),
            heads,
            literal,
            state: self.generator.state,
        }));
        literal
    }

    fn choose_among(&mut self, literals: &[usize]) -> usize {
        literals[self.choice(literals.len())]
    }

    /// "every choice takes the mode"
    fn choice(&mut self, among: usize) -> usize {
        if self.order.even == 1 {
            self.generator.even_choice(among as u64) as usize
        } else {
            self.generator.choice(among)
        }
    }

    fn least_break_count(&self, literals: &[usize]) -> usize {
        let counts = literals.iter().map(|literal| self.break_count(*literal));
        counts.min().unwrap_or(0)
    }

    fn break_count(&self, literal: usize) -> usize {
        self.state.break_count(term_of(literal), &self.occurrences)
    }
}

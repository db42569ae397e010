//! What a walk is asked to do, and how it ends.

/// The numbers of a walk, as an order sheet gives them. A walk refuses those outside their ranges.
#[derive(Clone, Copy, Debug, PartialEq, Eq, Hash)]
pub struct Order {
    /// The generator's first state: 1 to 4,294,967,295.
    pub seed: u32,
    /// The most flips of each walk: 0 to 100,000.
    pub flips: u32,
    /// The most walks, one after the other: 1 to 1,000.
    pub walks: u32,
    /// How often, in thousandths, any literal of the clause may be chosen where each would uncover
    /// another clause: 0 to 1,000.
    pub bias: u32,
    /// How a clause, or a literal among several, is chosen.
    pub choice: Choice,
}

/// How one of several is chosen, by draws.
#[derive(Clone, Copy, Debug, Default, PartialEq, Eq, Hash)]
pub enum Choice {
    /// By the draw's remainder, which slightly favours the first: an order sheet of four lines.
    #[default]
    Remainder,
    /// Evenly, drawing again where the remainder would favour some: the sheet's line `choice=even`.
    Even,
}

/// Seed 1, ten walks of at most 10,000 flips, bias 400, choices by the remainder: a start for an order
/// of one's own, as in `Order { seed: 7, ..Order::default() }`.
impl Default for Order {
    fn default() -> Order {
        Order {
            seed: 1,
            flips: 10_000,
            walks: 10,
            bias: 400,
            choice: Choice::Remainder,
        }
    }
}

/// How walks end.
///
/// ```
/// use ngiyarumba::{Order, Outcome, Tables};
///
/// let mut tables = Tables::new();
/// tables.read("a\n~a\n")?;
/// let outcome = tables.walk(Order { flips: 2, walks: 1, ..Order::default() })?;
/// assert_eq!(outcome, Outcome::GaveUp { walks: 1, flips: 2, uncovered: 1 });
/// assert_eq!(tables.answer(), None);
/// # Ok::<(), ngiyarumba::Error>(())
/// ```
#[derive(Clone, Copy, Debug, PartialEq, Eq, Hash)]
pub enum Outcome {
    /// Every clause has a true literal. The tables hold the answer.
    Found {
        /// Those begun.
        walks: u32,
        /// Made, summed over all walks.
        flips: u32,
        /// The terms that are true.
        chosen: u32,
    },
    /// Each walk has made its flips, or has come to a clause whose terms are all pinned. The tables hold
    /// the end of the last one. There may be an answer all the same.
    GaveUp {
        /// Those begun.
        walks: u32,
        /// Made, summed over all walks.
        flips: u32,
        /// The clauses that have no true literal at the end of the last walk.
        uncovered: u32,
    },
}

impl Outcome {
    /// Whether every clause has a true literal.
    pub fn is_found(&self) -> bool {
        matches!(self, Outcome::Found { .. })
    }
}

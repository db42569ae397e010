//! Clauses that were read, and the values of their terms.

use std::fmt;

use crate::error::Error;
use crate::sys::{self, Lent};
use crate::walking::{Order, Outcome};

/// How much stands in the tables.
#[repr(C)]
#[derive(Clone, Copy, Debug, Default, PartialEq, Eq, Hash)]
pub struct Counts {
    /// The terms that are known, those of dropped lines too.
    pub terms: u32,
    /// The clauses: the lines that were kept.
    pub clauses: u32,
    /// The literals of all clauses.
    pub literals: u32,
    /// The clauses that have no true literal.
    pub uncovered: u32,
}

/// The eleven tables of the library and their counts: the clauses of one text, the values of its terms,
/// and which of these are pinned.
///
/// ```
/// use ngiyarumba::Tables;
///
/// let mut tables = Tables::new();
/// let counts = tables.read("a b\n~a b\n")?;
/// assert_eq!((counts.terms, counts.clauses, counts.literals), (2, 2, 4));
/// assert!(tables.clauses().eq(["a b", "~a b"]));
/// # Ok::<(), ngiyarumba::Error>(())
/// ```
#[derive(Clone, PartialEq, Eq)]
pub struct Tables {
    lent: Box<Lent>,
    counts: Counts,
}

impl Tables {
    /// Tables into which nothing has been read. They take 162 KB.
    pub fn new() -> Tables {
        Tables {
            lent: Lent::zeros(),
            counts: Counts::default(),
        }
    }

    /// Reads clause text in place of what stood. Every value is then false, and every term free. After a
    /// refused text no clause stands.
    ///
    /// ```
    /// # use ngiyarumba::{Reason, Tables};
    /// let mut tables = Tables::new();
    /// assert_eq!(tables.read("~ a line that begins so is a comment\na ~b\n")?.clauses, 1);
    /// assert_eq!(tables.read("a ~b").unwrap_err().reason(), Reason::TextCut);
    /// assert_eq!(tables.counts().clauses, 0);
    /// # Ok::<(), ngiyarumba::Error>(())
    /// ```
    pub fn read(&mut self, text: impl AsRef<[u8]>) -> Result<Counts, Error> {
        let answer = sys::read(text.as_ref(), &mut self.lent);
        self.take(answer)
    }

    /// Reads a numbered file (DIMACS CNF) in place of what stood: comment lines that begin with `c`, the
    /// line `p cnf V C`, then C clauses of numbers up to V, a minus before those negated, each ended by 0.
    /// All V variables are then terms, in order, named by their numbers.
    ///
    /// ```
    /// # use ngiyarumba::{Reason, Tables};
    /// let mut tables = Tables::new();
    /// let counts = tables.read_numbered("c two clauses\np cnf 3 2\n1 -2 0\n2\n0\n")?;
    /// assert_eq!((counts.terms, counts.clauses, counts.literals), (3, 2, 3));
    /// assert!(tables.clauses().eq(["1 ~2", "2"]));
    /// let error = tables.read_numbered("p cnf 1 1\n2 0\n").unwrap_err();
    /// assert_eq!((error.reason(), error.line()), (Reason::PastHeader, Some(2)));
    /// # Ok::<(), ngiyarumba::Error>(())
    /// ```
    pub fn read_numbered(&mut self, text: impl AsRef<[u8]>) -> Result<Counts, Error> {
        let answer = sys::read_numbered(text.as_ref(), &mut self.lent);
        self.take(answer)
    }

    /// The counts of a reading, whatever it came to: refused, it leaves no clause.
    fn take(&mut self, answer: sys::ReadAnswer) -> Result<Counts, Error> {
        self.counts = answer.counts;
        Error::unless_zero(answer.reason, answer.line)?;
        Ok(self.counts)
    }

    /// Walks from drawn values until every clause is covered, or until each walk has made its flips or
    /// has come to a clause whose terms are all pinned. Pinned terms keep their values. The values of
    /// the others do not matter: the same order over the same clauses and pins ends the same. A refused
    /// order changes nothing.
    ///
    /// ```
    /// # use ngiyarumba::{Order, Reason, Tables};
    /// let order = Order { seed: 7, flips: 100, ..Order::default() };
    /// let mut tables = Tables::new();
    /// tables.read("river wetland\n~river ~wetland\n")?;
    /// assert!(tables.walk(order)?.is_found());
    /// let error = tables.walk(Order { seed: 0, ..order }).unwrap_err();
    /// assert_eq!(error.reason(), Reason::OutOfRange);
    /// # Ok::<(), ngiyarumba::Error>(())
    /// ```
    pub fn walk(&mut self, order: Order) -> Result<Outcome, Error> {
        let answer = sys::walk(order, self.counts, &mut self.lent);
        Error::unless_zero(answer.reason, 0)?;
        self.counts = answer.counts;
        let (walks, flips) = (answer.walks, answer.flips);
        Ok(match answer.result {
            1 => Outcome::Found {
                walks,
                flips,
                chosen: self.chosen(),
            },
            _ => Outcome::GaveUp {
                walks,
                flips,
                uncovered: self.counts.uncovered,
            },
        })
    }

    /// Turns the value of each term that the list names by its number, one after the other. The list
    /// is applied whole, or refused whole, which changes nothing. One that names a pinned term is refused.
    /// Two lists in turn leave what the joined list leaves, if it is not too long; a list given twice
    /// leaves what stood, but for the order of [`uncovered`](Tables::uncovered).
    ///
    /// ```
    /// # use ngiyarumba::Tables;
    /// let mut tables = Tables::new();
    /// tables.read("a b\n~a b\n")?;
    /// let b = tables.number_of("b").unwrap();
    /// assert_eq!(tables.flip(&[b])?.uncovered, 0);
    /// assert_eq!(tables.answer().as_deref(), Some("~a b"));
    /// assert_eq!(tables.flip(&[b])?.uncovered, 1); // given twice: as read
    /// # Ok::<(), ngiyarumba::Error>(())
    /// ```
    pub fn flip(&mut self, list: &[u16]) -> Result<Counts, Error> {
        let answer = sys::flip(list, self.counts, &mut self.lent);
        Error::unless_zero(answer.reason, 0)?;
        self.counts = answer.counts;
        Ok(self.counts)
    }

    /// Pins a term, given by its number, at a value: the term gets the value where it has the other, and
    /// neither a walk nor a flip list moves it any more. What is pinned may be pinned anew, at the other
    /// value too. A refused pin changes nothing.
    ///
    /// ```
    /// # use ngiyarumba::{Order, Reason, Tables};
    /// let mut tables = Tables::new();
    /// tables.read("river wetland\n~river ~wetland\n")?;
    /// let wetland = tables.number_of("wetland").unwrap();
    /// tables.pin(wetland, true)?;
    /// for seed in 1..=9 {
    ///     assert!(tables.walk(Order { seed, ..Order::default() })?.is_found());
    ///     assert_eq!(tables.answer().as_deref(), Some("~river wetland"));
    /// }
    /// assert_eq!(tables.flip(&[wetland]).unwrap_err().reason(), Reason::PinnedTerm);
    /// # Ok::<(), ngiyarumba::Error>(())
    /// ```
    pub fn pin(&mut self, term: u16, value: bool) -> Result<Counts, Error> {
        let answer = sys::pin(term, value, self.counts, &mut self.lent);
        Error::unless_zero(answer.reason, 0)?;
        self.counts = answer.counts;
        Ok(self.counts)
    }

    /// Lifts the pin of a term, given by its number. Nothing else changes: the term keeps its value until
    /// a walk or a flip list moves it. A term that is free may be lifted too.
    ///
    /// ```
    /// # use ngiyarumba::Tables;
    /// let mut tables = Tables::new();
    /// tables.read("a b\n~a b\n")?;
    /// let b = tables.number_of("b").unwrap();
    /// tables.pin(b, true)?;
    /// tables.lift(b)?;
    /// assert_eq!(tables.answer().as_deref(), Some("~a b"));
    /// assert_eq!(tables.flip(&[b])?.uncovered, 1);
    /// # Ok::<(), ngiyarumba::Error>(())
    /// ```
    pub fn lift(&mut self, term: u16) -> Result<Counts, Error> {
        let answer = sys::lift(term, self.counts, &mut self.lent);
        Error::unless_zero(answer.reason, 0)?;
        self.counts = answer.counts;
        Ok(self.counts)
    }

    /// How much stands here now.
    pub fn counts(&self) -> Counts {
        self.counts
    }

    /// The name and the value of each term, by number: in the order in which they first appeared.
    ///
    /// ```
    /// # use ngiyarumba::Tables;
    /// let mut tables = Tables::new();
    /// tables.read("river ~wetland\n")?;
    /// tables.flip(&[0])?;
    /// for (name, value) in tables.terms() {
    ///     assert_eq!(value, name == "river");
    /// }
    /// # Ok::<(), ngiyarumba::Error>(())
    /// ```
    pub fn terms(&self) -> impl Iterator<Item = (String, bool)> + '_ {
        (0..self.counts.terms as usize).map(|term| (self.name(term), self.value(term)))
    }

    /// The number of the term that has this name.
    pub fn number_of(&self, name: &str) -> Option<u16> {
        (0..self.counts.terms as u16).find(|term| self.name(usize::from(*term)) == name)
    }

    /// The terms that are true.
    pub fn chosen(&self) -> u32 {
        self.lent.values.iter().map(|word| word.count_ones()).sum()
    }

    /// Every term in order, `~` before those that are false, one space between. There is no answer
    /// while a clause is uncovered, or where no clause stands.
    pub fn answer(&self) -> Option<String> {
        let covers = self.counts.clauses > 0 && self.counts.uncovered == 0;
        let terms = 0..self.counts.terms as usize;
        covers.then(|| spaced(terms.map(|term| self.literal(term, self.value(term)))))
    }

    /// The clauses by number: the lines that were kept, with a repeated literal only once.
    pub fn clauses(&self) -> impl Iterator<Item = String> + '_ {
        let bounds = self.lent.starts[..=self.counts.clauses as usize].windows(2);
        bounds.map(|bound| self.clause(usize::from(bound[0])..usize::from(bound[1])))
    }

    /// The numbers of the clauses that have no true literal, in the order of the walk's list.
    ///
    /// ```
    /// # use ngiyarumba::Tables;
    /// let mut tables = Tables::new();
    /// tables.read("a b\n~a b\n")?;
    /// let clauses: Vec<String> = tables.clauses().collect();
    /// for number in tables.uncovered() {
    ///     assert_eq!(clauses[usize::from(*number)], "a b");
    /// }
    /// # Ok::<(), ngiyarumba::Error>(())
    /// ```
    pub fn uncovered(&self) -> &[u16] {
        &self.lent.uncovered_list[..self.counts.uncovered as usize]
    }

    /// For each clause, how many of its literals are true.
    pub fn true_counts(&self) -> &[u16] {
        &self.lent.true_counts[..self.counts.clauses as usize]
    }

    /// For each term, how many clauses would have no true literal left if it were flipped.
    pub fn break_counts(&self) -> &[u16] {
        &self.lent.break_counts[..self.counts.terms as usize]
    }

    /// For each term its mark: 0 where it is free, 1 where it is pinned at false, 2 at true.
    ///
    /// ```
    /// # use ngiyarumba::Tables;
    /// let mut tables = Tables::new();
    /// tables.read("a b c\n")?;
    /// tables.pin(0, false)?;
    /// tables.pin(2, true)?;
    /// assert_eq!(tables.marks(), [1, 0, 2]);
    /// # Ok::<(), ngiyarumba::Error>(())
    /// ```
    pub fn marks(&self) -> &[u8] {
        &self.lent.marks[..self.counts.terms as usize]
    }

    fn name(&self, term: usize) -> String {
        let bytes = self.lent.names[term].to_le_bytes().into_iter();
        bytes
            .take_while(|byte| *byte != 0)
            .map(char::from)
            .collect()
    }

    fn value(&self, term: usize) -> bool {
        self.lent.values[term / 32] >> (term % 32) & 1 == 1
    }

    fn literal(&self, term: usize, is_plain: bool) -> String {
        let sign = if is_plain { "" } else { "~" };
        format!("{sign}{}", self.name(term))
    }

    fn clause(&self, bounds: std::ops::Range<usize>) -> String {
        let literals = self.lent.literals[bounds]
            .iter()
            .map(|literal| usize::from(*literal));
        spaced(literals.map(|literal| self.literal(literal / 2, literal % 2 == 0)))
    }
}

fn spaced(words: impl Iterator<Item = String>) -> String {
    words.collect::<Vec<_>>().join(" ")
}

impl Default for Tables {
    fn default() -> Tables {
        Tables::new()
    }
}

impl fmt::Debug for Tables {
    fn fmt(&self, f: &mut fmt::Formatter<'_>) -> fmt::Result {
        f.debug_struct("Tables")
            .field("counts", &self.counts)
            .finish_non_exhaustive()
    }
}

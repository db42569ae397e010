//! The limits, and the full sizes of the lent tables that follow from them.

/// "values, 32 terms to a word".
pub const TERMS_IN_A_WORD: usize = 32;

/// Document 01's ten tables, and the marks of document 02.
pub const TABLES: usize = 11;

/// The most that may be held; no other place writes these numbers.
#[derive(Clone, Copy, Debug, PartialEq, Eq)]
pub struct Limits {
    /// Bytes of a clause text, or of a whole program input.
    pub text: usize,
    pub terms: usize,
    pub clauses: usize,
    pub literals: usize,
    /// Entries of a flip list.
    pub list: usize,
}

impl Limits {
    /// The limits of document 01.
    pub const NARROW: Limits = Limits {
        text: 65_536,
        terms: 2_048,
        clauses: 8_192,
        literals: 16_384,
        list: 65_536,
    };

    /// The column "full size" of document 01, in its order, then that of the marks.
    pub fn full_sizes(&self) -> [usize; TABLES] {
        [
            self.terms,
            words_for(self.terms),
            self.clauses + 1,
            self.literals,
            2 * self.terms + 1,
            self.literals,
            self.clauses,
            self.terms,
            self.clauses,
            self.clauses,
            self.terms,
        ]
    }

    /// The column "bits" of document 01, in its order, then those of a mark.
    pub fn entry_bits(&self) -> [u32; TABLES] {
        let number = self.number_bits();
        let mut bits = [number; TABLES];
        bits[0] = 64;
        bits[1] = 32;
        bits[TABLES - 1] = 8;
        bits
    }

    /// The bytes that the longest printed lines can need.
    pub fn output_size(&self) -> usize {
        10 * self.terms + 64
    }

    /// 16 bits where every number of a table fits in them, else 32.
    fn number_bits(&self) -> u32 {
        let largest = self.clauses.max(self.literals).max(2 * self.terms);
        if largest <= usize::from(u16::MAX) {
            16
        } else {
            32
        }
    }
}

/// The value words that hold this many terms.
pub fn words_for(terms: usize) -> usize {
    terms.div_ceil(TERMS_IN_A_WORD)
}

//! The calls of the static library, as `include/ngiyarumba.h` declares them. All that is unsafe
//! stands here.

use crate::{Choice, Counts, Order};

const TERMS: usize = 2_048;
const CLAUSES: usize = 8_192;
const LITERALS: usize = 16_384;
/// `NGI_OUT_SIZE`: no report is longer.
pub const OUT_SIZE: usize = 10 * TERMS + 64;

/// The eleven tables. Each has its full size by its type, as the buffer of a run has, so no call is refused
/// for a short one.
#[derive(Clone, PartialEq, Eq)]
pub struct Lent {
    pub names: [u64; TERMS],
    pub values: [u32; TERMS / 32],
    pub starts: [u16; CLAUSES + 1],
    pub literals: [u16; LITERALS],
    pub occurrence_starts: [u16; 2 * TERMS + 1],
    pub occurrences: [u16; LITERALS],
    pub true_counts: [u16; CLAUSES],
    pub break_counts: [u16; TERMS],
    pub uncovered_list: [u16; CLAUSES],
    pub places: [u16; CLAUSES],
    pub marks: [u8; TERMS],
}

impl Lent {
    pub fn zeros() -> Box<Lent> {
        Box::new(Lent {
            names: [0; TERMS],
            values: [0; TERMS / 32],
            starts: [0; CLAUSES + 1],
            literals: [0; LITERALS],
            occurrence_starts: [0; 2 * TERMS + 1],
            occurrences: [0; LITERALS],
            true_counts: [0; CLAUSES],
            break_counts: [0; TERMS],
            uncovered_list: [0; CLAUSES],
            places: [0; CLAUSES],
            marks: [0; TERMS],
        })
    }
}

/// `ngi_drawn`.
#[repr(C)]
pub struct Drawn {
    pub reason: u32,
    pub number: u32,
    pub state: u32,
}

/// `ngi_read_answer`; the four counts stand in the order of the header.
#[repr(C)]
pub struct ReadAnswer {
    pub result: u32,
    pub reason: u32,
    pub line: u32,
    pub counts: Counts,
}

/// `ngi_walk_answer`.
#[repr(C)]
pub struct WalkAnswer {
    pub result: u32,
    pub reason: u32,
    pub walks: u32,
    pub flips: u32,
    pub counts: Counts,
}

/// `ngi_flip_answer`, to a flip list, a pin or a lifting.
#[repr(C)]
pub struct FlipAnswer {
    pub result: u32,
    pub reason: u32,
    pub counts: Counts,
}

/// `ngi_run_answer`.
#[repr(C)]
pub struct RunAnswer {
    pub result: u32,
    pub reason: u32,
    pub length: usize,
}

#[rustfmt::skip] // as the header is laid out
extern "C" {
    fn ngi_draw(state: u32) -> Drawn;
    fn ngi_choice(state: u32, m: u32) -> Drawn;
    fn ngi_choice_even(state: u32, m: u32) -> Drawn;
    fn ngi_heads(state: u32, bias: u32) -> Drawn;
    fn ngi_read(
        text: *const u8, text_length: usize,
        names: *mut u64, names_length: usize,
        values: *mut u32, values_length: usize,
        starts: *mut u16, starts_length: usize,
        literals_table: *mut u16, literals_table_length: usize,
        occurrence_starts: *mut u16, occurrence_starts_length: usize,
        occurrences: *mut u16, occurrences_length: usize,
        true_counts: *mut u16, true_counts_length: usize,
        break_counts: *mut u16, break_counts_length: usize,
        uncovered_list: *mut u16, uncovered_list_length: usize,
        places: *mut u16, places_length: usize,
        marks: *mut u8, marks_length: usize,
    ) -> ReadAnswer;
    fn ngi_read_numbered(
        text: *const u8, text_length: usize,
        names: *mut u64, names_length: usize,
        values: *mut u32, values_length: usize,
        starts: *mut u16, starts_length: usize,
        literals_table: *mut u16, literals_table_length: usize,
        occurrence_starts: *mut u16, occurrence_starts_length: usize,
        occurrences: *mut u16, occurrences_length: usize,
        true_counts: *mut u16, true_counts_length: usize,
        break_counts: *mut u16, break_counts_length: usize,
        uncovered_list: *mut u16, uncovered_list_length: usize,
        places: *mut u16, places_length: usize,
        marks: *mut u8, marks_length: usize,
    ) -> ReadAnswer;
    fn ngi_walk(
        seed: u32,
        flips: u32,
        walks: u32,
        bias: u32,
        even: u32,
        terms: u32, clauses: u32,
        literals: u32, uncovered: u32,
        names: *const u64, names_length: usize,
        values: *mut u32, values_length: usize,
        starts: *const u16, starts_length: usize,
        literals_table: *const u16, literals_table_length: usize,
        occurrence_starts: *const u16, occurrence_starts_length: usize,
        occurrences: *const u16, occurrences_length: usize,
        true_counts: *mut u16, true_counts_length: usize,
        break_counts: *mut u16, break_counts_length: usize,
        uncovered_list: *mut u16, uncovered_list_length: usize,
        places: *mut u16, places_length: usize,
        marks: *const u8, marks_length: usize,
    ) -> WalkAnswer;
    fn ngi_flip(
        list: *const u16, list_length: usize,
        terms: u32, clauses: u32,
        literals: u32, uncovered: u32,
        names: *const u64, names_length: usize,
        values: *mut u32, values_length: usize,
        starts: *const u16, starts_length: usize,
        literals_table: *const u16, literals_table_length: usize,
        occurrence_starts: *const u16, occurrence_starts_length: usize,
        occurrences: *const u16, occurrences_length: usize,
        true_counts: *mut u16, true_counts_length: usize,
        break_counts: *mut u16, break_counts_length: usize,
        uncovered_list: *mut u16, uncovered_list_length: usize,
        places: *mut u16, places_length: usize,
        marks: *const u8, marks_length: usize,
    ) -> FlipAnswer;
    fn ngi_pin(
        term: u32,
        value: u32,
        terms: u32, clauses: u32,
        literals: u32, uncovered: u32,
        names: *const u64, names_length: usize,
        values: *mut u32, values_length: usize,
        starts: *const u16, starts_length: usize,
        literals_table: *const u16, literals_table_length: usize,
        occurrence_starts: *const u16, occurrence_starts_length: usize,
        occurrences: *const u16, occurrences_length: usize,
        true_counts: *mut u16, true_counts_length: usize,
        break_counts: *mut u16, break_counts_length: usize,
        uncovered_list: *mut u16, uncovered_list_length: usize,
        places: *mut u16, places_length: usize,
        marks: *mut u8, marks_length: usize,
    ) -> FlipAnswer;
    fn ngi_lift(
        term: u32,
        terms: u32, clauses: u32,
        literals: u32, uncovered: u32,
        names: *const u64, names_length: usize,
        values: *const u32, values_length: usize,
        starts: *const u16, starts_length: usize,
        literals_table: *const u16, literals_table_length: usize,
        occurrence_starts: *const u16, occurrence_starts_length: usize,
        occurrences: *const u16, occurrences_length: usize,
        true_counts: *const u16, true_counts_length: usize,
        break_counts: *const u16, break_counts_length: usize,
        uncovered_list: *const u16, uncovered_list_length: usize,
        places: *const u16, places_length: usize,
        marks: *mut u8, marks_length: usize,
    ) -> FlipAnswer;
    fn ngi_run(
        input: *const u8, input_length: usize,
        names: *mut u64, names_length: usize,
        values: *mut u32, values_length: usize,
        starts: *mut u16, starts_length: usize,
        literals_table: *mut u16, literals_table_length: usize,
        occurrence_starts: *mut u16, occurrence_starts_length: usize,
        occurrences: *mut u16, occurrences_length: usize,
        true_counts: *mut u16, true_counts_length: usize,
        break_counts: *mut u16, break_counts_length: usize,
        uncovered_list: *mut u16, uncovered_list_length: usize,
        places: *mut u16, places_length: usize,
        marks: *mut u8, marks_length: usize,
        out: *mut u8, out_length: usize,
    ) -> RunAnswer;
}

/// Calls with some arguments, then the eleven tables, then some more.
#[rustfmt::skip]
macro_rules! call {
    ($call:ident, [$($before:expr),*], $lent:ident, [$($after:expr),*]) => {
        $call(
            $($before,)*
            $lent.names.as_mut_ptr(), $lent.names.len(),
            $lent.values.as_mut_ptr(), $lent.values.len(),
            $lent.starts.as_mut_ptr(), $lent.starts.len(),
            $lent.literals.as_mut_ptr(), $lent.literals.len(),
            $lent.occurrence_starts.as_mut_ptr(), $lent.occurrence_starts.len(),
            $lent.occurrences.as_mut_ptr(), $lent.occurrences.len(),
            $lent.true_counts.as_mut_ptr(), $lent.true_counts.len(),
            $lent.break_counts.as_mut_ptr(), $lent.break_counts.len(),
            $lent.uncovered_list.as_mut_ptr(), $lent.uncovered_list.len(),
            $lent.places.as_mut_ptr(), $lent.places.len(),
            $lent.marks.as_mut_ptr(), $lent.marks.len(),
            $($after,)*
        )
    };
}

// SAFETY, of every call below: the declarations above are those of the header, which asks only that
// each pointer has the length beside it and that nothing lent overlaps. Slices and arrays give both;
// whatever they hold, the call ends and stays inside them.

pub fn draw(state: u32) -> Drawn {
    unsafe { ngi_draw(state) }
}

pub fn choice(state: u32, m: u32) -> Drawn {
    unsafe { ngi_choice(state, m) }
}

pub fn choice_even(state: u32, m: u32) -> Drawn {
    unsafe { ngi_choice_even(state, m) }
}

pub fn heads(state: u32, bias: u32) -> Drawn {
    unsafe { ngi_heads(state, bias) }
}

pub fn read(text: &[u8], lent: &mut Lent) -> ReadAnswer {
    unsafe { call!(ngi_read, [text.as_ptr(), text.len()], lent, []) }
}

pub fn read_numbered(text: &[u8], lent: &mut Lent) -> ReadAnswer {
    unsafe { call!(ngi_read_numbered, [text.as_ptr(), text.len()], lent, []) }
}

// From here on arguments stand in the lines of the header.

#[rustfmt::skip]
pub fn walk(order: Order, counts: Counts, lent: &mut Lent) -> WalkAnswer {
    let even = match order.choice {
        Choice::Remainder => 0,
        Choice::Even => 1,
    };
    unsafe {
        call!(ngi_walk, [
            order.seed, order.flips, order.walks, order.bias, even,
            counts.terms, counts.clauses, counts.literals, counts.uncovered
        ], lent, [])
    }
}

#[rustfmt::skip]
pub fn flip(list: &[u16], counts: Counts, lent: &mut Lent) -> FlipAnswer {
    unsafe {
        call!(ngi_flip, [
            list.as_ptr(), list.len(),
            counts.terms, counts.clauses, counts.literals, counts.uncovered
        ], lent, [])
    }
}

#[rustfmt::skip]
pub fn pin(term: u16, value: bool, counts: Counts, lent: &mut Lent) -> FlipAnswer {
    unsafe {
        call!(ngi_pin, [
            u32::from(term), u32::from(value),
            counts.terms, counts.clauses, counts.literals, counts.uncovered
        ], lent, [])
    }
}

#[rustfmt::skip]
pub fn lift(term: u16, counts: Counts, lent: &mut Lent) -> FlipAnswer {
    unsafe {
        call!(ngi_lift, [
            u32::from(term),
            counts.terms, counts.clauses, counts.literals, counts.uncovered
        ], lent, [])
    }
}

/// What is printed stands first in `out`.
#[rustfmt::skip]
pub fn run(input: &[u8], lent: &mut Lent, out: &mut [u8; OUT_SIZE]) -> RunAnswer {
    unsafe { call!(ngi_run, [input.as_ptr(), input.len()], lent, [out.as_mut_ptr(), out.len()]) }
}

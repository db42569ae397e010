//! The marks of terms: "0 free, 1 pinned at 0, 2 pinned at 1".

pub const FREE: u64 = 0;
pub const PINNED_AT_0: u64 = 1;
pub const PINNED_AT_1: u64 = 2;

/// The mark of a term that is pinned at this value, or free.
pub fn mark_of(pin: Option<bool>) -> u64 {
    match pin {
        None => FREE,
        Some(false) => PINNED_AT_0,
        Some(true) => PINNED_AT_1,
    }
}

/// The value that a mark pins its term at; a mark above 2, which no tables that agree hold, is taken as 2.
pub fn pin_of(mark: u64) -> Option<bool> {
    match mark {
        FREE => None,
        PINNED_AT_0 => Some(false),
        _ => Some(true),
    }
}

//! Ngiyarumba finds values of terms that cover every clause, by the random walk known as WALKSAT.
//! This crate is a safe wrapper of its static library. Every function of the library is proved to
//! meet a complete statement of what it returns and of what it leaves in its tables.
//!
//! A clause text has one clause to a line: names of at most 8 bytes, `~` before those that are
//! negated, a space between. [`Tables`] holds what was read from one, and the values of its terms.
//!
//! ```
//! use ngiyarumba::{Order, Outcome, Tables};
//!
//! let mut tables = Tables::new();
//! tables.read("a b\n~a b\n")?;
//! let outcome = tables.walk(Order { flips: 10, ..Order::default() })?;
//! assert_eq!(outcome, Outcome::Found { walks: 1, flips: 1, chosen: 2 });
//! assert_eq!(tables.answer().as_deref(), Some("a b"));
//! # Ok::<(), ngiyarumba::Error>(())
//! ```
//!
//! [`run`] does the same for an order sheet, and returns the lines that the program prints.
//! [`Tables::read_numbered`] reads a numbered file (DIMACS CNF) in place of clause text.
//!
//! A term whose value is settled can be pinned ([`Tables::pin`]): no walk moves it, until its pin is
//! lifted ([`Tables::lift`]).
//!
//! Every call ends, with an answer or with an [`Error`] that has one of nineteen reasons. Nothing is
//! left for the caller to keep in step: the counts stay beside the tables that they belong to, and
//! every table has its full size.
//!
//! The library is for x86-64. `tools/staticlib ngiyarumba` writes it to `target/staticlib`; a library
//! that stands elsewhere is found by the folder that `NGIYARUMBA_LIB_DIR` names.

#![deny(missing_docs)]
#![deny(unsafe_code)]

/// The example of README.md is run with those of this crate.
#[cfg(doctest)]
#[doc = include_str!("../../README.md")]
pub struct Readme;

mod error;
mod generator;
mod run;
#[allow(unsafe_code)]
mod sys;
mod tables;
mod walking;

pub use error::{Error, Reason};
pub use generator::Generator;
pub use run::run;
pub use tables::{Counts, Tables};
pub use walking::{Choice, Order, Outcome};

//! An independent WALKSAT, written from the words of the documents: clear rather than fast.
//! Every count is worked out afresh from the clauses and values; none is carried along.

pub mod agree;
pub mod calls;
pub mod draw;
pub mod flips;
pub mod generate;
pub mod limits;
pub mod marks;
pub mod numbered;
pub mod numbered_rows;
pub mod order;
pub mod pin_rows;
pub mod pins;
pub mod program;
pub mod reader;
pub mod reading;
pub mod reasons;
pub mod report;
pub mod sheet;
pub mod state;
pub mod tables;
pub mod vectors;
pub mod walk;

pub use limits::Limits;
pub use order::Order;
pub use program::{run, run_on, RunAnswer};
pub use reader::Reader;
pub use state::State;
pub use tables::{Counts, Tables};

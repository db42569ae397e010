//! A deterministic generator of texts, inputs, orders, lists and tables to compare on.
//! Every kind can be asked for by itself; the functions without a kind mix them all.

pub mod cases;
pub mod damage;
pub mod draws;
pub mod faulty_texts;
pub mod flip_lists;
pub mod inputs;
pub mod kinds;
pub mod lent;
pub mod limit_texts;
pub mod lines;
pub mod names;
pub mod numbered_faults;
pub mod numbered_texts;
pub mod orders;
pub mod pinned;
pub mod random;
pub mod reader_cases;
pub mod sheets;
pub mod texts;
pub mod unsound;
pub mod valid_texts;

pub use cases::{flip_case, numbered_case, pin_case, read_case, run_case, walk_case};
pub use cases::{FlipCase, PinCase, ReadCase, RunCase, WalkCase};
pub use damage::{damage, damage_of, some_difference, DamageKind};
pub use draws::{draw_case, DrawCase};
pub use flip_lists::{flip_list, flip_list_of, without_pinned, FlipListKind};
pub use inputs::{input, input_of, input_within, InputKind};
pub use lent::{lent_tables, lent_tables_of, standing_tables, standing_tables_of, LentKind};
pub use numbered_texts::{as_own_text, numbered_text_of, numbered_text_within, NumberedKind};
pub use orders::{order, order_in_range, order_of, OrderKind};
pub use pinned::{pin_of_some_term, pin_some, pinned_tables, pinned_tables_of, PinKind};
pub use random::Random;
pub use reader_cases::{reader_case, reader_script, ReaderCase};
pub use sheets::{good_sheet, sheet, sheet_of, sheet_of_order, SheetKind};
pub use texts::{clause_text, clause_text_of, clause_text_within, TextKind};
pub use valid_texts::ValidKind;

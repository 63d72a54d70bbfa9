//! The surroundings of the parsers, in place of swash's own: every property is answered from
//! lent columns.

mod answers;
pub mod cluster;
mod lent;
mod lent_table;
pub mod over_a_lent_table;
mod record;
mod unicode_data;
pub mod words;

pub use answers::{Codepoint, Decomposition, Part};
pub use lent::{Lent, Parts, Properties};
pub use lent_table::{LentTable, WIDTH};
pub use record::{LineState, Record, State, Strength};
pub use unicode_data::{Category, ClusterBreak, LineBreak, MyanmarClass, UseClass, WordBreak};

/// Only Khmer makes a difference to the parsers.
#[derive(Copy, Clone, PartialEq, Eq)]
pub enum Script {
    Khmer,
    Any,
}

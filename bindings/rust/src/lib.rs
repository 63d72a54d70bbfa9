//! Proved text segmentation: the three cluster parsers, the word machine and the line machine of swash 0.2.10, over a static library
//! that is proved in Rattle. Every call ends and stays inside its columns, for every input, and bad input gets a [`Refusal`], never a
//! default.
//!
//! [`Text`] builds the columns of a text, [`Columns`] lends columns that are there already. [`Columns::clusters`], [`Columns::words`],
//! [`Columns::lines`] and [`Columns::graphemes`], the clusters as UAX #29 has them, iterate, and so does [`Columns::graphemes_of`], by an
//! edition of it; examples/wrap.rs wraps labels into boxes.
//! [`Properties`] reads Unicode's own property files and looks up the cluster breaks and word classes of a text; examples/properties.rs says
//! of two files how many ranges they have, or which line stands in the way.
//!
//! A call on a label of up to 256 tokens fits in 16 KiB of stack, and a call on any text, and one that reads a property file, in 256 KiB;
//! tests/stack.rs runs every call so. Measured on x86-64: 14.2 KB and 110 KB at most, and 148 KB for a property file.
//!
//! ```
//! use ezherbut::codes::{category, cluster_break, myanmar_class, use_class, word_break};
//! use ezherbut::{Marks, Mode, Parser, Record, Text};
//!
//! let mut text = Text::new();
//! text.push(Record {
//!     scalar: 0x110000,
//!     cluster_break: cluster_break::XX,
//!     use_class: use_class::REST,
//!     myanmar_class: myanmar_class::REST,
//!     category: category::OTHER,
//!     word: word_break::OTHER,
//!     marks: Marks::NONE,
//! });
//! let refusal = text.clusters(Parser::Simple, Mode::Whole).next().unwrap().unwrap_err();
//! assert_eq!(refusal.to_string(), "refusal 3: a scalar is above 10FFFF or in D800 to DFFF (record 0)");
//! ```

mod clusters;
pub mod codes;
mod editions;
mod graphemes;
mod lines;
mod marked;
mod properties;
mod refusal;
mod starts;
mod sys;
mod text;
mod words;

pub use clusters::{Character, Cluster, Clusters, Counts, Emoji, Mode, Parser, Run, Space, Step};
pub use editions::{edition_check, edition_run, edition_run_back, Edition, EditionState};
pub use graphemes::{grapheme_check, grapheme_run, grapheme_run_back, GraphemeState, Graphemes};
pub use lines::{line_run, lines, Boundary, BoundaryState, LineState, Piece, Pieces, Strength};
pub use properties::{Classes, LineError, Properties, PropertyFile, PropertyRange};
pub use refusal::{Refusal, Side};
pub use text::{Columns, Marks, Part, Record, Text};
pub use words::{word_check, word_run, WordState, Words};

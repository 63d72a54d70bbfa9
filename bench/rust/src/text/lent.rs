//! The properties that the Rust parsers ask a bare character for. In a text of a script each scalar has one set of them, so they
//! are looked up by scalar, as swash does; the oracle's shim, where two records may have one scalar and other columns, would be
//! slower than swash here.

use super::{Category, ClusterBreak, Codepoint, Decomposition, Part, UseClass, WordBreak};
use std::cell::Cell;

#[derive(Copy, Clone, Default)]
pub struct Properties {
    pub cluster_break: ClusterBreak,
    pub use_class: UseClass,
    pub category: Category,
    pub word: WordBreak,
    pub pictograph: bool,
    /// The line class by number.
    pub line: u8,
}

/// The parts of a character that has some.
#[derive(Copy, Clone)]
pub struct Parts {
    pub of: char,
    pub chars: [char; 3],
    pub len: usize,
}

/// What the text's marked records decompose into, and the properties of all parts.
#[derive(Copy, Clone)]
pub enum Lent {
    Parts(&'static [Parts], &'static [Part]),
    Words,
}

thread_local! {
    static LENT: Cell<Lent> = const { Cell::new(Lent::Words) };
}

impl Lent {
    pub fn lend(self) {
        LENT.set(self);
    }
}

impl Codepoint for char {
    fn properties(self) -> Properties {
        match LENT.get() {
            Lent::Words => super::words::properties(self),
            Lent::Parts(_, parts) => parts.iter().find(|part| part.ch == self).expect("a part of the text").properties,
        }
    }

    fn decompose(self) -> Decomposition {
        let Lent::Parts(all, _) = LENT.get() else {
            panic!("no parts were lent");
        };
        let own = all.iter().find(|parts| parts.of == self).expect("a marked character of the text");
        Decomposition(own.chars, own.len)
    }
}

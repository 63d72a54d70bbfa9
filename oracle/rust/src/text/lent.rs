//! Where the Rust asks a bare character for its properties or its decomposition, a character
//! isn't enough: two records may have one scalar and other columns. So what is asked next is
//! lent here just before: the parts of a record when its USE class is asked (`Tokens::next`
//! does this directly before it decomposes), or the columns of words and lines.

use super::{Category, ClusterBreak, Codepoint, Decomposition, LineBreak, Part, Record, UseClass, WordBreak};
use std::cell::Cell;

#[derive(Copy, Clone, Default)]
pub struct Properties {
    pub cluster_break: ClusterBreak,
    pub use_class: UseClass,
    pub category: Category,
    pub word: WordBreak,
    pub pictograph: bool,
    pub line: LineBreak,
    /// The token's number in the stream, so that a pushed token says its place.
    pub token: usize,
}

/// The 0 to 3 parts of one record.
#[derive(Copy, Clone, Default)]
pub struct Parts {
    parts: [Part; 3],
    len: usize,
}

impl Parts {
    pub fn new(parts: impl Iterator<Item = Part>) -> Self {
        let mut all = Self::default();
        for part in parts {
            all.parts[all.len] = part;
            all.len += 1;
        }
        all
    }

    pub fn len(&self) -> usize {
        self.len
    }

    /// What is left after some parts.
    pub fn after(self, passed: usize) -> Self {
        Self::new(self.parts[passed..self.len].iter().copied())
    }

    /// The parts with their token numbers.
    pub fn numbered_from(mut self, at: usize) -> Self {
        for (number, part) in self.parts.iter_mut().enumerate() {
            part.properties.token = at + number;
        }
        self
    }
}

#[derive(Copy, Clone)]
pub enum Lent {
    Parts(Parts),
    /// A record is a character of its own, as `Record::character` makes it.
    Records,
}

thread_local! {
    static LENT: Cell<Lent> = const { Cell::new(Lent::Records) };
}

impl Lent {
    pub fn lend(self) {
        LENT.set(self);
    }
}

impl Codepoint for char {
    /// Of the next lent part, in order: the Rust asks each part once, U+17C1 included.
    fn properties(self) -> Properties {
        match LENT.get() {
            Lent::Records => Record::of_character(self).properties(),
            Lent::Parts(parts) => {
                let first = parts.parts[..parts.len][0];
                assert!(first.ch == self, "properties of another character than the lent part");
                Lent::Parts(parts.after(1)).lend();
                first.properties
            }
        }
    }

    fn decompose(self) -> Decomposition {
        let Lent::Parts(parts) = LENT.get() else {
            panic!("no parts were lent");
        };
        Decomposition(parts.parts.map(|part| part.ch), parts.len)
    }
}

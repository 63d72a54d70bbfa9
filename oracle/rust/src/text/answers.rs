//! What the properties of a character answer to the Rust, and what stands for a thing that is left out.

use super::lent::Properties;
use super::{LineBreak, UseClass, WordBreak};

impl Properties {
    /// A part is never split, and as a token it is no emoji (SCOPE 2.1, 3.1).
    pub fn use_class(&self) -> (UseClass, bool, bool) {
        (self.use_class, false, false)
    }

    pub fn word_break(&self) -> WordBreak {
        self.word
    }

    pub fn is_extended_pictographic(&self) -> bool {
        self.pictograph
    }

    pub fn line_break(&self) -> LineBreak {
        self.line
    }

    pub fn bidi_class(&self) -> BidiClass {
        BidiClass
    }
}

/// Bidi is left out; analyze.rs names it.
pub struct BidiClass;

impl BidiClass {
    pub fn needs_resolution(&self) -> bool {
        false
    }
}

#[derive(Copy, Clone, Default)]
pub struct Part {
    pub ch: char,
    pub properties: Properties,
}

/// What the Rust asks a bare character for.
pub trait Codepoint {
    fn properties(self) -> Properties;
    fn decompose(self) -> Decomposition;
}

/// The scalars of a character's parts.
pub struct Decomposition(pub [char; 3], pub usize);

impl Decomposition {
    pub fn chars(&self) -> &[char] {
        &self.0[..self.1]
    }
}

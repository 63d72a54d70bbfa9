//! What a token's columns say, in a few bytes, and what a parser says of its cluster.

mod said;

use super::super::{MyanmarClass, Properties, UseClass};
pub use said::{Emoji, Whitespace};

#[derive(Copy, Clone, Default)]
pub struct CharInfo {
    pub properties: Properties,
    pub myanmar: MyanmarClass,
    pub emoji_simple: bool,
    pub emoji_myanmar: bool,
    pub emoji_complex: bool,
    pub selector: bool,
    pub decompose: bool,
}

impl CharInfo {
    pub fn use_class(&self) -> (UseClass, bool, bool) {
        (self.properties.use_class, self.decompose, self.emoji_complex)
    }
}

#[derive(Copy, Clone)]
pub struct ClusterInfo {
    pub emoji: Emoji,
    pub space: Whitespace,
    pub broken: bool,
}

impl ClusterInfo {
    pub const NONE: Self = Self {
        emoji: Emoji::None,
        space: Whitespace::None,
        broken: false,
    };
}

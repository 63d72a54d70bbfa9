//! What a token's columns say, and what a parser says of its cluster.

mod said;

use super::super::{Lent, MyanmarClass, Parts, Properties, UseClass};
pub use said::{Emoji, Whitespace};

#[derive(Copy, Clone, Default)]
pub struct CharInfo {
    pub properties: Properties,
    pub myanmar: MyanmarClass,
    pub emoji_simple: bool,
    pub emoji_myanmar: bool,
    pub emoji_complex: bool,
    pub selector: bool,
    pub decompose: bool,
    pub parts: Parts,
}

impl CharInfo {
    pub fn use_class(&self) -> (UseClass, bool, bool) {
        Lent::Parts(self.parts).lend();
        (self.properties.use_class, self.decompose, self.emoji_complex)
    }
}

pub struct ClusterInfo {
    pub emoji: Emoji,
    pub space: Whitespace,
    pub broken: bool,
}

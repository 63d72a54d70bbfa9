//! What the columns of a token answer to the Rust, and what it says of a cluster.

use super::super::super::{Category, ClusterBreak, MyanmarClass, Properties};
use super::{CharInfo, ClusterInfo};

impl CharInfo {
    pub fn cluster_class(&self) -> (ClusterBreak, bool) {
        (self.properties.cluster_break, self.emoji_simple)
    }

    pub fn myanmar_class(&self) -> (MyanmarClass, bool) {
        (self.myanmar, self.emoji_myanmar)
    }

    pub fn cluster_break(&self) -> ClusterBreak {
        self.properties.cluster_break
    }

    pub fn category(&self) -> Category {
        self.properties.category
    }

    pub fn is_variation_selector(&self) -> bool {
        self.selector
    }

    pub fn with_properties(self, properties: Properties) -> Self {
        Self { properties, ..self }
    }
}

#[derive(Copy, Clone)]
pub enum Emoji {
    None,
    Default,
    Text,
    Color,
}

/// None, newline, or the scalar that `set_space_from_char` is given (SCOPE 4.1).
#[derive(Copy, Clone)]
pub enum Whitespace {
    None,
    Newline,
    Scalar(char),
}

impl ClusterInfo {
    pub fn set_emoji(&mut self, emoji: Emoji) {
        self.emoji = emoji;
    }

    pub fn set_space(&mut self, space: Whitespace) {
        self.space = space;
    }

    pub fn set_space_from_char(&mut self, ch: char) {
        self.space = Whitespace::Scalar(ch);
    }

    pub fn set_broken(&mut self) {
        self.broken = true;
    }
}

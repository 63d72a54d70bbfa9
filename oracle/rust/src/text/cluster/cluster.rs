//! The cluster under construction: it holds 32 and notices a push beyond them.

use super::{ClusterInfo, Emoji, ShapeClass, Token, Whitespace};

pub const MAX_CLUSTER_SIZE: usize = 32;

/// Named by mod.rs.
pub struct SourceRange;

/// Named by mod.rs.
pub enum Status {}

pub struct Pushed {
    pub token: Token,
    pub class: ShapeClass,
    pub noted: usize,
}

pub struct CharCluster {
    pub pushed: Vec<Pushed>,
    pub normalize: bool,
    info: ClusterInfo,
    pushed_past: bool,
}

impl CharCluster {
    pub fn new() -> Self {
        Self {
            pushed: Vec::new(),
            normalize: false,
            info: ClusterInfo { emoji: Emoji::None, space: Whitespace::None, broken: false },
            pushed_past: false,
        }
    }

    pub fn len(&self) -> u8 {
        self.pushed.len() as u8
    }

    pub fn push(&mut self, token: &Token, class: ShapeClass) {
        if self.pushed.len() == MAX_CLUSTER_SIZE {
            self.pushed_past = true;
            return;
        }
        self.pushed.push(Pushed { token: *token, class, noted: 0 });
    }

    /// The note follows the push before it.
    pub fn note_char(&mut self, _: &Token) {
        self.pushed.last_mut().expect("a note always follows a push").noted += 1;
    }

    pub fn info_mut(&mut self) -> &mut ClusterInfo {
        &mut self.info
    }

    pub fn force_normalize(&mut self) {
        self.normalize = true;
    }

    /// Where the Rust would go on to a 33rd, the call ends with the 32, not broken (SCOPE 6.8): the
    /// class that would make it so has not been looked at.
    pub fn info(&self) -> ClusterInfo {
        ClusterInfo { broken: self.info.broken && !self.pushed_past, ..self.info }
    }
}

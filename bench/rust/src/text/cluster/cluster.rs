//! The cluster under construction: an array of 32 that is cleared and used again, as swash's.

use super::{ClusterInfo, ShapeClass, Token};

pub const MAX_CLUSTER_SIZE: usize = 32;

/// Named by mod.rs.
pub struct SourceRange;

/// Named by mod.rs.
pub enum Status {}

#[derive(Copy, Clone)]
pub struct Pushed {
    pub ch: char,
    pub class: ShapeClass,
    pub noted: u16,
    pub record: u32,
}

pub struct CharCluster {
    chars: [Pushed; MAX_CLUSTER_SIZE],
    len: u8,
    normalize: bool,
    info: ClusterInfo,
}

impl CharCluster {
    pub fn new() -> Self {
        let none = Pushed {
            ch: '\0',
            class: ShapeClass::Base,
            noted: 0,
            record: 0,
        };
        Self {
            chars: [none; MAX_CLUSTER_SIZE],
            len: 0,
            normalize: false,
            info: ClusterInfo::NONE,
        }
    }

    pub fn clear(&mut self) {
        self.len = 0;
        self.normalize = false;
        self.info = ClusterInfo::NONE;
    }

    pub fn pushed(&self) -> &[Pushed] {
        &self.chars[..self.len as usize]
    }

    pub fn len(&self) -> u8 {
        self.len
    }

    /// Panics at a 33rd, as the whole crate does.
    pub fn push(&mut self, token: &Token, class: ShapeClass) {
        self.chars[self.len as usize] = Pushed {
            ch: token.ch,
            class,
            noted: 0,
            record: token.data,
        };
        self.len += 1;
    }

    /// The note follows the push before it.
    pub fn note_char(&mut self, _: &Token) {
        self.chars[self.len as usize - 1].noted += 1;
    }

    pub fn info_mut(&mut self) -> &mut ClusterInfo {
        &mut self.info
    }

    pub fn info(&self) -> ClusterInfo {
        self.info
    }

    pub fn force_normalize(&mut self) {
        self.normalize = true;
    }

    pub fn normalize(&self) -> bool {
        self.normalize
    }
}

//! A text cut where a run answered 1.

use std::ops::Range;

/// The pieces of a text, each as the range of its records.
#[derive(Clone, Debug)]
pub(crate) struct Starts {
    /// 1 where a piece begins.
    starts: Vec<u8>,
    at: usize,
}

impl Starts {
    pub(crate) fn new(starts: Vec<u8>) -> Starts {
        Starts { starts, at: 0 }
    }
}

impl Iterator for Starts {
    type Item = Range<usize>;

    fn next(&mut self) -> Option<Range<usize>> {
        let start = self.at;
        let later = self.starts.get(start + 1..)?;
        self.at = start + 1 + later.iter().position(|&begins| begins == 1).unwrap_or(later.len());
        Some(start..self.at)
    }
}

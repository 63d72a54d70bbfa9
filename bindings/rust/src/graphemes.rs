//! Clusters as UAX #29 has them, by the rules GB1 to GB999 of Unicode 15.0 and with no limit of 32 characters: of a whole text, or one record
//! after the other.

use std::ops::Range;

use crate::marked::{check_by, run_by};
use crate::starts::Starts;
use crate::{sys, Columns, Refusal};

/// Whether two columns, cluster break and the simple parser's emoji mark, are fit for a run over UAX #29's clusters.
pub fn grapheme_check(breaks: &[u8], semojis: &[u8]) -> Result<(), Refusal> {
    check_by(sys::ezh_check_graphemes, breaks, semojis)
}

/// A run over UAX #29's clusters: 1 in `out` for each record that a cluster starts at, else 0. Cells past the records keep their content,
/// and with a refusal all do. It goes forward with a small state; [`grapheme_run_back`] gives the same answers.
pub fn grapheme_run(breaks: &[u8], semojis: &[u8], out: &mut [u8]) -> Result<(), Refusal> {
    run_by(sys::ezh_run_graphemes, breaks, semojis, out)
}

/// The same answers as [`grapheme_run`], each decided from the rules by looking back from its record.
pub fn grapheme_run_back(breaks: &[u8], semojis: &[u8], out: &mut [u8]) -> Result<(), Refusal> {
    run_by(sys::ezh_run_graphemes_back, breaks, semojis, out)
}

impl Columns<'_> {
    /// The clusters of the text as UAX #29 has them, which is how a caret moves; only its cluster breaks and the simple parser's emoji
    /// marks are looked at.
    ///
    /// ```
    /// use ezherbut::codes::{category, cluster_break, myanmar_class, use_class, word_break};
    /// use ezherbut::{Marks, Record, Text};
    ///
    /// let mut text = Text::new();
    /// // a flag of two letters, then a family of two joined by U+200D
    /// for (letter, cluster_break) in [
    ///     ('\u{1F1EB}', cluster_break::RI),
    ///     ('\u{1F1EE}', cluster_break::RI),
    ///     ('\u{1F469}', cluster_break::XX),
    ///     ('\u{200D}', cluster_break::ZWJ),
    ///     ('\u{1F467}', cluster_break::XX),
    /// ] {
    ///     text.push(Record {
    ///         scalar: letter.into(),
    ///         cluster_break,
    ///         use_class: use_class::REST,
    ///         myanmar_class: myanmar_class::REST,
    ///         category: category::OTHER,
    ///         word: word_break::OTHER,
    ///         marks: Marks { emoji_simple: cluster_break == cluster_break::XX, ..Marks::NONE },
    ///     });
    /// }
    /// let clusters: Vec<_> = text.graphemes().unwrap().collect();
    /// assert_eq!(clusters, [0..2, 2..5]);
    /// ```
    pub fn graphemes(self) -> Result<Graphemes, Refusal> {
        let mut starts = vec![0; self.breaks.len()];
        grapheme_run(self.breaks, self.semojis, &mut starts)?;
        Ok(Graphemes::new(starts))
    }
}

/// The clusters of a text as UAX #29 has them, each as the range of its records.
#[derive(Clone, Debug)]
pub struct Graphemes(Starts);

impl Graphemes {
    /// From the answers of a run.
    pub(crate) fn new(starts: Vec<u8>) -> Graphemes {
        Graphemes(Starts::new(starts))
    }
}

impl Iterator for Graphemes {
    type Item = Range<usize>;

    fn next(&mut self) -> Option<Range<usize>> {
        self.0.next()
    }
}

/// What is kept of the records before a place, by the engine that goes forward.
///
/// ```
/// use ezherbut::codes::cluster_break::{EX, XX};
/// use ezherbut::GraphemeState;
///
/// let (state, starts) = GraphemeState::START.step(XX, 0).unwrap();
/// assert!(starts);
/// let (_, starts) = state.step(EX, 0).unwrap();
/// assert!(!starts);
/// ```
#[derive(Clone, Copy, Debug, PartialEq, Eq)]
pub struct GraphemeState {
    /// The cluster break of the record before, and 14, which is none, before the first record.
    pub previous: u8,
    /// An odd number of RI stand directly before.
    pub odd: bool,
    /// A record with the emoji mark stands before, and only EX behind it.
    pub extended: bool,
    /// A record with the emoji mark, then EX, then ZWJ stand directly before.
    pub joined: bool,
}

impl GraphemeState {
    /// The state before the first record.
    pub const START: GraphemeState = GraphemeState {
        previous: 14,
        odd: false,
        extended: false,
        joined: false,
    };

    /// One record with its cluster break and emoji mark. The state after it, and whether a cluster starts at it.
    pub fn step(self, cluster_break: u8, semoji: u8) -> Result<(GraphemeState, bool), Refusal> {
        let mut results = [0; 8];
        // Safe: the pointer and the count are a slice's, and the library stays inside it for every input.
        unsafe {
            sys::ezh_step_grapheme(
                self.previous.into(),
                self.odd.into(),
                self.extended.into(),
                self.joined.into(),
                cluster_break.into(),
                semoji.into(),
                results.as_mut_ptr(),
                results.len(),
            )
        };
        Refusal::in_results(&results)?;
        Ok((GraphemeState::in_results(&results), results[7] == 1))
    }

    /// The state that a step tells, behind the refusal.
    pub(crate) fn in_results(results: &[u64]) -> GraphemeState {
        GraphemeState {
            previous: results[3] as u8,
            odd: results[4] == 1,
            extended: results[5] == 1,
            joined: results[6] == 1,
        }
    }
}

//! Words: boundaries of a whole text, or one record after the other.

use std::ops::Range;

use crate::codes::word_break;
use crate::marked::{check_by, run_by};
use crate::starts::Starts;
use crate::{sys, Columns, Refusal};

/// Whether two columns, word class and pictograph mark, are fit for a word run.
pub fn word_check(words: &[u8], pictographs: &[u8]) -> Result<(), Refusal> {
    check_by(sys::ezh_check_words, words, pictographs)
}

/// A word run: 1 in `out` for each record that a word boundary stands before, else 0. Cells past the records keep their content, and with
/// a refusal all do.
pub fn word_run(words: &[u8], pictographs: &[u8], out: &mut [u8]) -> Result<(), Refusal> {
    run_by(sys::ezh_run_words, words, pictographs, out)
}

impl Columns<'_> {
    /// The words of the text; only its word classes and pictograph marks are looked at.
    ///
    /// ```
    /// use ezherbut::codes::{category, cluster_break, myanmar_class, use_class, word_break};
    /// use ezherbut::{Marks, Record, Text};
    ///
    /// let mut text = Text::new();
    /// for (letter, word) in [('a', word_break::ALETTER), ('.', word_break::MIDNUMLET), ('b', word_break::ALETTER), ('!', word_break::OTHER)] {
    ///     text.push(Record {
    ///         scalar: letter.into(),
    ///         cluster_break: cluster_break::XX,
    ///         use_class: use_class::REST,
    ///         myanmar_class: myanmar_class::REST,
    ///         category: category::OTHER,
    ///         word,
    ///         marks: Marks::NONE,
    ///     });
    /// }
    /// let words: Vec<_> = text.words().unwrap().collect();
    /// assert_eq!(words, [0..3, 3..4]);
    /// ```
    pub fn words(self) -> Result<Words, Refusal> {
        let mut starts = vec![0; self.words.len()];
        word_run(self.words, self.pictographs, &mut starts)?;
        Ok(Words(Starts::new(starts)))
    }
}

/// The words of a text, each as the range of its records.
#[derive(Clone, Debug)]
pub struct Words(Starts);

impl Iterator for Words {
    type Item = Range<usize>;

    fn next(&mut self) -> Option<Range<usize>> {
        self.0.next()
    }
}

/// What the word machine keeps between two records.
///
/// ```
/// use ezherbut::codes::word_break::{LF, RI};
/// use ezherbut::WordState;
///
/// let (state, begins) = WordState::START.step(LF, 0, &[RI]).unwrap();
/// assert!(begins);
/// assert_eq!(state.previous, LF);
/// ```
#[derive(Clone, Copy, Debug, PartialEq, Eq)]
pub struct WordState {
    pub first: bool,
    pub previous: u8,
    pub prevent: bool,
    pub count: u8,
}

impl WordState {
    /// The state before the first record.
    pub const START: WordState = WordState {
        first: true,
        previous: word_break::OTHER,
        prevent: false,
        count: 0,
    };

    /// One record with its word class and pictograph mark; of the word classes after it only the first is looked at. The state after it,
    /// and whether a word begins at it.
    pub fn step(self, word: u8, pictograph: u8, rest: &[u8]) -> Result<(WordState, bool), Refusal> {
        let mut results = [0; 8];
        // Safe: every pointer and count is a slice's, and the library stays inside them for every input.
        unsafe {
            sys::ezh_step_word(
                self.first.into(),
                self.previous.into(),
                self.prevent.into(),
                self.count.into(),
                word.into(),
                pictograph.into(),
                rest.as_ptr(),
                rest.len(),
                results.as_mut_ptr(),
                results.len(),
            )
        };
        Refusal::in_results(&results)?;
        let state = WordState {
            first: results[3] == 1,
            previous: results[4] as u8,
            prevent: results[5] == 1,
            count: results[6] as u8,
        };
        Ok((state, results[7] == 1))
    }
}

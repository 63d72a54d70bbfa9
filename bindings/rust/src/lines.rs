//! Lines: where a line may or must be broken, by a lent table.

use std::ops::Range;

use crate::codes::{boundary, strength};
use crate::{sys, Columns, Refusal, WordState};

/// How strongly words hold together where a line is broken.
#[derive(Clone, Copy, Debug, PartialEq, Eq)]
pub enum Strength {
    Normal,
    /// A line may be broken inside a word too.
    BreakAll,
    /// No break between two of the classes AI, AL, ID, NU, HY, H2, H3, JL, JV, JT and CJ: letters, digits, ideographs and Hangul.
    KeepAll,
}

impl Strength {
    fn number(self) -> u64 {
        match self {
            Strength::Normal => strength::NORMAL,
            Strength::BreakAll => strength::BREAKALL,
            Strength::KeepAll => strength::KEEPALL,
        }
    }
}

/// What stands before a record.
#[derive(Clone, Copy, Debug, PartialEq, Eq)]
pub enum Boundary {
    None,
    /// A word boundary, where no line may be broken.
    Word,
    /// A line may be broken.
    Line,
    /// A line must be broken.
    Mandatory,
}

impl Boundary {
    /// The boundary of a number in [`codes::boundary`](crate::codes::boundary), which is what [`line_run`] writes.
    pub fn of(code: u8) -> Option<Boundary> {
        match code {
            boundary::NONE => Some(Boundary::None),
            boundary::WORD => Some(Boundary::Word),
            boundary::LINE => Some(Boundary::Line),
            boundary::MANDATORY => Some(Boundary::Mandatory),
            _ => None,
        }
    }

    /// The answer in a cell of the results.
    fn told(cell: u64) -> Boundary {
        u8::try_from(cell).ok().and_then(Boundary::of).expect("the library answers 0 to 3")
    }
}

/// A run of lines over three columns, line class, word class and pictograph mark: in `out`, for each record, the number of what stands
/// before it ([`Boundary::of`]). Cells past the records keep their content, and with a refusal all do.
///
/// `table` has rows of 44 cells; [`PAIR_TABLE`](crate::codes::PAIR_TABLE) is swash's own.
pub fn line_run(lines: &[u8], words: &[u8], pictographs: &[u8], table: &[u8], strength: Strength, out: &mut [u8]) -> Result<(), Refusal> {
    let mut results = [0; 3];
    // Safe: every pointer and count is a slice's, the library stays inside them for every input, and a `&mut` overlaps nothing else.
    unsafe {
        sys::ezh_run_lines(
            strength.number(),
            table.as_ptr(),
            table.len(),
            lines.as_ptr(),
            lines.len(),
            words.as_ptr(),
            words.len(),
            pictographs.as_ptr(),
            pictographs.len(),
            out.as_mut_ptr(),
            out.len(),
            results.as_mut_ptr(),
            results.len(),
        )
    };
    Refusal::in_results(&results)
}

/// The pieces of a text between two places where a line may or must be broken, from its line classes, word classes and pictograph marks.
///
/// ```
/// use ezherbut::codes::{line_break as l, word_break as w, PAIR_TABLE};
/// use ezherbut::{lines, Piece, Strength};
///
/// // "14 cm", a newline, "x"
/// let classes = [l::NU, l::NU, l::SP, l::AL, l::AL, l::LF, l::AL];
/// let words = [w::NU, w::NU, w::WSEGSPACE, w::ALETTER, w::ALETTER, w::LF, w::ALETTER];
/// let pieces: Vec<Piece> = lines(&classes, &words, &[0; 7], &PAIR_TABLE, Strength::Normal)?.collect();
/// assert_eq!(
///     pieces,
///     [
///         Piece { records: 0..3, mandatory: false },
///         Piece { records: 3..6, mandatory: true },
///         Piece { records: 6..7, mandatory: false },
///     ]
/// );
/// # Ok::<(), ezherbut::Refusal>(())
/// ```
pub fn lines(lines: &[u8], words: &[u8], pictographs: &[u8], table: &[u8], strength: Strength) -> Result<Pieces, Refusal> {
    let mut answers = vec![0; lines.len()];
    line_run(lines, words, pictographs, table, strength, &mut answers)?;
    Ok(Pieces { answers, at: 0 })
}

impl Columns<'_> {
    /// The pieces of the text between two places where a line may or must be broken; the text's line classes are lent beside it, and of
    /// the text only its word classes and pictograph marks are looked at. See [`lines`].
    pub fn lines(self, classes: &[u8], table: &[u8], strength: Strength) -> Result<Pieces, Refusal> {
        lines(classes, self.words, self.pictographs, table, strength)
    }
}

/// A piece of a text: no line may be broken inside of it.
#[derive(Clone, Debug, PartialEq, Eq)]
pub struct Piece {
    pub records: Range<usize>,
    /// Whether a line must be broken after it; of the last piece, which nothing follows, no.
    pub mandatory: bool,
}

/// The pieces of a text, in its order.
#[derive(Clone, Debug)]
pub struct Pieces {
    /// What stands before each record.
    answers: Vec<u8>,
    at: usize,
}

impl Iterator for Pieces {
    type Item = Piece;

    fn next(&mut self) -> Option<Piece> {
        let start = self.at;
        let later = self.answers.get(start + 1..)?;
        let breaks = |&answer: &u8| answer == boundary::LINE || answer == boundary::MANDATORY;
        self.at = start + 1 + later.iter().position(breaks).unwrap_or(later.len());
        Some(Piece {
            records: start..self.at,
            mandatory: self.answers.get(self.at) == Some(&boundary::MANDATORY),
        })
    }
}

/// What the line machine keeps between two records: a row of the table, and the line class before.
///
/// ```
/// use ezherbut::codes::{line_break, PAIR_TABLE};
/// use ezherbut::{Boundary, LineState, Strength};
///
/// let (state, _) = LineState::START.step(&PAIR_TABLE, Strength::Normal, line_break::SP)?;
/// let (_, before) = state.step(&PAIR_TABLE, Strength::Normal, line_break::AL)?;
/// assert_eq!(before, Boundary::Line);
/// # Ok::<(), ezherbut::Refusal>(())
/// ```
#[derive(Clone, Copy, Debug, PartialEq, Eq)]
pub struct LineState {
    pub row: u8,
    pub previous: Option<u8>,
}

impl LineState {
    /// The state before the first record.
    pub const START: LineState = LineState { row: 44, previous: None };

    /// One record with its line class. The state after it, and what stands before it: none, line or mandatory.
    ///
    /// Every call judges the whole table; a text is better run.
    pub fn step(self, table: &[u8], strength: Strength, line: u8) -> Result<(LineState, Boundary), Refusal> {
        let mut results = [0; 5];
        let before = self.previous.as_slice();
        // Safe: as above.
        unsafe {
            sys::ezh_step_line(
                strength.number(),
                table.as_ptr(),
                table.len(),
                self.row.into(),
                before.as_ptr(),
                before.len(),
                line.into(),
                results.as_mut_ptr(),
                results.len(),
            )
        };
        Refusal::in_results(&results)?;
        let state = LineState {
            row: results[3] as u8,
            previous: Some(line),
        };
        Ok((state, Boundary::told(results[4])))
    }
}

/// What both machines keep between two records.
#[derive(Clone, Copy, Debug, PartialEq, Eq)]
pub struct BoundaryState {
    pub line: LineState,
    pub word: WordState,
}

impl BoundaryState {
    /// The states before the first record.
    pub const START: BoundaryState = BoundaryState {
        line: LineState::START,
        word: WordState::START,
    };

    /// One record with its line class, word class and pictograph mark; of the word classes after it only the first is looked at. The
    /// states after it, and what stands before it.
    ///
    /// Every call judges the whole table; a text is better run.
    pub fn next(
        self,
        table: &[u8],
        strength: Strength,
        line: u8,
        word: u8,
        pictograph: u8,
        rest: &[u8],
    ) -> Result<(BoundaryState, Boundary), Refusal> {
        let mut results = [0; 9];
        let before = self.line.previous.as_slice();
        // Safe: as above.
        unsafe {
            sys::ezh_step_next(
                strength.number(),
                table.as_ptr(),
                table.len(),
                self.line.row.into(),
                before.as_ptr(),
                before.len(),
                self.word.first.into(),
                self.word.previous.into(),
                self.word.prevent.into(),
                self.word.count.into(),
                line.into(),
                word.into(),
                pictograph.into(),
                rest.as_ptr(),
                rest.len(),
                results.as_mut_ptr(),
                results.len(),
            )
        };
        Refusal::in_results(&results)?;
        let state = BoundaryState {
            line: LineState {
                row: results[3] as u8,
                previous: Some(line),
            },
            word: WordState {
                first: results[4] == 1,
                previous: results[5] as u8,
                prevent: results[6] == 1,
                count: results[7] as u8,
            },
        };
        Ok((state, Boundary::told(results[8])))
    }
}

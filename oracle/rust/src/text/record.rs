//! What words and lines take: a record, and the states of the two machines.

use super::{LineBreak, Properties, WordBreak};

#[derive(Copy, Clone)]
pub struct Record {
    pub line: LineBreak,
    pub word: WordBreak,
    pub pictograph: bool,
}

impl Record {
    /// Records as the text that the Rust is given.
    pub fn text(records: &[Self]) -> Vec<char> {
        records.iter().map(|record| record.character()).collect()
    }

    /// A record as a character that `of_character` takes apart again.
    fn character(self) -> char {
        let classes = self.line as u32 * WordBreak::ALL.len() as u32 + self.word as u32;
        char::from_u32(classes * 2 + self.pictograph as u32).unwrap()
    }

    pub fn of_character(ch: char) -> Self {
        let (classes, pictograph) = (ch as usize / 2, ch as usize % 2 == 1);
        let words = WordBreak::ALL.len();
        Self { line: LineBreak::ALL[classes / words], word: WordBreak::ALL[classes % words], pictograph }
    }

    pub fn properties(self) -> Properties {
        Properties { line: self.line, word: self.word, pictograph: self.pictograph, ..Properties::default() }
    }

    /// The record after, of which nothing but its word class is asked.
    pub fn following(word: WordBreak) -> Self {
        Self { line: LineBreak::default(), word, pictograph: false }
    }
}

#[derive(Copy, Clone, PartialEq, Eq)]
pub struct State {
    pub first: bool,
    pub prev: WordBreak,
    pub prevent_next: bool,
    pub count: u8,
}

#[derive(Copy, Clone, PartialEq, Eq)]
pub struct LineState {
    pub row: u8,
    pub prev: Option<LineBreak>,
}

/// Both copies of analyze.rs have their own.
#[derive(Copy, Clone)]
pub enum Strength {
    Normal,
    BreakAll,
    KeepAll,
}

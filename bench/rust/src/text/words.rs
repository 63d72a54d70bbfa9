//! analyze.rs itself, with two runs beside it: the file is included, so that its private state is at hand and not a byte of it changes.

include!("analyze.rs");

use super::Lent;

#[derive(Copy, Clone)]
pub struct Record {
    pub class: WordBreak,
    pub pictograph: bool,
}

/// A word record as a character that `properties` takes apart again.
fn character(record: Record) -> char {
    char::from(record.class as u8 * 2 + record.pictograph as u8)
}

/// The same with a line class, by number.
pub fn with_line(record: Record, line: u8) -> char {
    char::from_u32((line as u32) << 8 | character(record) as u32).expect("a small number")
}

pub fn properties(ch: char) -> Properties {
    let code = ch as u32;
    Properties {
        word: WordBreak::from_code(code as u8 / 2).unwrap(),
        pictograph: code % 2 == 1,
        line: (code >> 8) as u8,
        ..Properties::default()
    }
}

/// `check_word` on every record.
pub fn run(records: &[Record]) -> Vec<bool> {
    Lent::Words.lend();
    let mut state = BoundaryState::new();
    let mut rest = records.iter().map(|&record| character(record));
    let mut answers = Vec::new();
    while let Some(ch) = rest.next() {
        answers.push(state.check_word(ch.properties(), &mut rest));
    }
    answers
}

/// `next`, which asks `check_line` and `check_word`, until the text ends.
pub fn run_both(text: &[char]) -> Vec<Boundary> {
    Lent::Words.lend();
    let mut state = BoundaryState::new();
    let mut rest = text.iter();
    let mut answers = Vec::new();
    while let Some((_, answer)) = state.next(&mut rest) {
        answers.push(answer);
    }
    answers
}

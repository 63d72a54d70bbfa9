//! The lines of cases about line breaks (SCOPE 12.1), and their answers: by analyze.rs itself where the
//! table is the crate's, else by its copy over a lent table.

use crate::case::{following, items, mark, number, word_state, LONGEST};
use crate::text::{
    over_a_lent_table, words, LentTable, LineBreak, LineState, Record, State, Strength, WordBreak, WIDTH,
};

const FEWEST_ROWS: usize = 45;
const CRATE_ROWS: usize = 53;

enum Table {
    Crate,
    Lent(Vec<u8>),
}

pub struct LineCase {
    strength: Strength,
    table: Table,
    asked: Asked,
}

enum Asked {
    Step { state: LineState, class: LineBreak },
    Next { line: LineState, word: State, record: Record, next: Option<WordBreak> },
    Run(Vec<Record>),
}

pub fn read(fields: &[&str]) -> Option<LineCase> {
    let [kind, strength_, table_, rest @ ..] = fields else {
        return None;
    };
    let (strength, table) = (strength(strength_)?, table(table_)?);
    let asked = match (*kind, rest) {
        ("l", [state, class]) => {
            Asked::Step { state: line_state(state, table.rows())?, class: LineBreak::from_code(number(class)?)? }
        }
        ("n", [line, word, record_, next]) => Asked::Next {
            line: line_state(line, table.rows())?,
            word: word_state(word)?,
            record: record(record_)?,
            next: following(next)?,
        },
        ("L", [cells, records]) => Asked::Run(run(cells, records)?),
        _ => return None,
    };
    Some(LineCase { strength, table, asked })
}

fn strength(word: &str) -> Option<Strength> {
    match word {
        "Normal" => Some(Strength::Normal),
        "BreakAll" => Some(Strength::BreakAll),
        "KeepAll" => Some(Strength::KeepAll),
        _ => None,
    }
}

/// Whole rows, enough of them, and every cell names one without its two bits.
fn table(field: &str) -> Option<Table> {
    if field == "crate" {
        return Some(Table::Crate);
    }
    let mut cells = Vec::new();
    for item in items(field) {
        let (count, cell) = item.split_once('*').unwrap_or(("1", item));
        cells.resize(cells.len() + usize::from(number::<u16>(count)?), number::<u8>(cell)?);
    }
    let rows = cells.len() / WIDTH;
    let is_sound = cells.len() % WIDTH == 0
        && rows >= FEWEST_ROWS
        && cells.iter().all(|cell| usize::from(cell & 0b11_1111) < rows);
    is_sound.then_some(Table::Lent(cells))
}

impl Table {
    fn rows(&self) -> usize {
        match self {
            Self::Crate => CRATE_ROWS,
            Self::Lent(cells) => cells.len() / WIDTH,
        }
    }
}

fn line_state(item: &str, rows: usize) -> Option<LineState> {
    let (row, prev) = item.split_once(',')?;
    let row = number::<u8>(row)?;
    let prev = match prev {
        "-" => None,
        class => Some(LineBreak::from_code(number(class)?)?),
    };
    (usize::from(row) < rows).then_some(LineState { row, prev })
}

fn record(item: &str) -> Option<Record> {
    let fields: Vec<&str> = item.split(',').collect();
    let [line, word, pictograph] = fields[..] else {
        return None;
    };
    Some(Record {
        line: LineBreak::from_code(number(line)?)?,
        word: WordBreak::from_code(number(word)?)?,
        pictograph: mark(pictograph)?,
    })
}

fn run(cells: &str, records: &str) -> Option<Vec<Record>> {
    let records: Vec<Record> = items(records).map(record).collect::<Option<_>>()?;
    let cells: usize = number::<u16>(cells)?.into();
    (records.len() <= LONGEST.min(cells)).then_some(records)
}

impl LineCase {
    pub fn answer(&self) -> String {
        if let Table::Lent(cells) = &self.table {
            LentTable::lend(cells);
        }
        match &self.asked {
            Asked::Step { state, class } => self.step(*state, *class),
            Asked::Next { line, word, record, next } => self.next(*line, *word, *record, *next),
            Asked::Run(records) => self.run(records),
        }
    }

    fn step(&self, state: LineState, class: LineBreak) -> String {
        let (answer, after) = match self.table {
            Table::Crate => words::line_step(self.strength, state, class),
            Table::Lent(_) => over_a_lent_table::line_step(self.strength, state, class),
        };
        format!("{};{}", answer as u8, line_item(after))
    }

    /// With each of the four settings of the two flags that are left out (SCOPE 7.1).
    fn next(&self, line: LineState, word: State, record: Record, next: Option<WordBreak>) -> String {
        let settings = [(false, false), (false, true), (true, false), (true, true)];
        let [one, rest @ ..] = settings.map(|flags| match self.table {
            Table::Crate => words::next_step(self.strength, line, word, flags, record, next),
            Table::Lent(_) => over_a_lent_table::next_step(self.strength, line, word, flags, record, next),
        });
        if rest.iter().any(|other| *other != one) {
            return "! the flags change the answer".to_string();
        }
        let (answer, line, word) = one;
        format!("{};{};{}", answer as u8, line_item(line), word_item(word))
    }

    fn run(&self, records: &[Record]) -> String {
        let answers = match self.table {
            Table::Crate => words::line_run(self.strength, records),
            Table::Lent(_) => over_a_lent_table::line_run(self.strength, records),
        };
        answers.iter().map(|&answer| (answer as u8).to_string()).collect::<Vec<_>>().join(" ")
    }
}

fn line_item(state: LineState) -> String {
    let prev = state.prev.map_or("-".to_string(), |class| (class as u8).to_string());
    format!("{},{prev}", state.row)
}

pub fn word_item(state: State) -> String {
    format!("{},{},{},{}", state.first as u8, state.prev as u8, state.prevent_next as u8, state.count)
}

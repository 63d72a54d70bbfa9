//! Refusals as an error type.

use std::error::Error;
use std::fmt;

use crate::codes::side;

/// What a refusal's index counts.
#[derive(Clone, Copy, Debug, PartialEq, Eq)]
pub enum Side {
    Neither,
    Record,
    Part,
}

/// Why a call was refused: the number, 1 to 9 of the table in docs/SCOPE.md, section 5.1, 10 of section 12.1 or 15 of section 12.6, and where the first
/// offender stands.
#[derive(Clone, Copy, Debug, PartialEq, Eq)]
pub struct Refusal {
    pub number: u8,
    pub side: Side,
    pub index: usize,
}

impl Refusal {
    /// The first three cells of a results column; the first is 0 where nothing is refused.
    pub(crate) fn in_results(results: &[u64]) -> Result<(), Refusal> {
        if results[0] == 0 {
            return Ok(());
        }
        let side = match results[1] {
            side::NEITHER => Side::Neither,
            side::RECORD => Side::Record,
            _ => Side::Part,
        };
        Err(Refusal {
            number: results[0] as u8,
            side,
            index: results[2] as usize,
        })
    }

    fn reason(self) -> &'static str {
        match self.number {
            1 => "a column is longer than 4,096",
            2 => "columns of one set differ in length",
            3 => "a scalar is above 10FFFF or in D800 to DFFF",
            4 => "a code or mark is outside its list",
            5 => "a count of parts is over 3, or the parts go past the last one",
            6 => "U+034F has a USE class that the complex parser looks for behind the marks CMAbv of a base",
            7 => "a Khmer sign that is split has other parts than U+17C1",
            8 => "the place is neither a token nor the end, or the state of a step is none",
            10 => "a line table is not whole rows of 44, has fewer than 45, or names a row that it has not",
            15 => "the edition is neither that of Unicode 15.0 nor that of 15.1",
            _ => "an output column is too short",
        }
    }
}

impl fmt::Display for Refusal {
    fn fmt(&self, f: &mut fmt::Formatter<'_>) -> fmt::Result {
        write!(f, "refusal {}: {}", self.number, self.reason())?;
        match self.side {
            Side::Neither => Ok(()),
            Side::Record => write!(f, " (record {})", self.index),
            Side::Part => write!(f, " (part {})", self.index),
        }
    }
}

impl Error for Refusal {}

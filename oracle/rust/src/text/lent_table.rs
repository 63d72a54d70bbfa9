//! A table that was lent, in place of the constant `PAIR_TABLE` and asked as it is: by row, then by
//! column. What an index answers has to outlive the asking, so it is found in a constant.

use std::cell::RefCell;
use std::ops::Index;

pub const WIDTH: usize = 44;

thread_local! {
    static CELLS: RefCell<Vec<u8>> = const { RefCell::new(Vec::new()) };
}

pub struct LentTable;

impl LentTable {
    pub fn lend(cells: &[u8]) {
        CELLS.set(cells.to_vec());
    }
}

/// A row by its number.
pub struct Row(u8);

static ROWS: [Row; 256] = {
    let mut rows = [const { Row(0) }; 256];
    let mut at = 0;
    while at < rows.len() {
        rows[at].0 = at as u8;
        at += 1;
    }
    rows
};

impl Index<usize> for LentTable {
    type Output = Row;

    fn index(&self, row: usize) -> &Row {
        &ROWS[row]
    }
}

impl Index<usize> for Row {
    type Output = u8;

    /// The cell, which as a number is also some row's.
    fn index(&self, column: usize) -> &u8 {
        assert!(column < WIDTH, "a column past the row");
        let cell = CELLS.with_borrow(|cells| cells[usize::from(self.0) * WIDTH + column]);
        &ROWS[usize::from(cell)].0
    }
}

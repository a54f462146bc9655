//! The record of a board.

use crate::{BOARD_CELLS, BOARD_ROWS, ROW_CELLS};

/// A row of a board, with any numbers in it. Its first `len` places hold its cells' numbers and their weights; the others
/// are spare.
#[derive(Clone, Copy, Debug, Default)]
#[repr(C)]
pub struct Row {
    /// The number of cells in the row.
    pub len: usize,
    /// The lowest good sum.
    pub low: usize,
    /// The highest good sum.
    pub high: usize,
    /// The cells' numbers on the board.
    pub names: [usize; ROW_CELLS],
    /// Their weights.
    pub weights: [u8; ROW_CELLS],
}

/// A board, with any numbers in it. Its first `cells` places hold domains and its first `rows` places rows; the others are
/// spare. Equality is document 01's "same": spare places don't matter.
#[derive(Clone, Copy, Debug)]
#[repr(C)]
pub struct Board {
    /// The number of cells.
    pub cells: usize,
    /// The cells' domains.
    pub domains: [u32; BOARD_CELLS],
    /// The number of rows.
    pub rows: usize,
    /// The rows.
    pub lines: [Row; BOARD_ROWS],
}

/// The first places that are not spare: all of them where the number is above their number.
fn front<T>(places: &[T], number: usize) -> &[T] {
    places.get(..number).unwrap_or(places)
}

impl Row {
    /// The cells' numbers, without the spare places.
    pub fn cells(&self) -> &[usize] {
        front(&self.names, self.len)
    }

    /// Their weights, without the spare places.
    pub fn cell_weights(&self) -> &[u8] {
        front(&self.weights, self.len)
    }
}

impl Board {
    /// The domains, without the spare places.
    pub fn cell_domains(&self) -> &[u32] {
        front(&self.domains, self.cells)
    }

    /// The rows, without the spare places.
    pub fn rows_in_order(&self) -> &[Row] {
        front(&self.lines, self.rows)
    }
}

/// No cells and no rows, all places zero. The writer refuses it, with 8.
impl Default for Board {
    fn default() -> Board {
        Board { cells: 0, domains: [0; BOARD_CELLS], rows: 0, lines: [Row::default(); BOARD_ROWS] }
    }
}

impl PartialEq for Row {
    fn eq(&self, other: &Row) -> bool {
        (self.len, self.low, self.high) == (other.len, other.low, other.high)
            && self.cells() == other.cells()
            && self.cell_weights() == other.cell_weights()
    }
}

impl Eq for Row {}

impl PartialEq for Board {
    fn eq(&self, other: &Board) -> bool {
        (self.cells, self.rows) == (other.cells, other.rows)
            && self.cell_domains() == other.cell_domains()
            && self.rows_in_order() == other.rows_in_order()
    }
}

impl Eq for Board {}

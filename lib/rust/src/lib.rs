//! Tanglepunt counts the good fillings of weighted rows, strikes values that no good filling uses, settles boards, advises
//! a move, finishes boards by search, and reads and writes board files. These are safe functions over the proved static
//! library, for x86-64.
//!
//! Every input gets an answer, and nothing here panics. A [`Refusal`] leaves all that is lent untouched. Room of the wrong
//! size and empty slices are refused with the number of document 01 or 02. [`Tables`] owns two tables, for callers who don't
//! keep room.
//!
//! The same room can't be lent twice, nor room that overlaps an input: the borrow rules reject such a program.
//! ```compile_fail,E0499
//! let mut table = vec![0; tanglepunt::TABLE];
//! tanglepunt::total(&[1], &[1], 0, 1, &mut table, &mut table);
//! ```
#![deny(missing_docs)]
#![deny(unsafe_code)]
#![deny(
    clippy::arithmetic_side_effects,
    clippy::expect_used,
    clippy::indexing_slicing,
    clippy::panic,
    clippy::unwrap_used
)]

#[cfg(not(all(target_arch = "x86_64", target_pointer_width = "64")))]
compile_error!("the static library is for x86-64");

/// The page's code is a test.
#[cfg(doctest)]
#[doc = include_str!("../../../docs/LIBRARY.md")]
mod page {}

mod board;
#[allow(missing_docs, unsafe_code)]
mod raw;
mod refusal;

pub use board::{Board, Row};
pub use refusal::Refusal;
use std::cmp::Ordering;

/// The most cells in a row.
pub const ROW_CELLS: usize = 10;
/// A value is below this; bit v of a domain is set when v is listed.
pub const VALUES: usize = 32;
/// Low and high are below this; so many entries are a layer of a table.
pub const SUMS: usize = 512;
/// The fewest entries of a table.
pub const TABLE: usize = 5632;
/// The most cells on a board.
pub const BOARD_CELLS: usize = 64;
/// The most rows on a board.
pub const BOARD_ROWS: usize = 32;
/// The fewest entries of domain room.
pub const ROOM: usize = 64;
/// The fewest entries of a search's stack room.
pub const STACK: usize = 4096;
/// The most bytes of a board file: room for every file.
pub const FILE: usize = 1062;

/// Two tables of the size that the calls need, all zero at first.
#[derive(Clone, Debug, PartialEq, Eq)]
pub struct Tables {
    /// The forward numbers.
    pub forward: Box<[u64]>,
    /// The backward numbers.
    pub backward: Box<[u64]>,
}

impl Tables {
    /// Two tables of [`TABLE`] zeros.
    pub fn new() -> Tables {
        Tables { forward: vec![0; TABLE].into_boxed_slice(), backward: vec![0; TABLE].into_boxed_slice() }
    }
}

impl Default for Tables {
    fn default() -> Tables {
        Tables::new()
    }
}

/// How many cells and rows a board has.
#[derive(Clone, Copy, Debug, PartialEq, Eq)]
pub struct Counts {
    /// The number of cells.
    pub cells: usize,
    /// The number of rows.
    pub rows: usize,
}

/// What settling did, and the advice on the settled board.
#[derive(Clone, Copy, Debug, PartialEq)]
pub struct Advised {
    /// The passes, the last one included.
    pub passes: usize,
    /// The number of listed values gone.
    pub struck: usize,
    /// The advice.
    pub advice: Advice,
}

/// The first of these that applies, over the settled domains.
#[derive(Clone, Copy, Debug, PartialEq)]
pub enum Advice {
    /// Some domain on the board is empty.
    Dead,
    /// No cell that stands in a row has two or more values.
    Settled,
    /// Of all triples of row, cell in it with two or more values left, and listed value, the one with the highest density;
    /// ties go to the lowest cell, then the lowest value, then the lowest row.
    Advise {
        /// The cell.
        cell: usize,
        /// The value.
        value: usize,
        /// The row, in which the density is that high.
        row: usize,
        /// The number of good fillings of the row with that value in that cell.
        count: u64,
        /// The number of good fillings of the row.
        total: u64,
        /// Count divided by total, for display.
        share: f64,
    },
}

/// How a search ended.
#[derive(Clone, Copy, Debug, PartialEq, Eq)]
pub enum Ending {
    /// The board has a filling, which stands in the domain room.
    Solved,
    /// The board has no filling.
    None,
    /// The search needs more choices than were given.
    Spent,
}

/// The answer, unless there is a number for no.
fn answer<T>(refused: u8, says: T) -> Result<T, Refusal> {
    match refused {
        0 => Ok(says),
        number => Err(Refusal::of(number)),
    }
}

/// Ranks c1 / t1 against c2 / t2 as exact fractions, each any count and any total above 0.
///
/// Refused: 5.
pub fn rank(c1: u64, t1: u64, c2: u64, t2: u64) -> Result<Ordering, Refusal> {
    let ranked = raw::rank(c1, t1, c2, t2);
    match answer(ranked.refused, ranked.order)? {
        0 => Ok(Ordering::Less),
        1 => Ok(Ordering::Equal),
        2 => Ok(Ordering::Greater),
        _ => Err(Refusal::Unknown),
    }
}

/// The total: the number of good fillings of a row. A filling takes one listed value for each cell; it is good when the sum
/// of weight times value is at least low and at most high.
///
/// After success entry 512 i + b of `forward` holds the number of ways to choose values for the first i cells with sum b,
/// and of `backward` the number of ways to choose the remaining cells so that b plus their sum lies from low to high, for i
/// from 0 to the row's length and b from 0 to 511; later entries are unchanged.
///
/// Refused: 1, 2, 3, in this order.
pub fn total(
    weights: &[u8],
    domains: &[u32],
    low: usize,
    high: usize,
    forward: &mut [u64],
    backward: &mut [u64],
) -> Result<u64, Refusal> {
    let said = raw::total(weights, domains, low, high, forward, backward);
    answer(said.refused, said.number)
}

/// The count of a place, from 0, and a value: the number of good fillings with that value in that cell; an unlisted value
/// counts 0. The tables are as after [`total`].
///
/// Refused: 1, 2, 3, 4, in this order.
#[allow(clippy::too_many_arguments)] // document 01's
pub fn count(
    weights: &[u8],
    domains: &[u32],
    low: usize,
    high: usize,
    place: usize,
    value: usize,
    forward: &mut [u64],
    backward: &mut [u64],
) -> Result<u64, Refusal> {
    let said = raw::count(weights, domains, low, high, place, value, forward, backward);
    answer(said.refused, said.number)
}

/// Strikes from the row every value whose count is 0: writes the reduced domains over the lent ones and answers how many
/// values it struck. The tables are as after [`total`], for the domains at entry.
///
/// Refused: 1, 2, 3, in this order.
pub fn strike(
    weights: &[u8],
    domains: &mut [u32],
    low: usize,
    high: usize,
    forward: &mut [u64],
    backward: &mut [u64],
) -> Result<u64, Refusal> {
    let said = raw::strike(weights, domains, low, high, forward, backward);
    answer(said.refused, said.number)
}

/// Where a reader of the file begins: the place of the trailer, its last six bytes; 0 where it is shorter.
pub fn begin(file: &[u8]) -> usize {
    raw::begin(file)
}

/// The board that a file holds, spare places zero.
///
/// Refused: 6, 7, 8, 9; then for each row its five-byte head (10), 1, 2, its pairs fit (10), then for each pair 11, 12; at
/// the end left-over bytes (10).
pub fn read(file: &[u8]) -> Result<Board, Refusal> {
    let said = raw::read(file);
    answer(said.refused, said.board)
}

/// Reads the file whose trailer starts at a place; past the last place for one, the whole file.
///
/// Refused: as [`read`].
pub fn read_at(file: &[u8], place: usize) -> Result<Board, Refusal> {
    let said = raw::read_at(file, place);
    answer(said.refused, said.board)
}

/// The numbers of cells and rows of the board that a file holds.
///
/// Refused: as [`read`].
pub fn board_counts(file: &[u8]) -> Result<Counts, Refusal> {
    let said = raw::board_counts(file);
    answer(said.refused, Counts { cells: said.cells, rows: said.rows })
}

/// Writes the file of a board, with any numbers in it, at the front of the room and answers the file's length; bytes past
/// it are unchanged.
///
/// Refused: 8, then each row 1, 2 and for each pair 11, 12, then 14.
pub fn write(board: &Board, room: &mut [u8]) -> Result<usize, Refusal> {
    let said = raw::write(board, room);
    answer(said.refused, said.number as usize) // at most 1,062
}

/// Settles the board of a file and advises a move on it. On success the first entries of the room hold the settled domains,
/// one per cell, and the first 5,632 entries of each table are zero; the rest is unchanged.
///
/// Refused: 3, 13, then as [`read`].
pub fn advise(file: &[u8], room: &mut [u32], forward: &mut [u64], backward: &mut [u64]) -> Result<Advised, Refusal> {
    let said = raw::advise(file, room, forward, backward);
    let advice = match answer(said.refused, said.kind)? {
        0 => Advice::Dead,
        1 => Advice::Settled,
        2 => Advice::Advise {
            cell: said.cell,
            value: said.value,
            row: said.row,
            count: said.count,
            total: said.total,
            share: said.share,
        },
        _ => return Err(Refusal::Unknown),
    };
    Ok(Advised { passes: said.passes, struck: said.struck, advice })
}

/// Finishes the board of a file: settles, follows the advice, settles again; when that branch holds no filling, removes the
/// advised value at that level and settles. Following advice once is one choice, and `choices` says how many are allowed;
/// it ends as what was given less the choices followed, which is 0 after Spent. A higher number never alters a Solved or a
/// None.
///
/// After success the first entries of the room hold, one per cell, after Solved the filling as single-value domains, a cell
/// in no row with its lowest value, and else the settled domains before any choice. The first 4,096 entries of the stack
/// and the first 5,632 of each table are zero; the rest is unchanged.
///
/// Refused: 3, 13, 15, then as [`read`]; the number of choices too is untouched.
pub fn search(
    file: &[u8],
    choices: &mut u64,
    room: &mut [u32],
    stack: &mut [u32],
    forward: &mut [u64],
    backward: &mut [u64],
) -> Result<Ending, Refusal> {
    let said = raw::search(file, choices, room, stack, forward, backward);
    match answer(said.refused, said.ending)? {
        0 => Ok(Ending::Solved),
        1 => Ok(Ending::None),
        2 => Ok(Ending::Spent),
        _ => Err(Refusal::Unknown),
    }
}

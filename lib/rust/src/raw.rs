//! The exports as they are, each behind a function of slices: the only unsafe code here.
//!
//! What the exports can't test and a caller owes holds of every Rust slice: its pointer is not null and is aligned, also
//! where it is empty, its length is true, and a slice that is lent to be written overlaps no other. A lent number is the
//! same with one entry.

use crate::Board;

/// A number, or the number for no.
#[repr(C)]
pub struct Number {
    pub refused: u8,
    pub number: u64,
}

/// 0 below, 1 equal, 2 above.
#[repr(C)]
pub struct Order {
    pub refused: u8,
    pub order: u8,
}

/// The numbers of cells and rows.
#[repr(C)]
pub struct Counts {
    pub refused: u8,
    pub cells: usize,
    pub rows: usize,
}

/// A board, all zero where the file is refused.
#[repr(C)]
pub struct Reading {
    pub refused: u8,
    pub board: Board,
}

/// Kind is 0 for Dead, 1 for Settled, 2 for Advise.
#[repr(C)]
pub struct Advice {
    pub refused: u8,
    pub kind: u8,
    pub passes: usize,
    pub struck: usize,
    pub cell: usize,
    pub value: usize,
    pub row: usize,
    pub count: u64,
    pub total: u64,
    pub share: f64,
}

/// Ending is 0 for Solved, 1 for None, 2 for Spent.
#[repr(C)]
pub struct Ending {
    pub refused: u8,
    pub ending: u8,
}

#[rustfmt::skip]
unsafe extern "C" {
    safe fn tanglepunt_rank(c1: u64, t1: u64, c2: u64, t2: u64) -> Order;
    fn tanglepunt_total(weights: *const u8, n_weights: usize, domains: *const u32, n_domains: usize, low: usize, high: usize,
        forward: *mut u64, n_forward: usize, backward: *mut u64, n_backward: usize) -> Number;
    fn tanglepunt_count(weights: *const u8, n_weights: usize, domains: *const u32, n_domains: usize, low: usize, high: usize,
        place: usize, value: usize, forward: *mut u64, n_forward: usize, backward: *mut u64, n_backward: usize) -> Number;
    fn tanglepunt_strike(weights: *const u8, n_weights: usize, domains: *mut u32, n_domains: usize, low: usize, high: usize,
        forward: *mut u64, n_forward: usize, backward: *mut u64, n_backward: usize) -> Number;
    fn tanglepunt_begin(file: *const u8, n_file: usize) -> usize;
    fn tanglepunt_read(file: *const u8, n_file: usize) -> Reading;
    fn tanglepunt_read_at(file: *const u8, n_file: usize, place: usize) -> Reading;
    fn tanglepunt_board_counts(file: *const u8, n_file: usize) -> Counts;
    fn tanglepunt_write(board: Board, room: *mut u8, n_room: usize) -> Number;
    fn tanglepunt_advise(file: *const u8, n_file: usize, room: *mut u32, n_room: usize,
        forward: *mut u64, n_forward: usize, backward: *mut u64, n_backward: usize) -> Advice;
    fn tanglepunt_search(file: *const u8, n_file: usize, choices: *mut u64, room: *mut u32, n_room: usize,
        stack: *mut u32, n_stack: usize, forward: *mut u64, n_forward: usize, backward: *mut u64, n_backward: usize) -> Ending;
}

pub fn rank(c1: u64, t1: u64, c2: u64, t2: u64) -> Order {
    tanglepunt_rank(c1, t1, c2, t2)
}

// SAFETY, of every block below: each pointer and length come from one slice, a lent number's pointer from its borrow, and
// all that is lent is borrowed alone.

pub fn total(
    weights: &[u8],
    domains: &[u32],
    low: usize,
    high: usize,
    forward: &mut [u64],
    backward: &mut [u64],
) -> Number {
    unsafe {
        tanglepunt_total(
            weights.as_ptr(),
            weights.len(),
            domains.as_ptr(),
            domains.len(),
            low,
            high,
            forward.as_mut_ptr(),
            forward.len(),
            backward.as_mut_ptr(),
            backward.len(),
        )
    }
}

#[allow(clippy::too_many_arguments)]
pub fn count(
    weights: &[u8],
    domains: &[u32],
    low: usize,
    high: usize,
    place: usize,
    value: usize,
    forward: &mut [u64],
    backward: &mut [u64],
) -> Number {
    unsafe {
        tanglepunt_count(
            weights.as_ptr(),
            weights.len(),
            domains.as_ptr(),
            domains.len(),
            low,
            high,
            place,
            value,
            forward.as_mut_ptr(),
            forward.len(),
            backward.as_mut_ptr(),
            backward.len(),
        )
    }
}

pub fn strike(
    weights: &[u8],
    domains: &mut [u32],
    low: usize,
    high: usize,
    forward: &mut [u64],
    backward: &mut [u64],
) -> Number {
    unsafe {
        tanglepunt_strike(
            weights.as_ptr(),
            weights.len(),
            domains.as_mut_ptr(),
            domains.len(),
            low,
            high,
            forward.as_mut_ptr(),
            forward.len(),
            backward.as_mut_ptr(),
            backward.len(),
        )
    }
}

pub fn begin(file: &[u8]) -> usize {
    unsafe { tanglepunt_begin(file.as_ptr(), file.len()) }
}

pub fn read(file: &[u8]) -> Reading {
    unsafe { tanglepunt_read(file.as_ptr(), file.len()) }
}

pub fn read_at(file: &[u8], place: usize) -> Reading {
    unsafe { tanglepunt_read_at(file.as_ptr(), file.len(), place) }
}

pub fn board_counts(file: &[u8]) -> Counts {
    unsafe { tanglepunt_board_counts(file.as_ptr(), file.len()) }
}

pub fn write(board: &Board, room: &mut [u8]) -> Number {
    unsafe { tanglepunt_write(*board, room.as_mut_ptr(), room.len()) }
}

pub fn advise(file: &[u8], room: &mut [u32], forward: &mut [u64], backward: &mut [u64]) -> Advice {
    unsafe {
        tanglepunt_advise(
            file.as_ptr(),
            file.len(),
            room.as_mut_ptr(),
            room.len(),
            forward.as_mut_ptr(),
            forward.len(),
            backward.as_mut_ptr(),
            backward.len(),
        )
    }
}

pub fn search(
    file: &[u8],
    choices: &mut u64,
    room: &mut [u32],
    stack: &mut [u32],
    forward: &mut [u64],
    backward: &mut [u64],
) -> Ending {
    unsafe {
        tanglepunt_search(
            file.as_ptr(),
            file.len(),
            choices,
            room.as_mut_ptr(),
            room.len(),
            stack.as_mut_ptr(),
            stack.len(),
            forward.as_mut_ptr(),
            forward.len(),
            backward.as_mut_ptr(),
            backward.len(),
        )
    }
}

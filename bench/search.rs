// The search call in plain Rust: the method of crates/search, over what bench/board.rs has.
use crate::board::{Advice, Board, CELLS, DEAD, SETTLED, check, check_rooms, choose, read, settle, settled, store};

pub const STACK: usize = CELLS * CELLS;

// What the library's tanglepunt_search answers; ending is SOLVED, NONE or SPENT.
#[repr(C)]
#[derive(Clone, Copy, Debug, PartialEq)]
pub struct Ending {
    pub refused: u8,
    pub ending: u8,
}

pub const SOLVED: u8 = 0;
pub const NONE: u8 = 1;
pub const SPENT: u8 = 2;

// Searches the board of a file for a filling, and counts the choices down. Kept apart so that its instructions can be counted.
#[unsafe(no_mangle)]
#[inline(never)]
pub fn plain_search(
    file: &[u8],
    choices: &mut u64,
    room: &mut [u32],
    stack: &mut [u32],
    forward: &mut [u64],
    backward: &mut [u64],
) -> Ending {
    match searched(file, choices, room, stack, forward, backward) {
        Ok(ending) => Ending { refused: 0, ending },
        Err(refused) => Ending { refused, ending: 0 },
    }
}

fn searched(
    file: &[u8],
    choices: &mut u64,
    room: &mut [u32],
    stack: &mut [u32],
    forward: &mut [u64],
    backward: &mut [u64],
) -> Result<u8, u8> {
    check_rooms(room, forward, backward)?;
    check(stack.len() >= STACK, 15)?;
    let board = read(file)?;
    let (domains, stack) = (&mut room[..board.cells], &mut stack[..STACK]);
    store(&board, domains);
    let ending = descend(&board, choices, domains, stack, forward, backward);
    stack.fill(0);
    if ending != SOLVED {
        settled(&board, domains);
    }
    Ok(ending)
}

// The search from these domains. A level saved is the domains without the value that was followed from them.
fn descend(
    board: &Board,
    choices: &mut u64,
    domains: &mut [u32],
    stack: &mut [u32],
    forward: &mut [u64],
    backward: &mut [u64],
) -> u8 {
    let mut levels = 0;
    loop {
        settle(board, domains);
        match choose(board, domains, forward, backward) {
            Advice { kind: DEAD, .. } if levels == 0 => return NONE,
            Advice { kind: DEAD, .. } => {
                levels -= 1;
                domains.copy_from_slice(level(stack, levels, board.cells));
            }
            Advice { kind: SETTLED, .. } => {
                domains.iter_mut().for_each(|domain| *domain = 1 << domain.trailing_zeros());
                return SOLVED;
            }
            _ if *choices == 0 => return SPENT,
            Advice { cell, value, .. } => {
                *choices -= 1;
                let (saved, followed) = (level(stack, levels, board.cells), 1 << value);
                saved.copy_from_slice(domains);
                saved[cell] -= followed;
                domains[cell] = followed;
                levels += 1;
            }
        }
    }
}

fn level(stack: &mut [u32], i: usize, cells: usize) -> &mut [u32] {
    &mut stack[CELLS * i..CELLS * i + cells]
}

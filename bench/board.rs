// The board call in plain Rust: the methods of crates/reader, crates/settle, crates/choose, crates/beat and crates/fraction.
use crate::row::{TABLE, reach, tables, ways};
use std::cmp::Ordering;

pub const CELLS: usize = 64;

// What the library's tanglepunt_advise answers; kind is DEAD, SETTLED or ADVISE.
#[repr(C)]
#[derive(Clone, Copy, Debug, Default, PartialEq)]
pub struct Advice {
    pub refused: u8,
    pub kind: u8,
    pub passes: usize,
    pub struck: usize,
    pub cell: usize,
    pub value: usize,
    pub row: usize,
    pub count: u64,
    pub total: u64,
    pub share: f64,
}

pub const DEAD: u8 = 0;
pub const SETTLED: u8 = 1;
pub const ADVISE: u8 = 2;

#[derive(Clone, Copy)]
struct Row {
    len: usize,
    low: usize,
    high: usize,
    names: [usize; 10],
    weights: [u8; 10],
}

impl Row {
    fn names(&self) -> &[usize] {
        &self.names[..self.len]
    }

    fn weights(&self) -> &[u8] {
        &self.weights[..self.len]
    }
}

pub struct Board {
    pub cells: usize,
    domains: [u32; CELLS],
    rows: usize,
    lines: [Row; 32],
}

// Settles the board of a file in the room and advises a move on it. Kept apart so that its instructions can be counted.
#[unsafe(no_mangle)]
#[inline(never)]
pub fn plain_advise(file: &[u8], room: &mut [u32], forward: &mut [u64], backward: &mut [u64]) -> Advice {
    match advised(file, room, forward, backward) {
        Ok(advice) => advice,
        Err(refused) => Advice { refused, ..Advice::default() },
    }
}

fn advised(file: &[u8], room: &mut [u32], forward: &mut [u64], backward: &mut [u64]) -> Result<Advice, u8> {
    check_rooms(room, forward, backward)?;
    let board = read(file)?;
    let domains = &mut room[..board.cells];
    let (passes, struck) = settled(&board, domains);
    let advice = choose(&board, domains, forward, backward);
    Ok(Advice { passes, struck, ..advice })
}

pub fn check_rooms(room: &[u32], forward: &[u64], backward: &[u64]) -> Result<(), u8> {
    check(forward.len() >= TABLE && backward.len() >= TABLE, 3)?;
    check(room.len() >= CELLS, 13)
}

// ---- reading: first the refusals, then the record

pub fn read(file: &[u8]) -> Result<Board, u8> {
    test(file)?;
    let end = file.len() - 6;
    let (cells, rows) = (file[end + 2] as usize, file[end + 3] as usize);
    let zeros = Row { len: 0, low: 0, high: 0, names: [0; 10], weights: [0; 10] };
    let mut board = Board { cells, domains: [0; CELLS], rows, lines: [zeros; 32] };
    for (domain, bytes) in board.domains[..cells].iter_mut().zip(file.chunks_exact(4)) {
        *domain = u32::from_le_bytes(bytes.try_into().unwrap());
    }
    let mut rest = &file[4 * cells..end];
    for line in &mut board.lines[..rows] {
        *line = row_in(rest);
        rest = &rest[5 + 2 * line.len..];
    }
    Ok(board)
}

fn row_in(bytes: &[u8]) -> Row {
    let len = bytes[0] as usize;
    let mut row = Row { len, low: two(bytes, 1), high: two(bytes, 3), names: [0; 10], weights: [0; 10] };
    for (k, pair) in bytes[5..5 + 2 * len].chunks_exact(2).enumerate() {
        row.names[k] = pair[0] as usize;
        row.weights[k] = pair[1];
    }
    row
}

fn test(file: &[u8]) -> Result<(), u8> {
    check(6 <= file.len() && file.len() <= 1062, 6)?;
    let (body, trailer) = file.split_at(file.len() - 6);
    let (cells, rows) = (trailer[2] as usize, trailer[3]);
    check(trailer[4..] == [0x53, 0x4C], 7)?;
    check((1..=CELLS).contains(&cells) && (1..=32).contains(&rows), 8)?;
    check(two(trailer, 0) == 4 * cells && 4 * cells <= body.len(), 9)?;
    let mut rest = &body[4 * cells..];
    for _ in 0..rows {
        check(5 <= rest.len(), 10)?;
        let len = rest[0] as usize;
        check((1..=10).contains(&len), 1)?;
        check(two(rest, 1) <= two(rest, 3) && two(rest, 3) <= 511, 2)?;
        check(5 + 2 * len <= rest.len(), 10)?;
        test_pairs(&rest[5..5 + 2 * len], cells)?;
        rest = &rest[5 + 2 * len..];
    }
    check(rest.is_empty(), 10)
}

fn test_pairs(pairs: &[u8], cells: usize) -> Result<(), u8> {
    for (k, pair) in pairs.chunks_exact(2).enumerate() {
        check((pair[0] as usize) < cells, 11)?;
        check(pairs[..2 * k].chunks_exact(2).all(|other| other[0] != pair[0]), 12)?;
    }
    Ok(())
}

pub fn check(holds: bool, number: u8) -> Result<(), u8> {
    if holds { Ok(()) } else { Err(number) }
}

fn two(bytes: &[u8], at: usize) -> usize {
    u16::from_le_bytes([bytes[at], bytes[at + 1]]) as usize
}

// ---- settling

pub fn settled(board: &Board, domains: &mut [u32]) -> (usize, usize) {
    store(board, domains);
    settle(board, domains)
}

pub fn store(board: &Board, domains: &mut [u32]) {
    domains.copy_from_slice(&board.domains[..board.cells]);
}

pub fn settle(board: &Board, domains: &mut [u32]) -> (usize, usize) {
    let (mut passes, mut struck) = (0, 0);
    loop {
        let gone: u64 = board.lines[..board.rows].iter().map(|row| visit(row, domains)).sum();
        passes += 1;
        struck += gone as usize;
        if gone == 0 {
            return (passes, struck);
        }
    }
}

fn visit(row: &Row, domains: &mut [u32]) -> u64 {
    let mut part = [0; 10];
    let part = gather(row, domains, &mut part);
    let gone = reach(row.weights(), part, row.low, row.high);
    for (&name, &domain) in row.names().iter().zip(part.iter()) {
        domains[name] = domain;
    }
    gone
}

fn gather<'a>(row: &Row, domains: &[u32], part: &'a mut [u32; 10]) -> &'a mut [u32] {
    let part = &mut part[..row.len];
    for (domain, &name) in part.iter_mut().zip(row.names()) {
        *domain = domains[name];
    }
    part
}

// ---- choosing: each row's tables are filled once, every listed value is counted from them, and they are cleared at the end

pub fn choose(board: &Board, domains: &[u32], forward: &mut [u64], backward: &mut [u64]) -> Advice {
    let advice = chosen(board, domains, forward, backward);
    forward[..TABLE].fill(0);
    backward[..TABLE].fill(0);
    advice
}

fn chosen(board: &Board, domains: &[u32], forward: &mut [u64], backward: &mut [u64]) -> Advice {
    if domains.contains(&0) {
        return Advice { kind: DEAD, ..Advice::default() };
    }
    let mut best: Option<Advice> = None;
    for (i, row) in board.lines[..board.rows].iter().enumerate() {
        let mut part = [0; 10];
        let part = gather(row, domains, &mut part);
        let total = tables(row.weights(), part, row.low, row.high, forward, backward);
        for (p, &cell) in row.names().iter().enumerate() {
            let x = Advice { kind: ADVISE, cell, row: i, total, ..Advice::default() };
            best = with_place(best, x, part[p], row.weights[p], p, forward, backward);
        }
    }
    match best {
        None => Advice { kind: SETTLED, ..Advice::default() },
        Some(x) => Advice { share: x.count as f64 / x.total as f64, ..x },
    }
}

// The best so far, with the values of the cell at place p.
fn with_place(
    best: Option<Advice>,
    x: Advice,
    domain: u32,
    weight: u8,
    p: usize,
    forward: &[u64],
    backward: &[u64],
) -> Option<Advice> {
    let mut best = best;
    if domain.count_ones() < 2 {
        return best;
    }
    for value in (0..32).filter(|v| domain >> v & 1 == 1) {
        let count = ways(forward, backward, p, weight as usize * value);
        let x = Advice { value, count, ..x };
        if best.is_none_or(|y| beats(&x, &y)) {
            best = Some(x);
        }
    }
    best
}

fn beats(x: &Advice, y: &Advice) -> bool {
    let ties = || (y.cell, y.value, y.row).cmp(&(x.cell, x.value, x.row));
    ordered(x.count, x.total, y.count, y.total).then_with(ties) == Ordering::Greater
}

// Ranks c1 / t1 against c2 / t2 by repeated quotient and remainder.
fn ordered(c1: u64, t1: u64, c2: u64, t2: u64) -> Ordering {
    let (q1, q2, r1, r2) = (c1 / t1, c2 / t2, c1 % t1, c2 % t2);
    if q1 != q2 {
        return q1.cmp(&q2);
    }
    if r1 == 0 || r2 == 0 {
        return r1.cmp(&r2);
    }
    ordered(t2, r2, t1, r1)
}

// The row calls' loops in plain Rust: the methods of crates/layers, crates/row, crates/words and crates/reach.
pub const SUMS: usize = 512;
pub const TABLE: usize = 5632;

// Both tables, and the total.
pub fn tables(weights: &[u8], domains: &[u32], low: usize, high: usize, forward: &mut [u64], backward: &mut [u64]) -> u64 {
    let cells = domains.len();
    start(&mut forward[..SUMS], 0, 0);
    for i in 0..cells {
        let (done, rest) = forward.split_at_mut(SUMS * (i + 1));
        next(&done[SUMS * i..], &mut rest[..SUMS], weights[i], 0, domains[i]);
    }
    start(&mut backward[SUMS * cells..SUMS * (cells + 1)], low, high);
    for i in (0..cells).rev() {
        let (rest, done) = backward.split_at_mut(SUMS * (i + 1));
        next(&done[..SUMS], &mut rest[SUMS * i..], 0, weights[i], domains[i]);
    }
    backward[0]
}

fn start(layer: &mut [u64], low: usize, high: usize) {
    for (b, number) in layer.iter_mut().enumerate() {
        *number = (low <= b && b <= high) as u64;
    }
}

// The layer that follows: made in a copy, and stored.
fn next(from: &[u64], to: &mut [u64], rise: u8, fall: u8, domain: u32) {
    let mut made = [0u64; SUMS];
    for v in 0..32 {
        if domain >> v & 1 == 0 {
            continue;
        }
        let (up, down) = (rise as usize * v, fall as usize * v);
        if up + down < SUMS {
            let n = SUMS - up - down;
            for (into, number) in made[up..up + n].iter_mut().zip(&from[down..down + n]) {
                *into += number;
            }
        }
    }
    to.copy_from_slice(&made);
}

// The count of a listed value that brings s to the sum at place p, from filled tables.
pub fn ways(forward: &[u64], backward: &[u64], p: usize, s: usize) -> u64 {
    let before = &forward[SUMS * p..SUMS * (p + 1)];
    let after = &backward[SUMS * (p + 1)..SUMS * (p + 2)];
    if s < SUMS { before.iter().zip(&after[s..]).map(|(f, b)| f * b).sum() } else { 0 }
}

// Strikes by sets of reachable sums: a table's layer is eight words between eight empty ones.
const WORDS: usize = 8;
const REACH: usize = WORDS + 11 * 2 * WORDS;
type Set = [u64; WORDS];

pub fn reach(weights: &[u8], domains: &mut [u32], low: usize, high: usize) -> u64 {
    let cells = domains.len();
    let (mut f, mut g) = ([0u64; REACH], [0u64; REACH]);
    put(&mut f, 0, range(0, 0));
    for i in 0..cells {
        let set = layer(&f, i, false, weights[i], domains[i]);
        put(&mut f, i + 1, set);
    }
    put(&mut g, cells, range(low, high));
    for i in (0..cells).rev() {
        let set = layer(&g, i + 1, true, weights[i], domains[i]);
        put(&mut g, i, set);
    }
    let mut gone = 0;
    for i in 0..cells {
        let (mut kept, mut rest, mut v) = (0, domains[i], 0);
        while rest != 0 {
            if rest & 1 == 1 {
                if used(&f, &g, i, weights[i] as usize * v) {
                    kept |= 1 << v;
                } else {
                    gone += 1;
                }
            }
            rest >>= 1;
            v += 1;
        }
        domains[i] = kept;
    }
    gone
}

fn place(i: usize) -> usize {
    2 * WORDS * i + WORDS
}

fn put(table: &mut [u64; REACH], i: usize, set: Set) {
    table[place(i)..place(i) + WORDS].copy_from_slice(&set);
}

fn layer(table: &[u64], from: usize, back: bool, weight: u8, domain: u32) -> Set {
    let (mut set, mut rest, mut v) = ([0; WORDS], domain, 0);
    while rest != 0 {
        let s = weight as usize * v;
        if rest & 1 == 1 && s < SUMS {
            let p = 64 * place(from);
            join(&mut set, table, if back { p + s } else { p - s });
        }
        rest >>= 1;
        v += 1;
    }
    set
}

fn used(f: &[u64], g: &[u64], i: usize, s: usize) -> bool {
    s < SUMS && {
        let p = 64 * place(i + 1) + s;
        let f = &f[place(i)..place(i) + WORDS];
        let g = &g[p / 64..p / 64 + WORDS + 1];
        (0..WORDS).any(|j| f[j] & window(g, j, p % 64) != 0)
    }
}

fn join(set: &mut Set, table: &[u64], p: usize) {
    let t = &table[p / 64..p / 64 + WORDS + 1];
    for j in 0..WORDS {
        set[j] |= window(t, j, p % 64);
    }
}

fn window(t: &[u64], q: usize, m: usize) -> u64 {
    t[q] >> m | t[q + 1] << 1 << (63 - m)
}

// All sums, moved down until the last is high - low, and then up by low.
fn range(low: usize, high: usize) -> Set {
    let (mut first, mut set) = ([0; WORDS], [0; WORDS]);
    join(&mut first, &padded([u64::MAX; WORDS]), 2 * SUMS - 1 - (high - low));
    join(&mut set, &padded(first), SUMS - low);
    set
}

fn padded(set: Set) -> [u64; 3 * WORDS] {
    let mut table = [0; 3 * WORDS];
    table[WORDS..2 * WORDS].copy_from_slice(&set);
    table
}

// Boards of named kinds, each from a seed, and families of boards in which one number grows. All deterministic.
pub struct Plan {
    domains: Vec<u32>,
    rows: Vec<Row>,
}

struct Row {
    low: usize,
    high: usize,
    pairs: Vec<(usize, usize)>,
}

impl Plan {
    // The board file.
    pub fn file(&self) -> Vec<u8> {
        let mut file: Vec<u8> = self.domains.iter().flat_map(|domain| domain.to_le_bytes()).collect();
        for row in &self.rows {
            file.push(row.pairs.len() as u8);
            file.extend((row.low as u16).to_le_bytes());
            file.extend((row.high as u16).to_le_bytes());
            file.extend(row.pairs.iter().flat_map(|&(cell, weight)| [cell as u8, weight as u8]));
        }
        file.extend((4 * self.domains.len() as u16).to_le_bytes());
        file.extend([self.domains.len() as u8, self.rows.len() as u8, 0x53, 0x4C]);
        file
    }
}

// Splitmix: each seed gives the same numbers everywhere.
pub struct Random(pub u64);

impl Random {
    fn next(&mut self) -> u64 {
        self.0 = self.0.wrapping_add(0x9E3779B97F4A7C15);
        let z = (self.0 ^ self.0 >> 30).wrapping_mul(0xBF58476D1CE4E5B9);
        let z = (z ^ z >> 27).wrapping_mul(0x94D049BB133111EB);
        z ^ z >> 31
    }

    pub fn below(&mut self, n: usize) -> usize {
        (self.next() % n as u64) as usize
    }

    // So many different numbers below n.
    fn sample(&mut self, n: usize, many: usize) -> Vec<usize> {
        let mut numbers: Vec<usize> = (0..n).collect();
        (0..many).map(|_| numbers.swap_remove(self.below(numbers.len()))).collect()
    }

    // So many different values below n, as a domain.
    fn domain(&mut self, n: usize, many: usize) -> u32 {
        self.sample(n, many).iter().map(|v| 1 << v).sum()
    }
}

const FULL: u32 = u32::MAX;

pub type Kind = fn(&mut Random) -> Plan;

pub const KINDS: [(&str, Kind); 6] =
    [("small", small), ("planted", planted), ("tight", tight), ("sudoku", sudoku), ("full", full), ("passes", passes)];

// The kinds that are searched, each with the choices given. A full board needs 64, and each look at it costs an advice.
pub const SEARCHED: [(&str, Kind, u64); 10] = [
    ("small", small, MANY),
    ("planted", planted, MANY),
    ("tight", tight, MANY),
    ("sudoku", sudoku, MANY),
    ("full", full, 3),
    ("passes", passes, MANY),
    ("split", |random| market(random, true), MANY),
    ("unsplit", |random| market(random, false), MANY),
    ("pigeons", |_| pigeons(6, 5), MANY),
    ("deep", deep, MANY),
];
pub const MANY: u64 = 300; // enough for all but some planted boards

// Kinds of which every seed gives the same board.
pub const SINGLE: [&str; 3] = ["passes", "pigeons", "deep"];

// Two to six cells of a few values and one to four rows; limits lie up to four around the sums of a hidden filling.
fn small(random: &mut Random) -> Plan {
    let cells = 2 + random.below(5);
    let filling: Vec<usize> = (0..cells).map(|_| random.below(8)).collect();
    let domains = filling.iter().map(|v| 1 << v | random.domain(8, 3)).collect();
    let rows = (0..1 + random.below(4)).map(|_| {
        let length = 1 + random.below(cells);
        planted_row(random, &filling, length, 4)
    });
    Plan { domains, rows: rows.collect() }
}

// 32 cells of eight values and 20 rows of five cells; each row's limits lie up to four around the sum of a hidden filling.
fn planted(random: &mut Random) -> Plan {
    hidden(random, 4)
}

// The same with both limits at that sum.
fn tight(random: &mut Random) -> Plan {
    hidden(random, 0)
}

fn hidden(random: &mut Random, width: usize) -> Plan {
    let filling: Vec<usize> = (0..32).map(|_| random.below(32)).collect();
    let domains = filling.iter().map(|v| 1 << v | random.domain(32, 7)).collect();
    let rows = (0..20).map(|_| planted_row(random, &filling, 5, width)).collect();
    Plan { domains, rows }
}

// A row of weights 1 to 3 through some cells, its limits up to `width` around the filling's sum.
fn planted_row(random: &mut Random, filling: &[usize], length: usize, width: usize) -> Row {
    let pairs = random.sample(filling.len(), length).iter().map(|&c| (c, 1 + random.below(3))).collect();
    around(filling, pairs, random.below(width + 1), random.below(width + 1))
}

// A row whose limits lie so far around a filling's sum.
fn around(filling: &[usize], pairs: Vec<(usize, usize)>, below: usize, above: usize) -> Row {
    let sum: usize = pairs.iter().map(|&(c, w)| w * filling[c]).sum();
    Row { low: sum.saturating_sub(below), high: (sum + above).min(511), pairs }
}

// A grid of 8 by 8 cells with values 1 to 9, 32 of them given; its lines, columns and blocks of 2 by 4 with the sums of a hidden filling.
fn sudoku(random: &mut Random) -> Plan {
    let filling: Vec<usize> = (0..64).map(|_| 1 + random.below(9)).collect();
    let mut domains = vec![0b11_1111_1110; 64];
    for c in random.sample(64, 32) {
        domains[c] = 1 << filling[c];
    }
    let mut rows = Vec::new();
    for i in 0..8 {
        let block = 16 * (i / 2) + 4 * (i % 2);
        rows.push((0..8).map(|j| 8 * i + j).collect::<Vec<_>>());
        rows.push((0..8).map(|j| 8 * j + i).collect());
        rows.push((0..8).map(|j| block + 8 * (j / 4) + j % 4).collect());
    }
    let rows = rows.iter().map(|cells| around(&filling, cells.iter().map(|&c| (c, 1)).collect(), 0, 0));
    Plan { domains, rows: rows.collect() }
}

// 64 cells of 32 values and 32 rows of ten cells: the longest file. No value is struck.
fn full(random: &mut Random) -> Plan {
    let row = |random: &mut Random| Row { low: 100, high: 200, pairs: random.sample(64, 10).iter().map(|&c| (c, 1)).collect() };
    Plan { domains: vec![FULL; 64], rows: (0..32).map(|_| row(random)).collect() }
}

fn passes(_: &mut Random) -> Plan {
    ring(0)
}

// A ring of 32 cells, with a row from each to the next. In turn, the lowest value of a cell bounds the highest of the next
// (their sum is at most 31), and that the lowest of the one after (at least 31); the last row asks for one more, so that
// each turn strikes one value from every cell. The first cell's value 31 goes with every value before it, and after it, by
// way of cell 32, with the lowest only: nothing travels backwards. The first `ahead` rows stand in the order in which the
// strikes travel, and the others in the opposite order, where a pass takes a strike one cell further.
fn ring(ahead: usize) -> Plan {
    let mut domains: Vec<u32> = (0..32).map(|i| if i % 2 == 0 { 0x0000FFFF } else { 0xFFFF0000 }).collect();
    domains[0] |= 1 << 31;
    domains.push(0xFFFF0001);
    let limits = |i| match i {
        0 => (47, 47),
        31 => (32, 511),
        _ if i % 2 == 0 => (0, 31),
        _ => (31, 511),
    };
    let row = |i: usize| {
        let mut pairs = vec![(i, 1), ((i + 1) % 32, 1)];
        if i == 0 {
            pairs.push((32, 1));
        }
        Row { low: limits(i).0, high: limits(i).1, pairs }
    };
    Plan { domains, rows: (0..ahead).chain((ahead..32).rev()).map(row).collect() }
}

// The market split problem: two rows through ten cells of the values 0 and 1, each with random weights and both limits at half
// their sum. Drawn until some filling is good, or until none is.
fn market(random: &mut Random, some: bool) -> Plan {
    loop {
        let rows = vec![split(random), split(random)];
        if (0..1 << 10).any(|ones| rows.iter().all(|row| splits(row, ones))) == some {
            return Plan { domains: vec![0b11; 10], rows };
        }
    }
}

// Ten weights from 0 to 99; the last gives way by one where their sum is odd.
fn split(random: &mut Random) -> Row {
    let mut weights: Vec<usize> = (0..10).map(|_| random.below(100)).collect();
    weights[9] ^= weights.iter().sum::<usize>() % 2;
    let half = weights.iter().sum::<usize>() / 2;
    Row { low: half, high: half, pairs: weights.into_iter().enumerate().collect() }
}

// Whether the cells whose bits are set have half of a row's weight.
fn splits(row: &Row, ones: usize) -> bool {
    row.pairs.iter().map(|(c, w)| w * (ones >> c & 1)).sum::<usize>() == row.low
}

// Cell p * holes + h is 1 where pigeon p sits in hole h: each pigeon in one hole, each hole with at most one pigeon.
fn pigeons(pigeons: usize, holes: usize) -> Plan {
    let of_pigeon = |p| (0..holes).map(|h| (p * holes + h, 1)).collect();
    let of_hole = |h| (0..pigeons).map(|p| (p * holes + h, 1)).collect();
    let mut rows: Vec<Row> = (0..pigeons).map(|p| Row { low: 1, high: 1, pairs: of_pigeon(p) }).collect();
    rows.extend((0..holes).map(|h| Row { low: 0, high: 1, pairs: of_hole(h) }));
    Plan { domains: vec![0b11; pigeons * holes], rows }
}

// 64 cells of which no choice settles another, so that each choice saves a level.
fn deep(_: &mut Random) -> Plan {
    let domains = (0..64).map(|c| if c % 2 == 0 { FULL } else { 0b11 }).collect();
    let row = |first: usize| Row { low: 0, high: 0, pairs: (first..64.min(first + 10)).map(|c| (c, 0)).collect() };
    Plan { domains, rows: (0..64).step_by(10).map(row).collect() }
}

// For the check only: a row of up to four cells with any weights, whose sums reach 511, as 73 times 7 does, and pass it.
pub fn heavy(random: &mut Random) -> Plan {
    let cells = 1 + random.below(4);
    let domains = (0..cells).map(|_| 1 | 1 << 7 | random.domain(32, 8)).collect();
    let pairs = (0..cells).map(|c| (c, [0, 1, 73, random.below(256)][random.below(4)])).collect();
    Plan { domains, rows: vec![Row { low: random.below(512), high: 511, pairs }] }
}

// ---- families: the name, the numbers, and the board for a number

pub const FAMILIES: [(&str, &[usize], fn(usize) -> Plan); 6] = [
    ("rows", &[1, 2, 4, 8, 12, 16, 20, 24, 28, 32], first_rows),
    ("length", &[1, 2, 3, 4, 5, 6, 7, 8, 9, 10], |n| one_row(10, n, 32, 0, 511)),
    ("values", &[2, 4, 8, 12, 16, 20, 24, 28, 32], |n| one_row(10, 10, n, 0, 511)),
    ("cells", &[10, 16, 32, 48, 64], |n| one_row(n, 10, 32, 0, 511)),
    ("limits", &[0, 50, 100, 150], |n| one_row(10, 10, 32, 155 - n, 155 + n)),
    ("order", &[0, 4, 8, 12, 16, 20, 24, 28, 31], ring),
];

// The first rows of one full board.
fn first_rows(n: usize) -> Plan {
    let mut plan = full(&mut Random(0));
    plan.rows.truncate(n);
    plan
}

// A row of weights 1 through the first cells of a board of like domains.
fn one_row(cells: usize, length: usize, values: usize, low: usize, high: usize) -> Plan {
    let domains = vec![FULL >> (32 - values); cells];
    Plan { domains, rows: vec![Row { low, high, pairs: (0..length).map(|c| (c, 1)).collect() }] }
}

//! Goes through every call: answers, refusals in their order, what room holds afterwards. What is expected is document 01's,
//! enumerated or worked out here.
use std::cmp::Ordering;
use tanglepunt::*;

const SPARE: usize = 8;
const MARK: u64 = 0xA5A5_A5A5;

/// A row, with the tables and the domains that are lent for it, all marked.
#[derive(Clone, Debug, PartialEq)]
struct Lent {
    weights: Vec<u8>,
    domains: Vec<u32>,
    low: usize,
    high: usize,
    forward: Vec<u64>,
    backward: Vec<u64>,
}

fn lent(weights: &[u8], domains: &[u32], low: usize, high: usize) -> Lent {
    Lent {
        weights: weights.to_vec(),
        domains: domains.to_vec(),
        low,
        high,
        forward: vec![MARK; TABLE + SPARE],
        backward: vec![MARK; TABLE + SPARE],
    }
}

fn figure() -> Lent {
    lent(&[3, 1, 2, 1], &[0b111, 0b1011, 0b111, 0b110], 5, 8)
}

impl Lent {
    fn total(&mut self) -> Result<u64, Refusal> {
        total(&self.weights, &self.domains, self.low, self.high, &mut self.forward, &mut self.backward)
    }

    fn count(&mut self, place: usize, value: usize) -> Result<u64, Refusal> {
        let (forward, backward) = (&mut self.forward, &mut self.backward);
        count(&self.weights, &self.domains, self.low, self.high, place, value, forward, backward)
    }

    fn strike(&mut self) -> Result<u64, Refusal> {
        strike(&self.weights, &mut self.domains, self.low, self.high, &mut self.forward, &mut self.backward)
    }

    fn good(&self, sum: usize) -> bool {
        self.low <= sum && sum <= self.high
    }

    /// Every filling of the cells of a range, each with its sum.
    fn fillings(&self, cells: std::ops::Range<usize>) -> Vec<(Vec<usize>, usize)> {
        let mut all = vec![(Vec::new(), 0)];
        for cell in cells {
            let listed: Vec<usize> = (0..VALUES).filter(|v| self.domains[cell] >> v & 1 == 1).collect();
            let longer = |(filling, sum): &(Vec<usize>, usize)| {
                let (filling, sum, weight) = (filling.clone(), *sum, usize::from(self.weights[cell]));
                listed.iter().map(move |v| ([filling.as_slice(), &[*v]].concat(), sum + weight * v)).collect::<Vec<_>>()
            };
            all = all.iter().flat_map(longer).collect();
        }
        all
    }

    /// The tables as document 01 says, over marked room.
    fn tables(&self) -> (Vec<u64>, Vec<u64>) {
        let mut tables = (vec![MARK; TABLE + SPARE], vec![MARK; TABLE + SPARE]);
        let cells = self.weights.len();
        for i in 0..=cells {
            let (first, rest) = (self.fillings(0..i), self.fillings(i..cells));
            for b in 0..SUMS {
                tables.0[SUMS * i + b] = first.iter().filter(|(_, sum)| *sum == b).count() as u64;
                tables.1[SUMS * i + b] = rest.iter().filter(|(_, sum)| self.good(b + sum)).count() as u64;
            }
        }
        tables
    }
}

/// The three row calls beside the enumeration.
fn check_row(row: &Lent) {
    let cells = row.weights.len();
    let good: Vec<Vec<usize>> =
        row.fillings(0..cells).into_iter().filter(|(_, sum)| row.good(*sum)).map(|(filling, _)| filling).collect();
    let mut after = row.clone();
    (after.forward, after.backward) = row.tables();

    let mut now = row.clone();
    assert_eq!(now.total(), Ok(good.len() as u64));
    assert_eq!(now, after);

    let mut gone = 0;
    for place in 0..cells {
        for value in 0..VALUES {
            let count = good.iter().filter(|filling| filling[place] == value).count() as u64;
            let mut now = row.clone();
            assert_eq!(now.count(place, value), Ok(count));
            assert!(now.forward == after.forward && now.backward == after.backward && now.domains == row.domains);
            if count == 0 && row.domains[place] >> value & 1 == 1 {
                after.domains[place] &= !(1 << value);
                gone += 1;
            }
        }
    }
    let mut now = row.clone();
    assert_eq!(now.strike(), Ok(gone));
    assert_eq!(now, after);
}

#[test]
fn rows_beside_their_enumeration() {
    check_row(&figure());
    check_row(&lent(&[3, 1, 2, 1], &[0b111, 0b1011, 0b111, 0b110], 14, 14));
    check_row(&lent(&[0, 5], &[0b1011, 0b1001], 0, 14));
    check_row(&lent(&[255, 100, 7], &[0b1100, 0b11, 1 << 31], 217, 511));
    check_row(&lent(&[2, 2], &[0b1111, 0b1111], 5, 5));
}

#[test]
fn document_01_examples() {
    let full = u32::MAX;
    let totals = [
        (figure(), 22),
        (lent(&[0], &[full], 0, 0), 32),
        (lent(&[0], &[full], 1, 1), 0),
        (lent(&[1, 1], &[0b111, 0b111], 2, 2), 3),
        (lent(&[2, 2], &[0b1111, 0b1111], 5, 5), 0),
        (lent(&[255], &[0b1100], 510, 511), 1),
        (lent(&[1, 1], &[1 << 5, 0], 0, 511), 0),
        (lent(&[0; 10], &[full; 10], 0, 0), 1_125_899_906_842_624),
    ];
    for (mut row, expected) in totals {
        assert_eq!(row.total(), Ok(expected));
    }
    assert_eq!(figure().count(0, 1), Ok(10));
    assert_eq!(figure().count(1, 2), Ok(0));
    assert_eq!(figure().count(3, 1), Ok(11));
}

/// Each row call on this row is refused with this, and changes nothing.
fn check_row_refused(row: &Lent, place: usize, value: usize, refusal: Refusal) {
    let mut now = row.clone();
    assert_eq!(now.count(place, value), Err(refusal));
    if refusal != Refusal::Place {
        assert_eq!(now.total(), Err(refusal));
        assert_eq!(now.strike(), Err(refusal));
    }
    assert_eq!(now, *row);
}

#[test]
fn row_refusals() {
    // each in its order: all wrong, then one less
    let mut row = lent(&[], &[], 9, 8);
    row.forward.truncate(TABLE - 1);
    check_row_refused(&row, 4, 32, Refusal::Length);
    (row.weights, row.domains) = (figure().weights, figure().domains);
    check_row_refused(&row, 4, 32, Refusal::Limits);
    row.low = 5;
    check_row_refused(&row, 4, 32, Refusal::Table);
    row.forward.push(0);
    check_row_refused(&row, 4, 31, Refusal::Place);
    check_row_refused(&row, 3, 32, Refusal::Place);
    check_row_refused(&row, usize::MAX, usize::MAX, Refusal::Place);
    assert_eq!(row.count(3, 31), Ok(0));

    // each part, at its edge
    check_row_refused(&lent(&[1; 11], &[1; 11], 0, 8), 0, 0, Refusal::Length);
    check_row_refused(&lent(&[1; 4], &[1; 3], 0, 8), 0, 0, Refusal::Length);
    check_row_refused(&lent(&[1; 3], &[], 0, 8), 0, 0, Refusal::Length);
    check_row_refused(&lent(&[1; 10], &[1; 10], 0, 512), 0, 0, Refusal::Limits);
    check_row_refused(&lent(&[1], &[1], usize::MAX, usize::MAX), 0, 0, Refusal::Limits);
    assert_eq!(lent(&[1; 10], &[1; 10], 0, 511).total(), Ok(1));
    for (forward, backward, short) in
        [(TABLE, TABLE - 1, true), (0, TABLE, true), (TABLE, 0, true), (TABLE, TABLE, false)]
    {
        let mut row = figure();
        row.forward.truncate(forward);
        row.backward.truncate(backward);
        match short {
            true => check_row_refused(&row, 0, 0, Refusal::Table),
            false => assert_eq!(row.total(), Ok(22)),
        }
    }
}

#[test]
fn ranking() {
    let n = 1 << 50;
    assert_eq!(rank(10, 22, 5, 11), Ok(Ordering::Equal));
    assert_eq!(rank(n - 1, n, n - 2, n - 1), Ok(Ordering::Greater));
    let some = [0, 1, 2, 5, 11, 22, n - 1, n, u64::MAX - 1, u64::MAX];
    for (c1, t1) in some.iter().flat_map(|c| some.map(|t| (*c, t))) {
        for (c2, t2) in some.iter().flat_map(|c| some.map(|t| (*c, t))) {
            let expected = match t1 == 0 || t2 == 0 {
                true => Err(Refusal::Fraction),
                false => Ok((u128::from(c1) * u128::from(t2)).cmp(&(u128::from(c2) * u128::from(t1)))),
            };
            assert_eq!(rank(c1, t1, c2, t2), expected);
        }
    }
}

/// Document 01's file; its rows start at 12 and 21, its trailer at 30.
const EXAMPLE: &[u8; 36] =
    b"\x0E\0\0\0\x0E\0\0\0\x0E\0\0\0\x02\x03\0\x03\0\0\x01\x01\x01\x02\x07\0\x08\0\x01\x01\x02\x02\x0C\0\x03\x02SL";

fn line(low: usize, high: usize, pairs: &[(usize, u8)]) -> Row {
    let mut row = Row { len: pairs.len(), low, high, ..Row::default() };
    for (k, (name, weight)) in pairs.iter().enumerate() {
        (row.names[k], row.weights[k]) = (*name, *weight);
    }
    row
}

fn board(domains: &[u32], lines: &[Row]) -> Board {
    let mut board = Board { cells: domains.len(), rows: lines.len(), ..Board::default() };
    board.domains[..domains.len()].copy_from_slice(domains);
    board.lines[..lines.len()].copy_from_slice(lines);
    board
}

fn example_board() -> Board {
    board(&[0b1110; 3], &[line(3, 3, &[(0, 1), (1, 1)]), line(7, 8, &[(1, 1), (2, 2)])])
}

/// What `advise` does with a file, in marked rooms of these sizes: its answer and the rooms.
fn advise_in(file: &[u8], sizes: [usize; 3]) -> (Result<Advised, Refusal>, Vec<u32>, [Vec<u64>; 2]) {
    let mut room = vec![MARK as u32; sizes[0]];
    let (mut forward, mut backward) = (vec![MARK; sizes[1]], vec![MARK; sizes[2]]);
    let advised = advise(file, &mut room, &mut forward, &mut backward);
    (advised, room, [forward, backward])
}

fn check_advise_refused(file: &[u8], sizes: [usize; 3], refusal: Refusal) {
    let untouched = [vec![MARK; sizes[1]], vec![MARK; sizes[2]]];
    assert_eq!(advise_in(file, sizes), (Err(refusal), vec![MARK as u32; sizes[0]], untouched));
}

/// The choices and the rooms that are lent to a search.
#[derive(Clone, Debug, PartialEq)]
struct SearchLent {
    choices: u64,
    room: Vec<u32>,
    stack: Vec<u32>,
    forward: Vec<u64>,
    backward: Vec<u64>,
}

/// So many choices, and marked rooms of these sizes.
fn search_lent(choices: u64, sizes: [usize; 4]) -> SearchLent {
    SearchLent {
        choices,
        room: vec![MARK as u32; sizes[0]],
        stack: vec![MARK as u32; sizes[1]],
        forward: vec![MARK; sizes[2]],
        backward: vec![MARK; sizes[3]],
    }
}

impl SearchLent {
    fn search(&mut self, file: &[u8]) -> Result<Ending, Refusal> {
        let (forward, backward) = (&mut self.forward, &mut self.backward);
        search(file, &mut self.choices, &mut self.room, &mut self.stack, forward, backward)
    }
}

fn check_search_refused(file: &[u8], sizes: [usize; 4], refusal: Refusal) {
    let lent = search_lent(7, sizes);
    let mut now = lent.clone();
    assert_eq!(now.search(file), Err(refusal));
    assert_eq!(now, lent);
}

fn check_file_refused(file: &[u8], refusal: Refusal) {
    assert_eq!(read(file), Err(refusal));
    assert_eq!(read_at(file, file.len()), Err(refusal));
    assert_eq!(board_counts(file), Err(refusal));
    check_advise_refused(file, [ROOM, TABLE, TABLE], refusal);
    check_search_refused(file, [ROOM, STACK, TABLE, TABLE], refusal);
}

#[test]
fn file_refusals() {
    // all wrong, then one less from the front on: each in its order
    let faults = [(35, 0), (32, 0), (30, 0), (12, 0), (13, 9), (17, 9), (19, 0), (33, 1)];
    let numbers = [Refusal::Mark, Refusal::Counts, Refusal::Start, Refusal::Length, Refusal::Limits, Refusal::Cell];
    let numbers = numbers.into_iter().chain([Refusal::Twice, Refusal::End]);
    for (mended, refusal) in numbers.enumerate() {
        let mut file = *EXAMPLE;
        faults[mended..].iter().for_each(|(at, byte)| file[*at] = *byte);
        check_file_refused(&file, refusal);
    }
    // other parts of the numbers
    let parts = [
        (34, 0x4C, Refusal::Mark),
        (32, 65, Refusal::Counts),
        (33, 0, Refusal::Counts),
        (33, 33, Refusal::Counts),
        (31, 1, Refusal::Start),
        (33, 3, Refusal::End),
        (12, 11, Refusal::Length),
        (16, 2, Refusal::Limits),
        (12, 10, Refusal::End),
        (28, 3, Refusal::Cell),
        (28, 1, Refusal::Twice),
    ];
    for (at, byte, refusal) in parts {
        let mut file = *EXAMPLE;
        file[at] = byte;
        check_file_refused(&file, refusal);
    }
    for size in (0..6).chain([FILE + 1, usize::from(u16::MAX)]) {
        check_file_refused(&vec![0; size], Refusal::Size);
    }
    check_file_refused(&[0; FILE], Refusal::Mark);
    check_file_refused(&EXAMPLE[30..], Refusal::Start);
}

#[test]
fn reading() {
    assert_eq!(read(EXAMPLE), Ok(example_board()));
    assert_eq!(board_counts(EXAMPLE), Ok(Counts { cells: 3, rows: 2 }));
    let read = read(EXAMPLE).unwrap();
    assert!(
        read.domains[3..].iter().all(|domain| *domain == 0) && read.lines[2..].iter().all(|row| *row == Row::default())
    );
    assert!(read.lines[0].names[2..] == [0; 8] && read.lines[0].weights[2..] == [0; 8]);

    // the trailer inside a longer file, at another place, past the last place for one
    let longer = [EXAMPLE.as_slice(), &[7; 50]].concat();
    assert_eq!(read_at(&longer, 30), Ok(example_board()));
    assert_eq!(read_at(EXAMPLE, 29), Err(Refusal::Mark));
    assert_eq!(read_at(EXAMPLE, usize::MAX), Ok(example_board()));
    for size in 0..=FILE {
        assert_eq!(begin(&vec![0; size]), size.saturating_sub(6));
    }
}

#[test]
fn same_boards() {
    let (one, mut other) = (example_board(), example_board());
    other.domains[3] = 1;
    other.lines[2].len = 1;
    other.lines[1].weights[2] = 1;
    assert_eq!(one, other);
    let changes: [fn(&mut Board); 7] = [
        |b| b.cells = 2,
        |b| b.domains[2] = 1,
        |b| b.rows = 1,
        |b| b.lines[1].len = 1,
        |b| b.lines[1].high = 9,
        |b| b.lines[1].names[1] = 0,
        |b| b.lines[1].weights[1] = 1,
    ];
    for change in changes {
        let mut other = one;
        change(&mut other);
        assert_ne!(one, other);
    }
    other.cells = usize::MAX; // any numbers: the places that are there
    assert_eq!(other.cell_domains().len(), BOARD_CELLS);
}

fn check_write_refused(board: &Board, size: usize, refusal: Refusal) {
    let mut room = vec![0xA5; size];
    assert_eq!(write(board, &mut room), Err(refusal));
    assert_eq!(room, vec![0xA5; size]);
}

#[test]
fn writing() {
    let mut room = [0xA5; FILE];
    assert_eq!(write(&example_board(), &mut room), Ok(36));
    assert_eq!(room[..36], EXAMPLE[..]);
    assert_eq!(room[36..], [0xA5; FILE - 36]);
    assert_eq!(write(&example_board(), &mut room[..36]), Ok(36));

    // each refusal in its order: all wrong, then one less
    let mut board = example_board();
    board.cells = usize::MAX;
    board.lines[0] = line(usize::MAX, 3, &[(usize::MAX, 1), (0, 1)]);
    board.lines[0].len = usize::MAX;
    check_write_refused(&board, 35, Refusal::Counts);
    board.cells = 3;
    check_write_refused(&board, 35, Refusal::Length);
    board.lines[0].len = 2;
    check_write_refused(&board, 35, Refusal::Limits);
    board.lines[0].low = 3;
    check_write_refused(&board, 35, Refusal::Cell);
    board.lines[0].names[0] = 0;
    check_write_refused(&board, 35, Refusal::Twice);
    board.lines[0].names[1] = 1;
    check_write_refused(&board, 35, Refusal::WriterRoom);
    check_write_refused(&board, 0, Refusal::WriterRoom);
    check_write_refused(&Board::default(), FILE, Refusal::Counts);
}

#[test]
fn the_longest_file_there_and_back() {
    let domains: Vec<u32> = (0..64).map(|cell| u32::MAX - cell).collect();
    let pairs = |k: usize| (0..10).map(|p| ((k + 7 * p) % 64, (k * p % 256) as u8)).collect::<Vec<_>>();
    let lines: Vec<Row> = (0..32).map(|k| line(k, 511 - k, &pairs(k))).collect();
    let board = board(&domains, &lines);
    let mut file = [0; FILE];
    check_write_refused(&board, FILE - 1, Refusal::WriterRoom);
    assert_eq!(write(&board, &mut file), Ok(FILE));
    assert_eq!(read(&file), Ok(board));
}

/// The advice on a board, with the rooms as document 01 says: these domains, then zeros in the tables, the rest unchanged.
fn check_advice(board: &Board, settled: &[u32], passes: usize, struck: usize, advice: Advice) {
    let mut file = [0; FILE];
    let size = write(board, &mut file).unwrap();
    let (advised, room, tables) = advise_in(&file[..size], [ROOM + SPARE, TABLE + SPARE, TABLE]);
    assert_eq!(advised, Ok(Advised { passes, struck, advice }));
    assert_eq!(room[..settled.len()], *settled);
    assert!(room[settled.len()..].iter().all(|entry| *entry == MARK as u32));
    for table in tables {
        assert!(table[..TABLE].iter().all(|entry| *entry == 0) && table[TABLE..].iter().all(|entry| *entry == MARK));
    }
}

#[test]
fn advising() {
    let example = Advice::Advise { cell: 0, value: 1, row: 0, count: 1, total: 2, share: 0.5 };
    check_advice(&example_board(), &[0b110, 0b110, 0b1000], 2, 4, example);
    let figure = figure();
    let last = Advice::Advise { cell: 3, value: 1, row: 0, count: 11, total: 22, share: 0.5 };
    let row = line(5, 8, &[(0, 3), (1, 1), (2, 2), (3, 1)]);
    check_advice(&board(&figure.domains, &[row]), &figure.domains, 1, 0, last);
    // P8's row has total 0, which empties its cells; P9's leaves one value, and a cell in no row keeps its two
    check_advice(&board(&[0b1111; 2], &[line(5, 5, &[(0, 2), (1, 2)])]), &[0, 0], 2, 8, Advice::Dead);
    check_advice(&board(&[0b1100, 0b11], &[line(510, 511, &[(0, 255)])]), &[0b100, 0b11], 2, 1, Advice::Settled);
}

#[test]
fn advice_refusals() {
    // tables, then room, then the file
    check_advise_refused(&[], [ROOM - 1, TABLE - 1, TABLE], Refusal::Table);
    check_advise_refused(&[], [ROOM - 1, TABLE, TABLE - 1], Refusal::Table);
    check_advise_refused(&[], [ROOM - 1, TABLE, TABLE], Refusal::Room);
    check_advise_refused(&[], [ROOM, TABLE, TABLE], Refusal::Size);
    check_advise_refused(EXAMPLE, [0, TABLE, TABLE], Refusal::Room);
    check_advise_refused(EXAMPLE, [ROOM, 0, 0], Refusal::Table);
}

/// A board whose search needs so many choices, with none, one fewer, exactly enough, one more, and the largest number: the
/// ending, the choices left, these domains, zeros in the stack and the tables, the rest unchanged.
fn check_search(board: &Board, needs: u64, ending: Ending, settled: &[u32], found: &[u32]) {
    let mut file = [0; FILE];
    let size = write(board, &mut file).unwrap();
    let sizes = [ROOM + SPARE, STACK + SPARE, TABLE, TABLE + SPARE];
    for given in [0, needs.saturating_sub(1), needs, needs + 1, u64::MAX] {
        let (ending, left, domains) = match given.checked_sub(needs) {
            None => (Ending::Spent, 0, settled),
            Some(left) => (ending, left, found),
        };
        let mut after = search_lent(left, sizes);
        after.room[..domains.len()].copy_from_slice(domains);
        after.stack[..STACK].fill(0);
        after.forward[..TABLE].fill(0);
        after.backward[..TABLE].fill(0);
        let mut now = search_lent(given, sizes);
        assert_eq!(now.search(&file[..size]), Ok(ending));
        assert_eq!(now, after);
    }
}

#[test]
fn searching() {
    check_search(&example_board(), 1, Ending::Solved, &[0b110, 0b110, 0b1000], &[0b10, 0b100, 0b1000]);
    // P9's row leaves one value, and a cell in no row takes its lowest; P8's row has total 0
    let loose = board(&[0b1100, 0b110], &[line(510, 511, &[(0, 255)])]);
    check_search(&loose, 0, Ending::Solved, &[0b100, 0b110], &[0b100, 0b10]);
    check_search(&board(&[0b1111; 2], &[line(5, 5, &[(0, 2), (1, 2)])]), 0, Ending::None, &[0, 0], &[0, 0]);
    // goes back: the advice, cell 2 value 0, 5 of 8, asks for 3 of the other two in row 0, for at most 2 in row 1
    let domains = [0b111, 0b111, 0b11];
    let lines = [line(3, 3, &[(0, 1), (1, 1), (2, 2)]), line(1, 2, &[(0, 1), (1, 1), (2, 1)])];
    check_search(&board(&domains, &lines), 2, Ending::Solved, &domains, &[0b1, 0b10, 0b10]);
    // three cells of 0 and 1, any two with sum 1: no row sees that there is no filling
    let odd = [(0, 1), (1, 2), (0, 2)].map(|(one, other)| line(1, 1, &[(one, 1), (other, 1)]));
    check_search(&board(&[0b11; 3], &odd), 1, Ending::None, &[0b11; 3], &[0b11; 3]);
}

#[test]
fn search_refusals() {
    // tables, then room, then stack, then the file
    check_search_refused(&[], [ROOM - 1, STACK - 1, TABLE - 1, TABLE], Refusal::Table);
    check_search_refused(&[], [ROOM - 1, STACK - 1, TABLE, TABLE - 1], Refusal::Table);
    check_search_refused(&[], [ROOM - 1, STACK - 1, TABLE, TABLE], Refusal::Room);
    check_search_refused(&[], [ROOM, STACK - 1, TABLE, TABLE], Refusal::Stack);
    check_search_refused(&[], [ROOM, STACK, TABLE, TABLE], Refusal::Size);
    // each alone
    check_search_refused(EXAMPLE, [ROOM, STACK, 0, 0], Refusal::Table);
    check_search_refused(EXAMPLE, [ROOM - 1, STACK, TABLE, TABLE], Refusal::Room);
    check_search_refused(EXAMPLE, [0, STACK, TABLE, TABLE], Refusal::Room);
    check_search_refused(EXAMPLE, [ROOM, STACK - 1, TABLE, TABLE], Refusal::Stack);
    check_search_refused(EXAMPLE, [ROOM, 0, TABLE, TABLE], Refusal::Stack);
    assert_eq!(search_lent(1, [ROOM, STACK, TABLE, TABLE]).search(EXAMPLE), Ok(Ending::Solved));
}

#[test]
fn words_and_numbers() {
    let numbers: Vec<u8> = Refusal::ALL.iter().map(|refusal| refusal.number()).collect();
    assert_eq!(numbers, (1..=15).collect::<Vec<u8>>());
    assert_eq!(Refusal::Mark.to_string(), "refused, 7: mark wrong");
    assert_eq!(Refusal::Stack.to_string(), "refused, 15: stack room below 4,096 entries");
    assert_eq!(Tables::new(), Tables { forward: vec![0; TABLE].into(), backward: vec![0; TABLE].into() });
}

//! A row, a board and a search by the library, in document 01's examples.
use tanglepunt::{advise, board_counts, count, read, search, strike, total};
use tanglepunt::{Advice, Ending, Refusal, Tables, ROOM, STACK, VALUES};

/// Document 01's board of 36 bytes.
const EXAMPLE: &[u8] =
    b"\x0E\0\0\0\x0E\0\0\0\x0E\0\0\0\x02\x03\0\x03\0\0\x01\x01\x01\x02\x07\0\x08\0\x01\x01\x02\x02\x0C\0\x03\x02SL";

fn print_domain(domain: u32) {
    for value in (0..VALUES).filter(|value| domain >> value & 1 == 1) {
        print!(" {value}");
    }
    println!("{}", if domain == 0 { " NONE" } else { "" });
}

/// The Figure row: its total, the count of its first cell and value 1, and what is left where the sum 14 is asked for.
fn show_row(tables: &mut Tables) -> Result<(), Refusal> {
    let weights = [3, 1, 2, 1];
    let mut domains = [0b111, 0b1011, 0b111, 0b110];
    let (forward, backward) = (&mut tables.forward, &mut tables.backward);
    let good = total(&weights, &domains, 5, 8, forward, backward)?;
    let with_1 = count(&weights, &domains, 5, 8, 0, 1, forward, backward)?;
    let struck = strike(&weights, &mut domains, 14, 14, forward, backward)?;
    println!("total {good}, first cell with value 1: {with_1}");
    println!("limits 14 to 14: {struck} values struck, leaving");
    domains.into_iter().for_each(print_domain);
    Ok(())
}

/// The board file, settled and advised on; then the same bytes without the last.
fn show_board(tables: &mut Tables) -> Result<(), Refusal> {
    let mut room = [0; ROOM];
    let cells = board_counts(EXAMPLE)?.cells;
    let advised = advise(EXAMPLE, &mut room, &mut tables.forward, &mut tables.backward)?;
    println!("passes {}, struck {}; the settled domains", advised.passes, advised.struck);
    room.into_iter().take(cells).for_each(print_domain);
    match advised.advice {
        Advice::Dead => println!("dead"),
        Advice::Settled => println!("settled"),
        Advice::Advise { cell, value, row, count, total, share } => {
            println!("advise cell {cell}, value {value}: row {row}, {count} of {total}, share {share}")
        }
    }
    if let [short @ .., _] = EXAMPLE {
        match read(short) {
            Ok(_) => println!("without the last byte: read"),
            Err(refusal) => println!("without the last byte: {refusal}"),
        }
    }
    Ok(())
}

/// The same board finished with up to 10 choices: how the search ended, and what the room then holds of each cell.
fn show_search(tables: &mut Tables) -> Result<(), Refusal> {
    let (mut room, mut stack) = ([0; ROOM], vec![0; STACK]);
    let given = 10;
    let mut left = given;
    let ending = search(EXAMPLE, &mut left, &mut room, &mut stack, &mut tables.forward, &mut tables.backward)?;
    let word = match ending {
        Ending::Solved => "SOLVED",
        Ending::None => "NONE",
        Ending::Spent => "SPENT",
    };
    println!("{word} FOLLOWED {} LEFT {left}", given - left);
    for (cell, domain) in room.into_iter().take(board_counts(EXAMPLE)?.cells).enumerate() {
        print!("CELL {cell} VALUES");
        print_domain(domain);
    }
    Ok(())
}

fn main() -> Result<(), Refusal> {
    let mut tables = Tables::new();
    show_row(&mut tables)?;
    show_board(&mut tables)?;
    show_search(&mut tables)
}

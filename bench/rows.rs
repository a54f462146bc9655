// The row calls beside crates/bench_rows: the same methods over the same kinds of row, and the same checksums.
// Arguments: METHOD KIND TIMES.
mod row;

use row::{TABLE, reach, tables, ways};
use std::hint::black_box;

struct Row {
    weights: Vec<u8>,
    domains: Vec<u32>,
    low: usize,
    high: usize,
}

// Strikes by counting, from both tables.
fn strike(row: &mut Row, forward: &mut [u64], backward: &mut [u64]) -> u64 {
    tables(&row.weights, &row.domains, row.low, row.high, forward, backward);
    let mut gone = 0;
    for p in 0..row.domains.len() {
        for v in 0..32 {
            if row.domains[p] >> v & 1 == 1 && ways(forward, backward, p, row.weights[p] as usize * v) == 0 {
                row.domains[p] -= 1 << v;
                gone += 1;
            }
        }
    }
    gone
}

fn kind(name: &str) -> Row {
    match name {
        "full" => Row { weights: vec![1; 10], domains: vec![u32::MAX; 10], low: 0, high: 511 },
        "eight" => Row { weights: vec![3; 10], domains: vec![255; 10], low: 100, high: 120 },
        "zero" => Row { weights: vec![0; 10], domains: vec![u32::MAX; 10], low: 0, high: 0 },
        _ => Row { weights: vec![3, 1, 2, 1], domains: vec![7, 11, 7, 6], low: 5, high: 8 },
    }
}

fn main() {
    let args: Vec<String> = std::env::args().collect();
    let mut row = kind(&args[2]);
    let times: u64 = args[3].parse().unwrap();
    let (mut forward, mut backward) = (vec![0u64; TABLE], vec![0u64; TABLE]);
    let mut sum = 0u64;
    for _ in 0..times {
        let row = black_box(&mut row);
        let answer = match &args[1][..] {
            "tables" => tables(&row.weights, &row.domains, row.low, row.high, &mut forward, &mut backward),
            "strike" => strike(row, &mut forward, &mut backward),
            _ => reach(&row.weights, &mut row.domains, row.low, row.high),
        };
        sum = sum.wrapping_add(answer);
    }
    let sum = forward.iter().chain(&backward).fold(sum, |a, b| a.wrapping_add(*b));
    let sum = row.domains.iter().fold(sum, |a, b| a.wrapping_add(*b as u64));
    println!("{} {} {}", args[1], args[2], sum);
}

// The board calls of the library beside the same methods in plain Rust, over boards of every kind.
//   check                  both answer the same on all boards, and on damaged files
//   cost                   both advise once on each board of the benchmark, for callgrind; prints what the boards are
//   search                 both search each board once, for callgrind; prints how the searches end
//   ratio                  the library's processor time over the other's, for an advice on each kind
//   speed KIND SECONDS     advices by the library for so long; prints how many, and the seconds that they took
mod board;
mod calls;
mod kinds;
mod row;
mod search;

use board::Advice;
use calls::{ADVISES, Call, Lent, SEARCHES, both, lent};
use kinds::{FAMILIES, KINDS, Kind, MANY, Random, SEARCHED, SINGLE, heavy};
use search::{Ending, SPENT};
use std::time::{Duration, Instant};

unsafe extern "C" {
    fn clock_gettime(clock: i32, time: *mut Timespec) -> i32;
}

#[repr(C)]
struct Timespec {
    seconds: i64,
    nanoseconds: i64,
}

const PROCESS_TIME: i32 = 2; // CLOCK_PROCESS_CPUTIME_ID of Linux
const ENDINGS: [&str; 3] = ["solved", "none", "spent"];

// The files of a kind's boards, at most so many.
fn files(name: &str, kind: Kind, many: u64) -> Vec<Vec<u8>> {
    let seeds = if SINGLE.contains(&name) { 1 } else { many };
    (0..seeds).map(|seed| kind(&mut Random(seed)).file()).collect()
}

// The boards of a kind that are measured.
fn measured(name: &str, kind: Kind) -> Vec<Vec<u8>> {
    files(name, kind, 8)
}

// Copies of a file in each of which one byte is another one, or the end is lost.
fn damaged(file: &[u8], random: &mut Random) -> Vec<Vec<u8>> {
    let mut copies = vec![file.to_vec(); 9];
    for copy in &mut copies[..8] {
        let at = if random.below(2) == 0 { file.len() - 1 - random.below(6) } else { random.below(file.len()) };
        copy[at] = random.below(256) as u8;
    }
    copies[8].truncate(random.below(file.len()));
    copies
}

// Nine damaged copies of each file.
fn all_damaged(sound: &[Vec<u8>]) -> Vec<Vec<u8>> {
    let mut random = Random(1);
    sound.iter().flat_map(|file| damaged(file, &mut random)).collect()
}

// How some answers are spread: each a refusal, or 0 and which of three it is.
fn spread(names: [&str; 3], answers: impl Iterator<Item = (u8, u8)>) -> String {
    let (mut refused, mut many) = (0, [0; 3]);
    for (refusal, answer) in answers {
        if refusal != 0 {
            refused += 1;
        } else {
            many[answer as usize] += 1;
        }
    }
    let [a, b, c] = names;
    format!("{} {a}, {} {b}, {} {c}, {refused} refused", many[0], many[1], many[2])
}

fn check() {
    for (name, kind) in KINDS.into_iter().chain([("heavy", heavy as Kind)]) {
        let sound = files(name, kind, 40);
        let broken = all_damaged(&sound);
        println!("{name}: {} boards: {}", sound.len(), advices(&sound));
        println!("{name}: {} damaged files: {}", broken.len(), advices(&broken));
    }
    for (name, numbers, member) in FAMILIES {
        let members: Vec<Vec<u8>> = numbers.iter().map(|&n| member(n).file()).collect();
        println!("by {name}: {} boards: {}", members.len(), advices(&members));
    }
    for (name, kind, choices) in SEARCHED.into_iter().chain([("heavy", heavy as Kind, MANY)]) {
        let sound = files(name, kind, 4);
        let broken = all_damaged(&sound);
        println!("{name}, searched: {} boards: {}", sound.len(), searches(&sound, choices));
        println!("{name}, searched: {} damaged files: {}", broken.len(), searches(&broken, choices));
    }
}

fn advices(files: &[Vec<u8>]) -> String {
    spread(["dead", "settled", "advised"], files.iter().map(|file| advised(file)).map(|advice| (advice.refused, advice.kind)))
}

fn advised(file: &[u8]) -> Advice {
    both(ADVISES, file, 0).0
}

fn searches(files: &[Vec<u8>], choices: u64) -> String {
    spread(ENDINGS, files.iter().map(|file| searched(file, choices)).map(|ending| (ending.refused, ending.ending)))
}

// How the search of a file ends. What is solved, or has no filling, is so with just the choices followed, and spent with one fewer.
fn searched(file: &[u8], choices: u64) -> Ending {
    let (ending, left) = both(SEARCHES, file, choices);
    let followed = choices - left;
    if ending.refused == 0 && ending.ending != SPENT {
        assert_eq!(both(SEARCHES, file, followed), (ending, 0), "{followed} choices for {file:?}");
        if followed > 0 {
            assert_eq!(both(SEARCHES, file, followed - 1).0.ending, SPENT, "{followed} choices less one for {file:?}");
        }
    }
    ending
}

fn cost() {
    for (name, kind) in KINDS {
        for (seed, file) in measured(name, kind).iter().enumerate() {
            print_cost("kind", name, seed, &advised(file));
        }
    }
    for (name, numbers, member) in FAMILIES {
        for &n in numbers {
            print_cost("by", name, n, &advised(&member(n).file()));
        }
    }
}

fn print_cost(what: &str, name: &str, n: usize, advice: &Advice) {
    let answer = ["dead", "settled", "advise"][advice.kind as usize];
    println!("{what} {name} {n} {} {} {answer}", advice.passes, advice.struck);
}

fn search() {
    for (name, kind, choices) in SEARCHED {
        for (seed, file) in measured(name, kind).iter().enumerate() {
            let (ending, left) = both(SEARCHES, file, choices);
            println!("search {name} {seed} {} {}", ENDINGS[ending.ending as usize], choices - left);
        }
    }
}

// The processor time that this process has had: a call that has to wait for others is not the slower for it.
fn processor_time() -> Duration {
    let mut time = Timespec { seconds: 0, nanoseconds: 0 };
    let failed = unsafe { clock_gettime(PROCESS_TIME, &mut time) };
    assert_eq!(failed, 0, "clock_gettime");
    Duration::new(time.seconds as u64, time.nanoseconds as u32)
}

fn timed(call: Call<Advice>, file: &[u8], lent: &mut Lent) -> Duration {
    let start = processor_time();
    std::hint::black_box(call(file, lent));
    processor_time() - start
}

// For each board the best time of many, and their sums compared. The calls take turns, so that what else the machine does meets both.
fn ratio() {
    for (name, kind) in KINDS {
        let (files, mut lent, start) = (measured(name, kind), lent(0), Instant::now());
        let mut best = vec![[Duration::MAX; 2]; files.len()];
        while start.elapsed() < Duration::from_secs(8) {
            for (file, times) in files.iter().zip(&mut best) {
                for (call, time) in ADVISES.into_iter().zip(times) {
                    *time = timed(call, file, &mut lent).min(*time);
                }
            }
        }
        let [ours, theirs] = [0, 1].map(|which| best.iter().map(|pair| pair[which]).sum::<Duration>());
        println!("time {name} {:.2}", ours.as_secs_f64() / theirs.as_secs_f64());
    }
}

fn speed(name: &str, seconds: f64) {
    let (_, kind) = KINDS.into_iter().find(|(other, _)| *other == name).expect("a kind");
    let (files, mut lent, [library, _]) = (measured(name, kind), lent(0), ADVISES);
    let (start, mut boards) = (Instant::now(), 0);
    while start.elapsed().as_secs_f64() < seconds {
        files.iter().for_each(|file| _ = std::hint::black_box(library(file, &mut lent)));
        boards += files.len();
    }
    println!("{boards} {:.6}", start.elapsed().as_secs_f64());
}

fn main() {
    let args: Vec<String> = std::env::args().collect();
    match args.iter().map(String::as_str).collect::<Vec<_>>()[1..] {
        ["check"] => check(),
        ["cost"] => cost(),
        ["search"] => search(),
        ["ratio"] => ratio(),
        ["speed", kind, seconds] => speed(kind, seconds.parse().expect("a number of seconds")),
        _ => panic!("check, cost, search, ratio, or speed KIND SECONDS"),
    }
}

// The library's calls beside the same methods in plain Rust, with what is lent to them.
use crate::board::{Advice, plain_advise};
use crate::row::TABLE;
use crate::search::{Ending, STACK, plain_search};
use std::fmt::Debug;

unsafe extern "C" {
    fn tanglepunt_advise(
        file: *const u8,
        n_file: usize,
        room: *mut u32,
        n_room: usize,
        forward: *mut u64,
        n_forward: usize,
        backward: *mut u64,
        n_backward: usize,
    ) -> Advice;

    fn tanglepunt_search(
        file: *const u8,
        n_file: usize,
        choices: *mut u64,
        room: *mut u32,
        n_room: usize,
        stack: *mut u32,
        n_stack: usize,
        forward: *mut u64,
        n_forward: usize,
        backward: *mut u64,
        n_backward: usize,
    ) -> Ending;
}

// What is lent to a call: a number of choices, and rooms a little longer than they have to be.
#[derive(Clone, Debug, PartialEq)]
pub struct Lent {
    pub choices: u64,
    room: Vec<u32>,
    stack: Vec<u32>,
    forward: Vec<u64>,
    backward: Vec<u64>,
}

pub fn lent(choices: u64) -> Lent {
    Lent { choices, room: vec![7; 66], stack: vec![6; STACK + 2], forward: vec![8; TABLE + 2], backward: vec![9; TABLE + 2] }
}

pub type Call<A> = fn(&[u8], &mut Lent) -> A;

// Each call of the library, and the same in plain Rust.
pub const ADVISES: [Call<Advice>; 2] = [library_advise, rust_advise];
pub const SEARCHES: [Call<Ending>; 2] = [library_search, rust_search];

fn library_advise(file: &[u8], l: &mut Lent) -> Advice {
    // The pointers are those of slices of these lengths, and the rooms are three vectors.
    unsafe {
        tanglepunt_advise(
            file.as_ptr(),
            file.len(),
            l.room.as_mut_ptr(),
            l.room.len(),
            l.forward.as_mut_ptr(),
            l.forward.len(),
            l.backward.as_mut_ptr(),
            l.backward.len(),
        )
    }
}

fn rust_advise(file: &[u8], l: &mut Lent) -> Advice {
    plain_advise(file, &mut l.room, &mut l.forward, &mut l.backward)
}

fn library_search(file: &[u8], l: &mut Lent) -> Ending {
    // The same, with a number and a fourth vector.
    unsafe {
        tanglepunt_search(
            file.as_ptr(),
            file.len(),
            &mut l.choices,
            l.room.as_mut_ptr(),
            l.room.len(),
            l.stack.as_mut_ptr(),
            l.stack.len(),
            l.forward.as_mut_ptr(),
            l.forward.len(),
            l.backward.as_mut_ptr(),
            l.backward.len(),
        )
    }
}

fn rust_search(file: &[u8], l: &mut Lent) -> Ending {
    plain_search(file, &mut l.choices, &mut l.room, &mut l.stack, &mut l.forward, &mut l.backward)
}

// What both calls answer, and the choices left; stops where the answers or anything lent differ.
pub fn both<A: Debug + PartialEq>(calls: [Call<A>; 2], file: &[u8], choices: u64) -> (A, u64) {
    let [(answer, ours), (other, theirs)] = calls.map(|call| {
        let mut lent = lent(choices);
        (call(file, &mut lent), lent)
    });
    assert_eq!(answer, other, "answers to {file:?} with {choices} choices");
    assert_eq!(ours, theirs, "what was lent, after {file:?} with {choices} choices");
    (answer, ours.choices)
}

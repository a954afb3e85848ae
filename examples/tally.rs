//! The same as tally.c: adds the number in its input, or 1 without input, to the number in its first key, and returns what stood
//! there before.
#![no_std]

use faasm::{input, Key};

const TALLY: Key = Key::at(0);

fn run() -> i32 {
    let mut step = [1, 0, 0, 0];
    input::read_front(&mut step);
    let _lock = TALLY.lock_global_write();
    TALLY.pull();
    let tally = &TALLY.map::<u32>()[0];
    let before = tally.get();
    tally.set(before.wrapping_add(u32::from_le_bytes(step)));
    TALLY.push();
    before as i32
}

faasm::main!(run);

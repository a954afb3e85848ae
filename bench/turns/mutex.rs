//! Threads add to one number under std's `Mutex`. Words: WAY THREADS TIMES. Prints the sum.
//!
//! WAY is `any`, where a thread may get the lock again at once, or `order`, where the threads come in turn, as they do at
//! a turn cell that all of them wait for.
use std::env;
use std::sync::{Condvar, Mutex};
use std::thread;

/// Adds so often, whenever the lock is free.
fn add_any(sum: &Mutex<u64>, times: u64) {
    for _ in 0..times {
        let mut held = sum.lock().expect("no thread panics");
        *held = held.wrapping_add(3);
    }
}

/// The sum, and whose turn it is.
struct InOrder {
    state: Mutex<(u64, u64)>,
    passed: Condvar,
}

/// Adds so often, each time when the turn is this thread's.
fn add_in_order(all: &InOrder, me: u64, threads: u64, times: u64) {
    for _ in 0..times {
        let held = all.state.lock().expect("no thread panics");
        let mut held = all.passed.wait_while(held, |(_, turn)| *turn != me).expect("no thread panics");
        *held = (held.0.wrapping_add(3), (me + 1) % threads);
        all.passed.notify_all();
    }
}

fn main() {
    let words: Vec<String> = env::args().skip(1).collect();
    let number = |k: usize| words[k].parse::<u64>().expect("a number");
    let (threads, times) = (number(1), number(2));
    let sum = Mutex::new(0);
    let all = InOrder { state: Mutex::new((0, 0)), passed: Condvar::new() };
    let in_order = words[0] == "order";
    thread::scope(|scope| {
        for me in 0..threads {
            let (sum, all) = (&sum, &all);
            scope.spawn(move || if in_order { add_in_order(all, me, threads, times) } else { add_any(sum, times) });
        }
    });
    let any = sum.into_inner().expect("no thread panics");
    let ordered = all.state.into_inner().expect("no thread panics").0;
    println!("{}", any + ordered);
}

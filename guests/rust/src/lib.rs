//! The host calls of a function, for Rust without std: state, locks, input, output and calls of other functions, without `unsafe` in
//! the function itself. `guests/build function.rs` makes the module.
//!
//! ```ignore
//! #![no_std]
//! use faasm::{output, Key};
//!
//! const TALLY: Key = Key::at(0); // the first of the function's `grants`
//!
//! fn run() -> i32 {
//!     let _lock = TALLY.lock_global_write();
//!     TALLY.pull();
//!     let tally = &TALLY.map::<u32>()[0];
//!     tally.set(tally.get() + 1);
//!     TALLY.push();
//!     output::write(b"counted\n");
//!     0
//! }
//!
//! faasm::main!(run);
//! ```
//!
//! A host call that the session's grants or limits forbid is a trap: the call ends there, and nothing is returned to the function.
//! Under "Traps" each call has those that it may meet, in the order of its checks. A call with a buffer beside them traps with
//! `buffer too long` above 65,536 bytes, and where it writes into state that was granted for reading only, with `denied`.
//!
//! A panic is the trap `unreachable`, as is a sum that overflows. Nothing of its message is printed.
#![no_std]
#![deny(missing_docs)]

mod calls;
mod entry;
pub mod host;
pub mod input;
pub mod output;
mod shared;
mod state;

pub use calls::{Child, Function, Outcome};
pub use shared::{Plain, Shared};
pub use state::{GlobalLock, Key, StateLock};

#[cfg(target_family = "wasm")]
#[panic_handler]
fn panic(_: &core::panic::PanicInfo<'_>) -> ! {
    core::arch::wasm32::unreachable()
}

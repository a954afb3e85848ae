//! Calls of other functions.

use crate::host::{self, buffer_in, buffer_out};

/// A function that this one may call.
#[derive(Clone, Copy, Debug, PartialEq, Eq)]
pub struct Function(u32);

impl Function {
    /// The function at this place of the function's `calls` in the session file, from 0. Where there is none, a call traps: bad function.
    pub const fn at(place: u32) -> Function {
        Function(place)
    }

    /// Calls it with this input and doesn't wait for it. Traps: bad function; chain full where a request with all calls below it would have
    /// more than 1,024 calls, or more than 2,097,152 bytes of inputs and rooms for output, or where this call has depth 8, a request
    /// having depth 1.
    pub fn chain(self, input: &[u8]) -> Child {
        let (ptr, len) = buffer_in(input);
        // SAFETY: the host reads these bytes.
        Child(unsafe { host::chain_call(self.0, ptr, len) })
    }
}

/// A call that this call has made.
#[derive(Clone, Copy, Debug, PartialEq, Eq)]
pub struct Child(u32);

/// How a call ended.
#[derive(Clone, Copy, Debug, PartialEq, Eq)]
pub enum Outcome {
    /// Its `main` returned this.
    Done(i32),
    /// It trapped.
    Trap,
    /// Its fuel was spent.
    FuelOut,
    /// It never began, since its function is broken.
    Broken,
    /// There was no memory for it.
    Want,
}

impl Child {
    /// Waits until it has ended, and says how. As often as you like.
    pub fn wait(self) -> Outcome {
        // SAFETY: the host call touches no memory of the module; so below too.
        let answer = unsafe { host::await_call(self.0) };
        match answer >> 32 {
            0 => Outcome::Done(answer as u32 as i32),
            1 => Outcome::Trap,
            2 => Outcome::FuelOut,
            3 => Outcome::Broken,
            _ => Outcome::Want,
        }
    }

    /// The length of its output in bytes, also where it trapped. Traps: bad child where it wasn't waited for.
    pub fn output_size(self) -> usize {
        unsafe { host::output_size(self.0) as usize }
    }

    /// Copies its output from `off` into these bytes. Traps: bad child where it wasn't waited for; call range where its output ends
    /// before.
    pub fn read_output(self, off: usize, bytes: &mut [u8]) {
        let (ptr, len) = buffer_out(bytes);
        // SAFETY: the host writes these bytes alone.
        unsafe { host::read_output(self.0, off as u32, ptr, len) }
    }
}

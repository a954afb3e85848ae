//! The output of this call.

use core::fmt;

use crate::host::{self, buffer_in};

/// Appends these bytes. Traps: output full where they don't fit in the function's `output`.
pub fn write(bytes: &[u8]) {
    let (ptr, len) = buffer_in(bytes);
    // SAFETY: the host reads these bytes.
    unsafe { host::write_output(ptr, len) }
}

/// The output as a place to write text to: `write!(Output, "{} words\n", n)`. Formatting makes a module larger by some thousand bytes.
#[derive(Clone, Copy, Debug)]
pub struct Output;

impl fmt::Write for Output {
    fn write_str(&mut self, text: &str) -> fmt::Result {
        write(text.as_bytes());
        Ok(())
    }
}

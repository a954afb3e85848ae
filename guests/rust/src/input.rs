//! The input of this call.

use crate::host::{self, buffer_out};

/// Its length in bytes, at most 65,536.
pub fn size() -> usize {
    // SAFETY: the host call touches no memory of the module.
    unsafe { host::input_size() as usize }
}

/// Copies it from `off` into these bytes. Traps: call range where it ends before.
pub fn read(off: usize, bytes: &mut [u8]) {
    let (ptr, len) = buffer_out(bytes);
    // SAFETY: the host writes these bytes alone.
    unsafe { host::read_input(off as u32, ptr, len) }
}

/// Copies its front, as far as it and these bytes go, and gives how many.
pub fn read_front(bytes: &mut [u8]) -> usize {
    let count = size().min(bytes.len());
    read(0, &mut bytes[..count]);
    count
}

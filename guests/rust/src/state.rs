//! Keys of the shared state and their locks.

use crate::host::{self, buffer_in, buffer_out};
use crate::shared::{Plain, Shared};

/// A key that the function was granted. It has one global value and, on each host, a replica of the same size; the calls of one host
/// share its replica, and a replica that is absent is filled from the global value by the first call that needs it.
#[derive(Clone, Copy, Debug, PartialEq, Eq)]
pub struct Key(u32);

impl Key {
    /// The key at this place of the function's `grants` in the session file, from 0. Where there is none, each use traps: bad key.
    pub const fn at(place: u32) -> Key {
        Key(place)
    }

    /// The size in bytes. Read. Traps: bad key.
    pub fn size(self) -> usize {
        // SAFETY: the host call touches no memory of the module; so for all without a comment of their own below.
        unsafe { host::state_size(self.0) as usize }
    }

    /// The used length of the global value in bytes: the end of what was appended. Read. Waits: global. Traps: bad key.
    pub fn used(self) -> usize {
        unsafe { host::state_used(self.0) as usize }
    }

    /// Maps the replica behind all memory and gives its values, as many as the key's size has whole ones; the same ones each time.
    /// Read. Waits: replica. Traps: bad key, too many mappings (a 17th key).
    pub fn map<T: Plain>(self) -> &'static [Shared<T>] {
        let count = self.size() / core::mem::size_of::<T>();
        // SAFETY: the mapping begins at a page and stays until the call ends; it has at least the key's size, and its bytes are
        // reached only through `Shared`.
        unsafe {
            let first = host::get_state(self.0) as usize as *const Shared<T>;
            core::slice::from_raw_parts(first, count)
        }
    }

    /// Copies the replica from `off` into these bytes. Read. Waits: replica. Traps: bad key, state range.
    pub fn read(self, off: usize, bytes: &mut [u8]) {
        let (ptr, len) = buffer_out(bytes);
        // SAFETY: the host writes these bytes alone.
        unsafe { host::read_state(self.0, off as u32, ptr, len) }
    }

    /// Copies these bytes into the replica at `off`. Write. Waits: replica. Traps: bad key, denied, state range.
    pub fn set(self, off: usize, bytes: &[u8]) {
        let (ptr, len) = buffer_in(bytes);
        // SAFETY: the host reads these bytes, and writes mapped state alone.
        unsafe { host::set_state(self.0, off as u32, ptr, len) }
    }

    /// Copies the whole replica over the global value. Write. Waits: both. Traps: bad key, denied.
    pub fn push(self) {
        unsafe { host::push_state(self.0) }
    }

    /// Copies the whole global value over the replica. Write. Waits: both. Traps: bad key, denied.
    pub fn pull(self) {
        unsafe { host::pull_state(self.0) }
    }

    /// As `push`, `len` bytes from `off` alone. Write. Waits: both. Traps: bad key, denied, state range.
    pub fn push_range(self, off: usize, len: usize) {
        unsafe { host::push_state_offset(self.0, off as u32, len as u32) }
    }

    /// As `pull`, `len` bytes from `off` alone. Write. Waits: both. Traps: bad key, denied, state range.
    pub fn pull_range(self, off: usize, len: usize) {
        unsafe { host::pull_state_offset(self.0, off as u32, len as u32) }
    }

    /// Appends these bytes to the global value in one step, and gives the used length before. Write. Waits: global. Traps: bad key,
    /// denied, append full.
    pub fn append(self, bytes: &[u8]) -> usize {
        let (ptr, len) = buffer_in(bytes);
        // SAFETY: the host reads these bytes.
        unsafe { host::append_state(self.0, ptr, len) as usize }
    }

    /// Takes the read lock of this host's replica until the guard is dropped: nobody writes it. Read. Waits. Traps: bad key, lock
    /// misuse (this call holds one already), too many locks (a 17th of the call).
    pub fn lock_state_read(self) -> StateLock {
        unsafe { host::lock_state_read(self.0) };
        StateLock(self)
    }

    /// Takes the write lock of this host's replica until the guard is dropped: nobody else reads or writes it. Write. Waits. Traps:
    /// bad key, denied, lock misuse, too many locks.
    pub fn lock_state_write(self) -> StateLock {
        unsafe { host::lock_state_write(self.0) };
        StateLock(self)
    }

    /// Takes the read lock of the global value until the guard is dropped. Read. Waits. Traps: bad key, lock misuse, too many locks.
    pub fn lock_global_read(self) -> GlobalLock {
        unsafe { host::lock_global_read(self.0) };
        GlobalLock(self)
    }

    /// Takes the write lock of the global value until the guard is dropped. Write. Waits. Traps: bad key, denied, lock misuse, too
    /// many locks.
    pub fn lock_global_write(self) -> GlobalLock {
        unsafe { host::lock_global_write(self.0) };
        GlobalLock(self)
    }
}

/// A lock on a replica, released where it is dropped. One that is forgotten is released at the end of the call.
#[must_use = "the lock is released where this is dropped"]
#[derive(Debug)]
pub struct StateLock(Key);

impl Drop for StateLock {
    fn drop(&mut self) {
        unsafe { host::unlock_state(self.0 .0) }
    }
}

/// A lock on a global value, released where it is dropped. One that is forgotten is released at the end of the call.
#[must_use = "the lock is released where this is dropped"]
#[derive(Debug)]
pub struct GlobalLock(Key);

impl Drop for GlobalLock {
    fn drop(&mut self) {
        unsafe { host::unlock_global(self.0 .0) }
    }
}

//! Values in mapped state, which other calls may change at any time.

use core::cell::UnsafeCell;

/// Numbers of which each content of their bytes is one: what may be looked at in mapped state.
///
/// # Safety
///
/// Each content of as many bytes as the type has is a value of it, it has no drop, and its alignment divides 65,536.
pub unsafe trait Plain: Copy + 'static {}

macro_rules! plain {
    ($($number:ty)*) => { $(unsafe impl Plain for $number {})* };
}

plain!(u8 u16 u32 u64 i8 i16 i32 i64);

/// One value in mapped state. Each `get` loads it and each `set` stores it, one operation on the replica; between two of them another
/// call of the host may change it, unless a lock forbids that.
#[repr(transparent)]
pub struct Shared<T>(UnsafeCell<T>);

impl<T: Plain> Shared<T> {
    /// Loads the value. Waits for a write lock of another call on the replica.
    pub fn get(&self) -> T {
        // SAFETY: the value lies in mapped state, which stays mapped; each content of its bytes is a value.
        unsafe { core::ptr::read_volatile(self.0.get()) }
    }

    /// Stores the value. Waits for each lock of another call on the replica. Traps: denied.
    pub fn set(&self, value: T) {
        // SAFETY: as for `get`; nobody holds a reference to the value itself.
        unsafe { core::ptr::write_volatile(self.0.get(), value) }
    }
}

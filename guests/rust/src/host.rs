//! The 23 host calls as they are imported, for who needs one as it is. `k` is a key's place among the function's grants, `f` a place
//! among its callable functions, `c` the number of a child in the order in which this call made them, each from 0. The header
//! `guests/faasm.h` has their units and traps.
#![allow(missing_docs)]

#[cfg_attr(target_family = "wasm", link(wasm_import_module = "faasm"))]
extern "C" {
    pub fn state_size(k: u32) -> u32;
    pub fn state_used(k: u32) -> u32;
    pub fn get_state(k: u32) -> u32;
    pub fn read_state(k: u32, off: u32, ptr: u32, len: u32);
    pub fn set_state(k: u32, off: u32, ptr: u32, len: u32);
    pub fn push_state(k: u32);
    pub fn pull_state(k: u32);
    pub fn push_state_offset(k: u32, off: u32, len: u32);
    pub fn pull_state_offset(k: u32, off: u32, len: u32);
    pub fn append_state(k: u32, ptr: u32, len: u32) -> u32;
    pub fn lock_state_read(k: u32);
    pub fn lock_state_write(k: u32);
    pub fn unlock_state(k: u32);
    pub fn lock_global_read(k: u32);
    pub fn lock_global_write(k: u32);
    pub fn unlock_global(k: u32);
    pub fn input_size() -> u32;
    pub fn read_input(off: u32, ptr: u32, len: u32);
    pub fn write_output(ptr: u32, len: u32);
    pub fn chain_call(f: u32, ptr: u32, len: u32) -> u32;
    pub fn await_call(c: u32) -> u64;
    pub fn output_size(c: u32) -> u32;
    pub fn read_output(c: u32, off: u32, ptr: u32, len: u32);
}

/// The address and the length of bytes that a host call reads.
pub(crate) fn buffer_in(bytes: &[u8]) -> (u32, u32) {
    (bytes.as_ptr() as usize as u32, bytes.len() as u32)
}

/// The address and the length of bytes that a host call writes.
pub(crate) fn buffer_out(bytes: &mut [u8]) -> (u32, u32) {
    (bytes.as_mut_ptr() as usize as u32, bytes.len() as u32)
}

//! Zeros to lend, of any length. Only touched pages take memory, so a test can lend more than the machine has.

use std::{mem, ptr, slice};

extern "C" {
    fn mmap(at: *mut u8, bytes: usize, protection: i32, flags: i32, file: i32, offset: i64) -> *mut u8;
}

// Linux's numbers on x86-64.
const READ_AND_WRITE: i32 = 1 | 2;
const PRIVATE: i32 = 0x2;
const ANONYMOUS: i32 = 0x20;
const NO_RESERVE: i32 = 0x4000;
const FAILED: usize = usize::MAX;

/// The entries of stores and inputs. Zero bytes are a valid value of each.
pub trait Number {}
impl Number for u8 {}
impl Number for u32 {}
impl Number for u64 {}
impl Number for i64 {}

/// Returns `length` zeros that live until the program ends.
pub fn zeros<T: Number>(length: usize) -> &'static mut [T] {
    let flags = PRIVATE | ANONYMOUS | NO_RESERVE;
    // SAFETY: the memory is new, so nothing else refers to it. It holds zeros and is never unmapped. It begins at a
    // page boundary, so it is aligned.
    unsafe {
        let first = mmap(ptr::null_mut(), length * mem::size_of::<T>(), READ_AND_WRITE, flags, -1, 0);
        assert_ne!(first as usize, FAILED, "the system lends no {length} numbers");
        slice::from_raw_parts_mut(first.cast(), length)
    }
}

//! The proved library's functions, and all unsafe code. A slice crosses as a pointer and a length.
//!
//! No compiler checks these declarations against `crates/trovespan/src/lib.rt`. `tests/crate/run` does, word by word,
//! and the crate's tests call each function.
//!
//! What each function asks of its caller:
//!
//! - Every pointer is valid for the length beside it, or for one number, and is aligned.
//! - What is written overlaps nothing else that is lent.
//! - Nobody changes the lent bytes during the call. The functions judge first and then write without a check at run
//!   time, so bytes that change in between may make them write past the end of a store.
//!
//! Rust's borrows guarantee all three. A slice of a shared memory mapping that another process writes breaks the third,
//! and is no valid `&[u8]` in the first place.
//!
//! The functions ask for no more: they are proved for any contents and lengths, read and write only within them, and
//! keep no pointer. They read nothing through the pointer of an empty slice.
#![deny(unsafe_op_in_unsafe_fn, clippy::undocumented_unsafe_blocks)]

mod c {
    extern "C" {
        pub fn trovespan_open(file: *const u8, file_len: usize, value: *mut u64, used: *mut u64) -> u32;
        pub fn trovespan_stream_count(file: *const u8, file_len: usize, value: *mut u64) -> u32;
        pub fn trovespan_map(
            file: *const u8,
            file_len: usize,
            stream: u32,
            limited: bool,
            limit: usize,
            offsets: *mut u64,
            offsets_len: usize,
            sizes: *mut u64,
            sizes_len: usize,
            value: *mut u64,
            total: *mut u64,
        ) -> u32;
        pub fn trovespan_extract(
            file: *const u8,
            file_len: usize,
            stream: u32,
            limited: bool,
            limit: usize,
            out: *mut u8,
            out_len: usize,
            value: *mut u64,
        ) -> u32;
        pub fn trovespan_needed_to_map(
            file: *const u8,
            file_len: usize,
            directory: bool,
            offsets: *mut u64,
            offsets_len: usize,
            sizes: *mut u64,
            sizes_len: usize,
            value: *mut u64,
            total: *mut u64,
        ) -> u32;
        pub fn trovespan_number(
            bytes: *const u8,
            bytes_len: usize,
            at: usize,
            value: *mut u64,
            taken: *mut u64,
            shortest: *mut u64,
            next: *mut u64,
        ) -> u32;
        pub fn trovespan_step(
            bytes: *const u8,
            bytes_len: usize,
            at: usize,
            value: *mut u64,
            first: *mut i64,
            second: *mut i64,
            shortest: *mut u64,
            next: *mut u64,
        ) -> u32;
        pub fn trovespan_decode(
            bytes: *const u8,
            bytes_len: usize,
            store: *mut i64,
            store_len: usize,
            value: *mut u64,
            place: *mut u64,
        ) -> u32;
        pub fn trovespan_run_lines(
            bytes: *const u8,
            bytes_len: usize,
            store: *mut i64,
            store_len: usize,
            value: *mut u64,
            place: *mut u64,
        ) -> u32;
        pub fn trovespan_write_annotations(
            records: *const i64,
            records_len: usize,
            out: *mut u8,
            out_len: usize,
            value: *mut u64,
        ) -> u32;
        pub fn trovespan_write_container(
            page_size: u32,
            sizes: *const u32,
            sizes_len: usize,
            bytes: *const u8,
            bytes_len: usize,
            out: *mut u8,
            out_len: usize,
            value: *mut u64,
        ) -> u32;
    }
}

/// The opcode of a step at the end.
pub const NO_OPCODE: u32 = 0;

/// The flag of a number, or of an annotation's numbers, in their shortest form.
pub const SHORTEST: u64 = 1;

/// The length of a line record that has none.
pub const NO_LENGTH: i64 = -1;

pub fn open(file: &[u8]) -> (u32, u64, u64) {
    let (mut value, mut used) = (0, 0);
    // SAFETY: `file` is borrowed for the call, with its own length; `value` and `used` are different local numbers.
    let number = unsafe { c::trovespan_open(file.as_ptr(), file.len(), &mut value, &mut used) };
    (number, value, used)
}

pub fn stream_count(file: &[u8]) -> (u32, u64) {
    let mut value = 0;
    // SAFETY: `file` is borrowed for the call, with its own length; `value` is a local number.
    let number = unsafe { c::trovespan_stream_count(file.as_ptr(), file.len(), &mut value) };
    (number, value)
}

pub fn map(file: &[u8], stream: u32, limit: Option<usize>, offsets: &mut [u64], sizes: &mut [u64]) -> (u32, u64, u64) {
    let (mut value, mut total) = (0, 0);
    // SAFETY: `file`, `offsets` and `sizes` are borrowed for the call, each with its own length, and the two stores
    // mutably, so they overlap nothing; `value` and `total` are different local numbers.
    let number = unsafe {
        c::trovespan_map(
            file.as_ptr(),
            file.len(),
            stream,
            limit.is_some(),
            limit.unwrap_or(0),
            offsets.as_mut_ptr(),
            offsets.len(),
            sizes.as_mut_ptr(),
            sizes.len(),
            &mut value,
            &mut total,
        )
    };
    (number, value, total)
}

pub fn extract(file: &[u8], stream: u32, limit: Option<usize>, out: &mut [u8]) -> (u32, u64) {
    let mut value = 0;
    // SAFETY: `file` and `out` are borrowed for the call, each with its own length, and `out` mutably, so they do not
    // overlap; `value` is a local number.
    let number = unsafe {
        c::trovespan_extract(
            file.as_ptr(),
            file.len(),
            stream,
            limit.is_some(),
            limit.unwrap_or(0),
            out.as_mut_ptr(),
            out.len(),
            &mut value,
        )
    };
    (number, value)
}

pub fn needed_to_map(file: &[u8], directory: bool, offsets: &mut [u64], sizes: &mut [u64]) -> (u32, u64, u64) {
    let (mut value, mut total) = (0, 0);
    // SAFETY: `file`, `offsets` and `sizes` are borrowed for the call, each with its own length, and the two stores
    // mutably, so they overlap nothing; `value` and `total` are different local numbers.
    let number = unsafe {
        c::trovespan_needed_to_map(
            file.as_ptr(),
            file.len(),
            directory,
            offsets.as_mut_ptr(),
            offsets.len(),
            sizes.as_mut_ptr(),
            sizes.len(),
            &mut value,
            &mut total,
        )
    };
    (number, value, total)
}

pub fn number(bytes: &[u8], at: usize) -> (u32, u64, u64, u64, u64) {
    let (mut value, mut taken, mut shortest, mut next) = (0, 0, 0, 0);
    // SAFETY: `bytes` is borrowed for the call, with its own length; `value`, `taken`, `shortest` and `next` are
    // different local numbers.
    let number = unsafe {
        c::trovespan_number(bytes.as_ptr(), bytes.len(), at, &mut value, &mut taken, &mut shortest, &mut next)
    };
    (number, value, taken, shortest, next)
}

#[inline]
pub fn step(bytes: &[u8], at: usize) -> (u32, u64, i64, i64, u64, u64) {
    let (mut value, mut first, mut second, mut shortest, mut next) = (0, 0, 0, 0, 0);
    // SAFETY: `bytes` is borrowed for the call, with its own length; `value`, `first`, `second`, `shortest` and `next`
    // are different local numbers.
    let number = unsafe {
        c::trovespan_step(
            bytes.as_ptr(),
            bytes.len(),
            at,
            &mut value,
            &mut first,
            &mut second,
            &mut shortest,
            &mut next,
        )
    };
    (number, value, first, second, shortest, next)
}

pub fn decode(bytes: &[u8], store: &mut [i64]) -> (u32, u64, u64) {
    let (mut value, mut place) = (0, 0);
    // SAFETY: `bytes` and `store` are borrowed for the call, each with its own length, and `store` mutably, so they do
    // not overlap; `value` and `place` are different local numbers.
    let number = unsafe {
        c::trovespan_decode(bytes.as_ptr(), bytes.len(), store.as_mut_ptr(), store.len(), &mut value, &mut place)
    };
    (number, value, place)
}

pub fn run_lines(bytes: &[u8], store: &mut [i64]) -> (u32, u64, u64) {
    let (mut value, mut place) = (0, 0);
    // SAFETY: `bytes` and `store` are borrowed for the call, each with its own length, and `store` mutably, so they do
    // not overlap; `value` and `place` are different local numbers.
    let number = unsafe {
        c::trovespan_run_lines(bytes.as_ptr(), bytes.len(), store.as_mut_ptr(), store.len(), &mut value, &mut place)
    };
    (number, value, place)
}

pub fn write_annotations(records: &[i64], out: &mut [u8]) -> (u32, u64) {
    let mut value = 0;
    // SAFETY: `records` and `out` are borrowed for the call, each with its own length, and `out` mutably, so they do not
    // overlap; `value` is a local number.
    let number = unsafe {
        c::trovespan_write_annotations(records.as_ptr(), records.len(), out.as_mut_ptr(), out.len(), &mut value)
    };
    (number, value)
}

pub fn write_container(page_size: u32, sizes: &[u32], bytes: &[u8], out: &mut [u8]) -> (u32, u64) {
    let mut value = 0;
    // SAFETY: `sizes`, `bytes` and `out` are borrowed for the call, each with its own length, and `out` mutably, so it
    // does not overlap the others; `value` is a local number.
    let number = unsafe {
        c::trovespan_write_container(
            page_size,
            sizes.as_ptr(),
            sizes.len(),
            bytes.as_ptr(),
            bytes.len(),
            out.as_mut_ptr(),
            out.len(),
            &mut value,
        )
    };
    (number, value)
}

//! Each number that crosses to the library, or back, keeps all its bits.
//!
//! Some of the library's numbers are large only for inputs that no test can lend, such as 2^32 annotations. So
//! functions of the same names stand in for the library here: the linker prefers a program's own functions. Each
//! returns the first byte or number that it is lent, and writes numbers of 64 bits: those that it is given, or `VALUE`
//! and `OTHER`. A flag is the last bit of the place.

mod fields;

use fields::{map_counts, opened, stepped, Found};
use trovespan::{
    annotations, decode, extract, needed_to_map, number, run_lines, slice_count, stream_count, stream_length,
    write_annotations, write_container, DecodeRefusal, Number, Refusal, Stage,
};

const VALUE: u64 = 0xfedc_ba98_7654_3210;
const OTHER: u64 = 0xf0e1_d2c3_b4a5_9687;

// These functions read and write what `rust/src/ffi.rs` lends them.

#[no_mangle]
unsafe extern "C" fn trovespan_open(file: *const u8, _: usize, value: *mut u64, used: *mut u64) -> u32 {
    (*value, *used) = (VALUE, OTHER);
    u32::from(*file)
}

#[no_mangle]
unsafe extern "C" fn trovespan_stream_count(file: *const u8, _: usize, value: *mut u64) -> u32 {
    *value = VALUE;
    u32::from(*file)
}

#[no_mangle]
unsafe extern "C" fn trovespan_map(
    file: *const u8,
    _: usize,
    _: u32,
    limited: bool,
    limit: usize,
    _: *mut u64,
    _: usize,
    _: *mut u64,
    _: usize,
    value: *mut u64,
    total: *mut u64,
) -> u32 {
    (*value, *total) = (VALUE, if limited { limit as u64 } else { OTHER });
    u32::from(*file)
}

#[no_mangle]
unsafe extern "C" fn trovespan_extract(
    file: *const u8,
    _: usize,
    _: u32,
    limited: bool,
    limit: usize,
    _: *mut u8,
    _: usize,
    value: *mut u64,
) -> u32 {
    *value = if limited { limit as u64 } else { VALUE };
    u32::from(*file)
}

#[no_mangle]
unsafe extern "C" fn trovespan_needed_to_map(
    file: *const u8,
    _: usize,
    directory: bool,
    _: *mut u64,
    _: usize,
    _: *mut u64,
    _: usize,
    value: *mut u64,
    total: *mut u64,
) -> u32 {
    (*value, *total) = if directory { (VALUE, OTHER) } else { (OTHER, VALUE) };
    u32::from(*file)
}

#[no_mangle]
unsafe extern "C" fn trovespan_number(
    bytes: *const u8,
    _: usize,
    at: usize,
    value: *mut u64,
    taken: *mut u64,
    shortest: *mut u64,
    next: *mut u64,
) -> u32 {
    (*value, *taken, *shortest, *next) = (VALUE, OTHER, at as u64 % 2, at as u64);
    u32::from(*bytes)
}

#[no_mangle]
unsafe extern "C" fn trovespan_step(
    bytes: *const u8,
    _: usize,
    at: usize,
    value: *mut u64,
    first: *mut i64,
    second: *mut i64,
    shortest: *mut u64,
    next: *mut u64,
) -> u32 {
    (*value, *first, *second) = (VALUE, i64::MIN + 1, i64::MAX - 1);
    (*shortest, *next) = (at as u64 % 2, at as u64);
    u32::from(*bytes)
}

#[no_mangle]
unsafe extern "C" fn trovespan_decode(
    bytes: *const u8,
    _: usize,
    _: *mut i64,
    _: usize,
    value: *mut u64,
    place: *mut u64,
) -> u32 {
    (*value, *place) = (VALUE, OTHER);
    u32::from(*bytes)
}

#[no_mangle]
unsafe extern "C" fn trovespan_run_lines(
    bytes: *const u8,
    _: usize,
    _: *mut i64,
    _: usize,
    value: *mut u64,
    place: *mut u64,
) -> u32 {
    (*value, *place) = (VALUE, OTHER);
    u32::from(*bytes)
}

#[no_mangle]
unsafe extern "C" fn trovespan_write_annotations(
    records: *const i64,
    _: usize,
    _: *mut u8,
    _: usize,
    value: *mut u64,
) -> u32 {
    *value = VALUE;
    *records as u32
}

#[no_mangle]
unsafe extern "C" fn trovespan_write_container(
    page_size: u32,
    sizes: *const u32,
    _: usize,
    _: *const u8,
    _: usize,
    _: *mut u8,
    _: usize,
    value: *mut u64,
) -> u32 {
    *value = if page_size == 0 { VALUE } else { page_size.into() };
    *sizes
}

fn refusal(number: u32) -> Refusal {
    Refusal { number, value: VALUE }
}

#[test]
fn opening_and_counting() {
    assert_eq!(opened(&[0]), Ok((VALUE as u32, OTHER as u32)));
    assert_eq!(opened(&[3]), Err(refusal(3)));
    assert_eq!(stream_count(&[0]), Ok(VALUE as u32));
    assert_eq!(stream_count(&[4]), Err(refusal(4)));
}

#[test]
fn mapping() {
    let mapped = |length: u64| Ok((VALUE as usize, length as usize));
    assert_eq!(map_counts(&[0], 0, None, &mut [], &mut []), mapped(OTHER));
    for limit in [0, 1 << 16, 1 << 32, OTHER, u64::MAX] {
        assert_eq!(map_counts(&[0], 0, Some(limit as usize), &mut [], &mut []), mapped(limit));
    }
    assert_eq!(map_counts(&[10], 0, None, &mut [], &mut []), Err(refusal(10)));
}

#[test]
fn extracting() {
    assert_eq!(extract(&[0], 0, None, &mut []), Ok(VALUE as usize));
    for limit in [0, 1 << 16, 1 << 32, OTHER, u64::MAX] {
        assert_eq!(extract(&[0], 0, Some(limit as usize), &mut []), Ok(limit as usize));
    }
    assert_eq!(extract(&[10], 0, None, &mut []), Err(refusal(10)));
}

#[test]
fn what_mapping_needs() {
    for (stage, value, total) in [(Stage::Directory, VALUE, OTHER), (Stage::LocationList, OTHER, VALUE)] {
        let needed = |number| needed_to_map(&[number], stage, &mut [], &mut []);
        let counts = needed(0).map(|mapped| (mapped.slices, mapped.length));
        assert_eq!(counts, Ok((value as usize, total as usize)));
        for number in [4, 10] {
            assert_eq!(needed(number), Err(Refusal { number: number.into(), value }));
        }
    }
}

#[test]
fn lengths_and_slice_counts() {
    for file in [[0], [10]] {
        assert_eq!(stream_length(&file, 0), Ok(VALUE as usize));
        assert_eq!(slice_count(&file, 0), Ok(VALUE as usize));
    }
    assert_eq!(stream_length(&[6], 0), Err(refusal(6)));
    assert_eq!(slice_count(&[5], 0), Err(refusal(5)));
}

#[test]
#[cfg(feature = "alloc")]
fn what_is_too_long() {
    use trovespan::{extract_to_vec, map_to_vec, ExtractError, MapError};

    for at_most in [0, VALUE as u32 as usize, VALUE as usize - 1] {
        let too_long = ExtractError::TooLong { length: VALUE as usize, at_most };
        assert_eq!(extract_to_vec(&[10], 0, at_most), Err(too_long));
        let too_many = MapError::TooMany { slices: VALUE as usize, at_most };
        assert_eq!(map_to_vec(&[10], 0, at_most), Err(too_many));
    }
}

/// The stand-in's opcode is none of the thirteen, and its step stays where it is.
#[test]
fn an_opcode_that_has_no_name() {
    let why = annotations(&[0]).next().unwrap().unwrap_err();
    assert_eq!(why.refusal, Refusal { number: 9, value: (VALUE as u32).into() });
    assert_eq!((why.at, why.next), (0, 0));
}

#[test]
fn numbers_and_steps() {
    for at in [0, 1 << 16, 1 << 32, OTHER, u64::MAX].map(|at| at as usize) {
        let shortest = at % 2 == 1;
        let read = Number { value: VALUE as u32, taken: OTHER as usize, shortest };
        let found = Found::Annotation(VALUE as u32, i64::MIN + 1, i64::MAX - 1, shortest);
        assert_eq!(number(&[0], at), (Ok(read), at));
        assert_eq!(number(&[8], at), (Err(refusal(8)), at));
        assert_eq!(stepped(&[0], at), (found, at));
        assert_eq!(stepped(&[9], at), (Found::Refused(refusal(9)), at));
    }
}

#[test]
fn decoding() {
    assert_eq!(decode(&[0], &mut []), Ok(VALUE as usize));
    assert_eq!(decode(&[9], &mut []), Err(DecodeRefusal { refusal: refusal(9), place: Some(OTHER as usize) }));
    assert_eq!(decode(&[10], &mut []), Err(DecodeRefusal { refusal: refusal(10), place: None }));
}

#[test]
fn running_lines() {
    let refused = |number: u8, place| Err(DecodeRefusal { refusal: refusal(number.into()), place });
    assert_eq!(run_lines(&[0], &mut []), Ok(VALUE as usize));
    for number in [7, 8, 9] {
        assert_eq!(run_lines(&[number], &mut []), refused(number, Some(OTHER as usize)));
    }
    for number in [10, 25] {
        assert_eq!(run_lines(&[number], &mut []), refused(number, None));
    }
}

#[test]
fn writing_annotations() {
    assert_eq!(write_annotations(&[0], &mut []), Ok(VALUE as usize));
    for number in [10, 20, 21] {
        assert_eq!(write_annotations(&[number], &mut []), Err(refusal(number as u32)));
    }
}

#[test]
fn writing_containers() {
    assert_eq!(write_container(0, &[0], &[], &mut []), Ok(VALUE as usize));
    for page_size in [1, 1 << 16, OTHER as u32, u32::MAX] {
        assert_eq!(write_container(page_size, &[0], &[], &mut []), Ok(page_size as usize));
    }
    for number in [3, 10, 22, 23, 24] {
        assert_eq!(write_container(0, &[number], &[], &mut []), Err(refusal(number)));
    }
}

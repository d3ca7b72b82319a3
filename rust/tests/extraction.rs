//! Whole streams: lengths, bytes, and what is allocated for them.

mod counting;
mod files;

use counting::counted;
use files::*;
use std::error::Error;
use trovespan::{extract_to_vec, stream_length, ExtractError, Refusal, AT_MOST};

fn refusal(number: u32, value: u64) -> Refusal {
    Refusal { number, value }
}

/// Files and streams that are refused, one for each refusal that extraction without a limit has.
fn refused() -> Vec<(Vec<u8>, u32, Refusal)> {
    vec![
        (vec![], 0, refusal(1, 0)),
        (f_headed(SMALL_MAGIC), 0, refusal(2, 0)),
        (f_with(PAGE_SIZE, 0x180), 2, refusal(3, 0x180)),
        (f_with(LAST_PAGE, 25), 2, refusal(4, 25)),
        (f(), 1, refusal(5, 1)),
        (f(), 3, refusal(5, 3)),
        (f_past(LAST_PAGE), 2, refusal(6, 0)),
        (f_cut(5419), 0, refusal(6, 0)),
        (f_with(DIRECTORY_SIZE, 35), 2, refusal(7, 0)),
    ]
}

#[test]
fn lengths() {
    assert_eq!(stream_length(&f(), 0), Ok(300));
    assert_eq!(stream_length(&f(), 2), Ok(600));
    assert_eq!(stream_length(&f_with(SIZE_0, 0), 0), Ok(0));
}

#[test]
fn bytes() {
    assert_eq!(extract_to_vec(&f(), 0, AT_MOST), Ok(stream_0()));
    assert_eq!(extract_to_vec(&f(), 2, AT_MOST), Ok(stream_2()));
    assert_eq!(extract_to_vec(&f_with(SIZE_0, 0), 0, 0), Ok(vec![]));
}

#[test]
fn at_most() {
    for at_most in [600, 601, usize::MAX] {
        assert_eq!(extract_to_vec(&f(), 2, at_most), Ok(stream_2()));
    }
    for at_most in [0, 1, 599] {
        assert_eq!(extract_to_vec(&f(), 2, at_most), Err(ExtractError::TooLong { length: 600, at_most }));
    }
}

#[test]
fn refusals() {
    for (file, stream, why) in refused() {
        assert_eq!(stream_length(&file, stream), Err(why));
        for at_most in [0, AT_MOST] {
            let (answer, asked) = counted(|| extract_to_vec(&file, stream, at_most));
            assert_eq!((answer, asked), (Err(ExtractError::Refused(why)), 0));
        }
    }
}

#[test]
fn only_the_answer_is_allocated() {
    let file = f();
    assert_eq!(counted(|| extract_to_vec(&file, 2, AT_MOST)), (Ok(stream_2()), 600));
    assert_eq!(counted(|| extract_to_vec(&file, 2, 599).is_err()), (true, 0));
}

#[test]
fn a_long_stream_of_a_small_file_is_not_allocated() {
    let file = hostile();
    assert_eq!(file.len(), 28_672);
    assert_eq!(counted(|| stream_length(&file, 0)), (Ok(HOSTILE_LENGTH), 0));
    for at_most in [0, AT_MOST, HOSTILE_LENGTH - 1] {
        let too_long = Err(ExtractError::TooLong { length: HOSTILE_LENGTH, at_most });
        assert_eq!(counted(|| extract_to_vec(&file, 0, at_most)), (too_long, 0));
    }
}

#[test]
fn errors_in_words() {
    let too_long = ExtractError::TooLong { length: 600, at_most: 5 };
    assert_eq!(too_long.to_string(), "the stream has 600 bytes, and at most 5 are allowed");
    assert!(too_long.source().is_none());
    let refused = ExtractError::Refused(refusal(5, 7));
    assert_eq!(refused.to_string(), "refused 5: there is no stream 7");
    assert_eq!(refused.source().unwrap().to_string(), refused.to_string());
}

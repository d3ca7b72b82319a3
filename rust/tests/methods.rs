//! `Container` and `Stream`: each method answers as the function of its name, and allocates no more than allowed.

mod counting;
mod fields;
mod files;

use counting::counted;
use fields::{map_counts, opened};
use files::*;
use std::error::Error;
use trovespan::{extract_to_vec, slice_count, stream_count, stream_length};
use trovespan::{Container, ExtractError, MapError, Refusal, AT_MOST, AT_MOST_SLICES};

fn refusal(number: u32, value: u64) -> Refusal {
    Refusal { number, value }
}

/// Files that open.
fn files() -> Vec<Vec<u8>> {
    vec![
        f(),
        f_cut(5419),
        f_past(LAST_PAGE),
        f_past(LOCATION_LIST),
        f_with(COUNT, u32::MAX),
        f_with(SIZE_0, 0),
        f_with(LAST_PAGE, 25),
        f_with(DIRECTORY_SIZE, 3),
        f_with(DIRECTORY_SIZE, 35),
    ]
}

/// The slices of a stream as pairs.
fn slices(file: &[u8], stream: u32, at_most: usize) -> Result<Vec<(u64, u64)>, MapError> {
    let slices = Container::open(file)?.stream(stream).slices(at_most)?;
    Ok(slices.iter().map(|slice| (slice.offset, slice.size)).collect())
}

#[test]
fn opens_what_opens() {
    for (file, why) in [
        (vec![], refusal(1, 0)),
        (f_headed(SMALL_MAGIC), refusal(2, 0)),
        (f_with(PAGE_SIZE, 0), refusal(3, 0)),
        (f_with(LOCATION_ENTRY, 25), refusal(4, 25)),
        (f_overfull(), refusal(7, 0)),
    ] {
        assert_eq!(Container::open(&file).unwrap_err(), why);
    }
}

#[test]
fn methods_are_functions() {
    for file in files() {
        let container = Container::open(&file).unwrap();
        assert_eq!(container.file(), file);
        assert_eq!(container.header().map(|header| (header.page_size, header.pages_used)), opened(&file));
        assert_eq!(container.stream_count(), stream_count(&file));
        for number in [0, 1, 2, 3, u32::MAX] {
            let stream = container.stream(number);
            assert_eq!((stream.number(), stream.container().file()), (number, &file[..]));
            assert_eq!(stream.length(), stream_length(&file, number));
            assert_eq!(stream.slice_count(), slice_count(&file, number));
            for at_most in [0, 300, AT_MOST] {
                assert_eq!(stream.bytes(at_most), extract_to_vec(&file, number, at_most));
            }
            for limit in [None, Some(0), Some(513)] {
                let (mut out, mut wanted) = ([7; 600], [7; 600]);
                assert_eq!(stream.extract(limit, &mut out), trovespan::extract(&file, number, limit, &mut wanted));
                assert_eq!(out, wanted);
                let (mut offsets, mut sizes) = ([7; 2], [7; 2]);
                let (mut wanted_offsets, mut wanted_sizes) = ([7; 2], [7; 2]);
                let mapped = stream.map(limit, &mut offsets, &mut sizes);
                let wanted = map_counts(&file, number, limit, &mut wanted_offsets, &mut wanted_sizes);
                assert_eq!(mapped.map(|mapped| (mapped.slices, mapped.length)), wanted);
                assert_eq!((offsets, sizes), (wanted_offsets, wanted_sizes));
            }
        }
    }
}

#[test]
fn slices_of_streams() {
    assert_eq!(slices(&f(), 0, 1), Ok(vec![(5120, 300)]));
    assert_eq!(slices(&f(), 2, AT_MOST_SLICES), Ok(vec![(2560, 512), (1280, 88)]));
    assert_eq!(slices(&f_with(SIZE_0, 0), 0, 0), Ok(vec![]));
    assert_eq!(slices(&f_past(LAST_PAGE), 2, 2), Ok(vec![(2560, 512), (6144, 88)]));
    for at_most in [0, 1] {
        assert_eq!(slices(&f(), 2, at_most), Err(MapError::TooMany { slices: 2, at_most }));
    }
    assert_eq!(slices(&f(), 1, AT_MOST_SLICES), Err(MapError::Refused(refusal(5, 1))));
}

#[test]
fn bytes_of_slices() {
    let file = f();
    let parts = |file: &[u8], stream: u32| -> Option<Vec<u8>> {
        let slices = Container::open(file).unwrap().stream(stream).slices(AT_MOST_SLICES).unwrap();
        let parts: Option<Vec<&[u8]>> = slices.iter().map(|slice| slice.bytes(file)).collect();
        Some(parts?.concat())
    };
    assert_eq!(parts(&file, 0), Some(stream_0()));
    assert_eq!(parts(&file, 2), Some(stream_2()));
    assert_eq!(parts(&f_past(LAST_PAGE), 2), None);
    assert_eq!(parts(&f_cut(5419), 0), None);
    assert_eq!(parts(&f_cut(5420), 0), Some(stream_0()));
}

#[test]
fn a_hostile_file_is_not_allocated() {
    let file = hostile();
    let stream = Container::open(&file).unwrap().stream(0);
    assert_eq!(counted(|| stream.length()), (Ok(HOSTILE_LENGTH), 0));
    assert_eq!(counted(|| stream.slice_count()), (Ok(1_000_000), 0));
    let too_long = Err(ExtractError::TooLong { length: HOSTILE_LENGTH, at_most: AT_MOST });
    assert_eq!(counted(|| stream.bytes(AT_MOST)), (too_long, 0));
    let too_many = Err(MapError::TooMany { slices: 1_000_000, at_most: 999_999 });
    assert_eq!(counted(|| stream.slices(999_999)), (too_many, 0));
}

/// So it has no answer of an earlier call to trust.
#[test]
fn a_container_keeps_only_the_file() {
    assert_eq!(std::mem::size_of::<Container>(), std::mem::size_of::<&[u8]>());
}

#[test]
fn a_slice_takes_32_bytes() {
    let file = f();
    let stream = Container::open(&file).unwrap().stream(2);
    assert!(counted(|| stream.slices(2).unwrap()).1 <= 2 * 32);
    assert_eq!(AT_MOST_SLICES * 32, AT_MOST);
}

#[test]
fn in_words() {
    let file = f();
    let container = Container::open(&file).unwrap();
    assert_eq!(format!("{container:?}"), "Container { file_length: 6144 }");
    let too_many = MapError::TooMany { slices: 2, at_most: 1 };
    assert_eq!(too_many.to_string(), "the stream has 2 slices, and at most 1 are allowed");
    assert!(too_many.source().is_none());
    let refused = MapError::Refused(refusal(5, 1));
    assert_eq!(refused.to_string(), "refused 5: there is no stream 1");
    assert_eq!(refused.source().unwrap().to_string(), refused.to_string());
}

//! Lengths, places, limits and counts of more than 16 and of more than 32 bits. The lent memory is a little longer than
//! 2^32, so that a length cut to 16 or 32 bits is close to 0.

mod fields;
mod files;
mod zeros;

use fields::{map_counts, opened, stepped, Found};
use files::*;
use trovespan::{
    decode, extract, line_records, number, run_lines, stream_count, write_container, DecodeRefusal, Number, Refusal,
    ENTRIES_EACH, LINE_ENTRIES,
};
use zeros::zeros;

/// The first numbers that take 17 and 33 bits.
const BITS_17: usize = 1 << 16;
const BITS_33: usize = 1 << 32;

const SHORT_DATA: Refusal = Refusal { number: 7, value: 0 };

#[test]
fn files_over_4_gib() {
    let file = zeros::<u8>(BITS_33 + 100);
    file[..6144].copy_from_slice(&f());
    let (mut offsets, mut sizes, mut out) = ([0; 2], [0; 2], [0; 600]);
    assert_eq!(opened(file), Ok((256, 24)));
    assert_eq!(stream_count(file), Ok(3));
    assert_eq!(map_counts(file, 2, None, &mut offsets, &mut sizes), Ok((2, 600)));
    assert_eq!((offsets, sizes), ([2560, 1280], [512, 88]));
    assert_eq!(extract(file, 2, None, &mut out), Ok(600));
    assert_eq!(out[..], stream_2());
}

/// Two entries are needed, or four, or eight. A success writes only these.
#[test]
fn stores_over_2_32_entries() {
    let mapped = Ok((2, 600));
    let long = zeros::<u64>(BITS_33 + 1);
    let mut short = [0; 2];
    assert_eq!(map_counts(&f(), 2, None, long, &mut short), mapped);
    assert_eq!((&long[..3], short), (&[2560, 1280, 0][..], [512, 88]));
    assert_eq!(map_counts(&f(), 2, None, &mut short, long), mapped);
    assert_eq!((short, &long[..3]), ([2560, 1280], &[512, 88, 0][..]));

    let store = zeros::<i64>(BITS_33 + 1);
    assert_eq!(decode(&[3, 5], store), Ok(1));
    assert_eq!(store[..5], [3, 5, 0, 1, 0]);

    let store = zeros::<i64>(BITS_33 + 1);
    assert_eq!(run_lines(&[3, 5], store), Ok(1));
    assert_eq!(store[..9], [5, -1, 0, 0, 1, 1, 0, 0, 0]);
    assert_eq!(line_records(store).len(), BITS_33 / LINE_ENTRIES);
}

#[test]
fn stores_over_4_gib() {
    let out = zeros::<u8>(BITS_33 + 1);
    assert_eq!(extract(&f(), 2, None, out), Ok(600));
    assert_eq!(out[..600], stream_2());
    assert_eq!(out[600..700], [0; 100]);
}

#[test]
fn strings_over_4_gib() {
    let bytes = zeros::<u8>(BITS_33 + 1);
    bytes[..2].copy_from_slice(&[3, 5]);
    bytes[BITS_33 - 2..].copy_from_slice(&[12, 0x7f, 0]);
    let found = Found::Annotation(12, 127, 0, true);
    assert_eq!(stepped(bytes, BITS_33 - 2), (found, BITS_33 + 1));
    assert_eq!(stepped(bytes, BITS_33 - 1), (Found::Refused(Refusal { number: 9, value: 127 }), BITS_33));
    assert_eq!(stepped(bytes, BITS_33), (Found::End, BITS_33 + 1));
    assert_eq!(number(bytes, BITS_33), (Ok(Number { value: 0, taken: 1, shortest: true }), BITS_33 + 1));
    assert_eq!(number(bytes, BITS_33 + 1), (Err(SHORT_DATA), BITS_33 + 1));
    let mut store = [0; 4];
    assert_eq!(decode(bytes, &mut store), Ok(1));
    assert_eq!(store, [3, 5, 0, 1]);
    let mut store = [0; 8];
    assert_eq!(run_lines(bytes, &mut store), Ok(1));
    assert_eq!(store, [5, -1, 0, 0, 1, 1, 0, 0]);
}

#[test]
fn files_written_into_over_4_gib() {
    let out = zeros::<u8>(BITS_33 + 1);
    assert_eq!(write_container(256, &[3, ABSENT, 2], b"hello", out), Ok(4096));
    let mut stream = [0; 2];
    assert_eq!(extract(&out[..4096], 2, None, &mut stream), Ok(2));
    assert_eq!(&stream, b"lo");
    assert_eq!(out[4096..5000], [0; 904]);
}

/// The bytes of two streams, of which the first is the largest possible. The file has 65,548 pages of 64 KiB.
#[test]
fn files_written_from_over_4_gib() {
    let bytes = zeros::<u8>(BITS_33 + 100);
    let sizes = [ABSENT - 1, 102];
    let no_room = Refusal { number: 10, value: 65_548 << 16 };
    assert_eq!(write_container(1 << 16, &sizes, bytes, &mut []), Err(no_room));
    let sizes_differ = Refusal { number: 22, value: 0 };
    for sizes in [[ABSENT - 1, 101], [ABSENT - 1, 103], [98, 2]] {
        assert_eq!(write_container(1 << 16, &sizes, bytes, &mut []), Err(sizes_differ));
    }
}

/// A directory of the count and 2^30 - 2 sizes is the largest whose size takes 32 bits.
#[test]
#[ignore = "it takes seconds, and minutes under an emulator"]
fn directories_over_4_gib() {
    let sizes = zeros::<u32>((1 << 30) - 1);
    let no_room = Refusal { number: 10, value: (3 + 16_384 + 1) << 18 };
    assert_eq!(write_container(1 << 18, &sizes[1..], &[], &mut []), Err(no_room));
    assert_eq!(write_container(1 << 18, sizes, &[], &mut []), Err(Refusal { number: 24, value: 0 }));
}

#[test]
fn places_far_past_a_string() {
    for at in [BITS_17, BITS_17 + 1, BITS_33, BITS_33 + 1, BITS_33 * BITS_17, usize::MAX] {
        assert_eq!(number(&[3, 5], at), (Err(SHORT_DATA), 2));
        assert_eq!(stepped(&[3, 5], at), (Found::End, 2));
    }
}

#[test]
fn limits_far_past_a_stream() {
    for limit in [BITS_17, BITS_17 + 1, BITS_33, BITS_33 + 1, BITS_33 << 8, usize::MAX] {
        let (mut offsets, mut sizes, mut out) = ([0; 2], [0; 2], [0; 600]);
        let mapped = map_counts(&f(), 2, Some(limit), &mut offsets, &mut sizes);
        assert_eq!(mapped, Ok((2, 600)));
        assert_eq!(extract(&f(), 2, Some(limit), &mut out), Ok(600));
    }
}

/// The next place, the count, the entries needed, and the place after a refusal.
#[test]
fn more_than_65536_annotations() {
    let count = BITS_17 + 5;
    let mut bytes = vec![1; 2 * count];
    let mut store = vec![0; ENTRIES_EACH * count];
    assert_eq!(number(&bytes, 2 * count - 1), (Ok(Number { value: 1, taken: 1, shortest: true }), 2 * count));
    assert_eq!(stepped(&bytes, 2 * count - 2), (Found::Annotation(1, 1, 0, true), 2 * count));
    assert_eq!(decode(&bytes, &mut store), Ok(count));
    assert!(store.chunks(ENTRIES_EACH).all(|annotation| annotation == [1, 1, 0, 1]));

    let no_room = Refusal { number: 10, value: (ENTRIES_EACH * count) as u64 };
    assert_eq!(decode(&bytes, &mut store[1..]), Err(DecodeRefusal { refusal: no_room, place: None }));

    bytes.extend([0xdf, 0xff, 0xff, 0xff]);
    let unknown = Refusal { number: 9, value: 536_870_911 };
    assert_eq!(stepped(&bytes, 2 * count), (Found::Refused(unknown), 2 * count + 4));
    assert_eq!(decode(&bytes, &mut store), Err(DecodeRefusal { refusal: unknown, place: Some(2 * count + 4) }));
}

/// The count, the entries needed, the index and the place after a refusal, and a line and an offset that add up.
#[test]
fn more_than_65536_lines() {
    let count = BITS_17 + 5;
    let mut bytes = [11, 0x21].repeat(count); // a byte and a line on
    let mut store = vec![0; LINE_ENTRIES * count];
    assert_eq!(run_lines(&bytes, &mut store), Ok(count));
    let mut records = line_records(&store).flatten().map(|record| (record.offset, record.length, record.line));
    assert_eq!(records.next_back(), Some((count as u32, None, count as i64)));
    assert!(records.eq((1..count as u32).map(|at| (at, Some(1), at.into()))));

    let no_room = Refusal { number: 10, value: (LINE_ENTRIES * count) as u64 };
    let short = &mut store[1..];
    assert_eq!(run_lines(&bytes, short), Err(DecodeRefusal { refusal: no_room, place: None }));

    bytes.extend([0xdf, 0xff, 0xff, 0xff]);
    let unknown = Refusal { number: 9, value: 536_870_911 };
    let refused = DecodeRefusal { refusal: unknown, place: Some(2 * count + 4) };
    assert_eq!(run_lines(&bytes, &mut store), Err(refused));

    bytes.truncate(2 * count);
    bytes.extend([1, 0, 3, 0]); // a falling offset
    let bad = Refusal { number: 25, value: count as u64 + 1 };
    assert_eq!(run_lines(&bytes, &mut store), Err(DecodeRefusal { refusal: bad, place: None }));
}

/// Two pages of 8 MiB. The second holds the location list and the directory, and is every page of the one stream, so
/// each of the 512 pages is a slice. The Rust would allocate the stream's size, the largest possible, so it cannot be
/// asked.
#[test]
fn the_largest_stream() {
    const SIZE: u32 = 0xffff_fffe;
    let file = paged(SIZE, &[1; 512]);
    let (mut offsets, mut sizes) = ([0; 512], [0; 512]);
    let mapped = (512, SIZE as usize);
    assert_eq!(map_counts(&file, 0, None, &mut offsets, &mut sizes), Ok(mapped));
    assert!(offsets.iter().all(|offset| *offset == 1 << 23));
    assert_eq!(sizes.iter().sum::<u64>(), SIZE.into());
    for limit in [None, Some(BITS_33), Some(BITS_33 << 8), Some(usize::MAX)] {
        assert_eq!(extract(&file, 0, limit, &mut []), Err(Refusal { number: 10, value: SIZE.into() }));
    }
    assert_eq!(extract(&file, 0, Some(1 << 31), &mut []), Err(Refusal { number: 10, value: 1 << 31 }));
}

/// A slice begins at its page number times the page size, also past the file.
#[test]
fn slices_past_4_gib() {
    let pages = [511, 512, 600, 0x8000_0000, 0xffff_fffe];
    let file = paged(5 << 23, &pages);
    let (mut offsets, mut sizes) = ([0; 4], [0; 4]);
    assert_eq!(map_counts(&file, 0, None, &mut offsets, &mut sizes), Ok((4, 5 << 23)));
    assert_eq!(offsets, [511 << 23, 600 << 23, 1 << 54, 0xffff_fffe << 23]);
    assert_eq!(sizes, [2 << 23, 1 << 23, 1 << 23, 1 << 23]);
}

/// 16 MiB in pages of 8 MiB with one stream. Page 1 holds the location list and the directory. Its first word, 1, is
/// both the location list and the directory's count.
fn paged(size: u32, pages: &[u32]) -> Vec<u8> {
    let mut file = vec![0; 2 << 23];
    file[..4096].copy_from_slice(&f()[..4096]);
    put(&mut file, PAGE_SIZE, &[1 << 23, 1, 0xffff_ffff, 4 * (2 + pages.len() as u32), 0, 1]);
    put(&mut file, 1 << 23, &[1, size]);
    put(&mut file, (1 << 23) + 8, pages);
    file
}

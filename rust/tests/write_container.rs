//! Containers written: byte by byte, read back stream by stream, and refused with every refusal, with `out` after it.

mod fields;
mod files;

use fields::{map_counts, opened};
use files::{put, word, DIRECTORY_SIZE, LOCATION_ENTRY, PAGES_USED, PAGE_SIZE};
use trovespan::{extract, stream_count, write_container, Refusal, ABSENT};

/// What `out` holds before a call.
const BEFORE: u8 = 0x5e;

const FREE_MAP: usize = 36;
const RESERVED: usize = 48;

/// No file has fewer bytes.
const SMALLEST_FILE: usize = 4096;

const PAGE_SIZES: [u32; 9] = [0x100, 0x200, 0x400, 0x800, 0x1000, 0x2000, 0x4000, 0x8000, 0x1_0000];

const SIZES_DIFFER: Refusal = Refusal { number: 22, value: 0 };
const DIRECTORY_TOO_LARGE: Refusal = Refusal { number: 23, value: 0 };

fn invalid_page_size(page_size: u32) -> Refusal {
    Refusal { number: 3, value: page_size.into() }
}

fn not_found(stream: u32) -> Refusal {
    Refusal { number: 5, value: stream.into() }
}

fn no_room(needed: usize) -> Refusal {
    Refusal { number: 10, value: needed as u64 }
}

/// Writes into `room` bytes, and checks that no byte past the file changed.
fn written(page_size: u32, sizes: &[u32], bytes: &[u8], room: usize) -> Result<Vec<u8>, Refusal> {
    let mut out = vec![BEFORE; room];
    let answer = write_container(page_size, sizes, bytes, &mut out);
    let length = answer.unwrap_or(0);
    assert!(out[length..].iter().all(|byte| *byte == BEFORE));
    answer?;
    out.truncate(length);
    Ok(out)
}

fn bytes_of(size: u32) -> usize {
    if size == ABSENT {
        0
    } else {
        size as usize
    }
}

/// Bytes for streams of these sizes. None is 0, so that each differs from a byte that no stream uses.
fn bytes_for(sizes: &[u32]) -> Vec<u8> {
    let length = sizes.iter().map(|&size| bytes_of(size)).sum();
    (0..length).map(|i: usize| (1 + i * 7919 / 256 % 255) as u8).collect()
}

/// The length that is asked for with an empty `out`.
fn needed(page_size: u32, sizes: &[u32]) -> usize {
    match write_container(page_size, sizes, &bytes_for(sizes), &mut []) {
        Err(Refusal { number: 10, value }) => value as usize,
        answer => panic!("{answer:?}"),
    }
}

/// Writes streams of these sizes into just as many bytes as are needed, and reads them back.
fn pack(page_size: u32, sizes: &[u32]) -> Vec<u8> {
    let bytes = bytes_for(sizes);
    let length = needed(page_size, sizes);
    assert_eq!(written(page_size, sizes, &bytes, length - 1), Err(no_room(length)));
    let file = written(page_size, sizes, &bytes, length).unwrap();
    assert_eq!(file.len(), length);
    assert_eq!(opened(&file), Ok((page_size, (length / page_size as usize) as u32)));
    assert_eq!(length % page_size as usize, 0);
    read_back(&file, sizes, &bytes);
    file
}

fn read_back(file: &[u8], sizes: &[u32], mut bytes: &[u8]) {
    let count = sizes.len() as u32;
    assert_eq!(stream_count(file), Ok(count));
    for (stream, &size) in (0..).zip(sizes) {
        let (own, rest) = bytes.split_at(bytes_of(size));
        if size == ABSENT {
            assert_eq!(extracted(file, stream, 0), Err(not_found(stream)));
        } else {
            assert_eq!(extracted(file, stream, own.len()).unwrap(), own);
        }
        bytes = rest;
    }
    assert_eq!(extracted(file, count, 0), Err(not_found(count)));
}

fn extracted(file: &[u8], stream: u32, room: usize) -> Result<Vec<u8>, Refusal> {
    let mut out = vec![BEFORE; room];
    let length = extract(file, stream, None, &mut out)?;
    assert_eq!(length, room);
    Ok(out)
}

fn page(file: &[u8], page_size: usize, number: usize) -> &[u8] {
    &file[number * page_size..][..page_size]
}

fn is_zero(bytes: &[u8]) -> bool {
    bytes.iter().all(|byte| *byte == 0)
}

/// The numbers of the pages that the free map says are free.
fn free_pages(file: &[u8], page_size: usize) -> Vec<usize> {
    let is_free = |&number: &usize| {
        let map = page(file, page_size, 1 + page_size * (number / (8 * page_size)));
        map[number % (8 * page_size) / 8] >> (number % 8) & 1 == 1
    };
    (0..file.len() / page_size).filter(is_free).collect()
}

/// Sixteen pages of 256 bytes: header, two map pages, stream 0 in pages 3 and 4, stream 2 in 5 to 7, directory, location
/// page, and six free pages.
#[test]
fn writes_each_byte() {
    let sizes = [300, ABSENT, 600];
    let bytes = bytes_for(&sizes);
    let mut wanted = vec![0; 4096];
    wanted[..32].copy_from_slice(b"Microsoft C/C++ MSF 7.00\r\n\x1a\x44\x53\x00\x00\x00");
    put(&mut wanted, PAGE_SIZE, &[256, 1, 16, 36, 0, 9]);
    wanted[256 + 1] = 0b1111_1100;
    wanted[3 * 256..][..300].copy_from_slice(&bytes[..300]);
    wanted[5 * 256..][..600].copy_from_slice(&bytes[300..]);
    put(&mut wanted, 8 * 256, &[3, 300, ABSENT, 600, 3, 4, 5, 6, 7]);
    put(&mut wanted, 9 * 256, &[8]);
    assert_eq!(written(256, &sizes, &bytes, 4096), Ok(wanted.clone()));
    assert_eq!(written(256, &sizes, &bytes, 5000), Ok(wanted));
}

#[test]
fn streams_around_a_page() {
    for page_size in PAGE_SIZES {
        let sizes = [page_size, 0, 1, page_size - 1, ABSENT, page_size + 1, 2 * page_size, ABSENT, 0];
        pack(page_size, &sizes);
        for size in sizes {
            pack(page_size, &[size]);
            pack(page_size, &[size, size]);
        }
    }
}

#[test]
fn larger_pages() {
    for shift in [17, 20] {
        let file = pack(1 << shift, &[1, ABSENT, (1 << shift) + 1]);
        assert_eq!(file.len(), 8 << shift);
    }
}

/// Without pages of streams there are five: header, two map pages, directory and location page.
#[test]
fn no_bytes() {
    for page_size in PAGE_SIZES {
        for sizes in [&[][..], &[0], &[ABSENT], &[0, ABSENT, 0, ABSENT, ABSENT]] {
            let file = pack(page_size, sizes);
            assert_eq!(file.len(), SMALLEST_FILE.max(5 * page_size as usize));
        }
    }
}

#[test]
fn the_header() {
    for page_size in PAGE_SIZES {
        let sizes = [10 * page_size, ABSENT, 0, 1];
        let file = pack(page_size, &sizes);
        assert_eq!(word(&file, PAGE_SIZE), page_size);
        assert_eq!(word(&file, FREE_MAP), 1);
        assert_eq!(word(&file, PAGES_USED), 16);
        assert_eq!(word(&file, DIRECTORY_SIZE), 4 * (1 + 4 + 11));
        assert_eq!(word(&file, RESERVED), 0);
        assert_eq!(word(&file, LOCATION_ENTRY), 15);
        assert!(is_zero(&file[LOCATION_ENTRY + 4..page_size as usize]));
    }
}

/// The more pages the stream has, the fewer are added and free. Pages of 1,024 bytes are enough without.
#[test]
fn free_pages_up_to_4096_bytes() {
    for page_size in [256, 512, 1024, 4096] {
        for pages in 0..=20 {
            let file = pack(page_size as u32, &[(pages * page_size) as u32]);
            let last = 3 + pages + 1;
            let used = (last + 1).max(SMALLEST_FILE / page_size);
            assert_eq!(file.len(), used * page_size);
            assert_eq!(word(&file, PAGES_USED), used as u32);
            assert_eq!(free_pages(&file, page_size), (last + 1..used).collect::<Vec<_>>());
            assert!((last + 1..used).all(|number| is_zero(page(&file, page_size, number))));
        }
    }
}

#[test]
fn bits_past_the_last_page() {
    for (page_size, map) in [(256, [0xe0, 0xff]), (512, [0xe0, 0]), (1024, [0, 0])] {
        let file = pack(page_size, &[]);
        let page_size = page_size as usize;
        assert_eq!(page(&file, page_size, 1)[..2], map);
        assert!(is_zero(&page(&file, page_size, 1)[2..]));
        assert!(is_zero(page(&file, page_size, 2)));
    }
}

/// Streams that end within a page, each followed by another part.
#[test]
fn what_a_part_leaves_of_its_last_page() {
    let file = pack(256, &[1, 255, 257]);
    assert!(is_zero(&file[3 * 256 + 1..4 * 256]));
    assert!(is_zero(&file[4 * 256 + 255..5 * 256]));
    assert!(is_zero(&file[6 * 256 + 1..7 * 256]));
    assert!(is_zero(&file[7 * 256 + 4 * (1 + 3 + 4)..8 * 256]));
    assert!(is_zero(&file[8 * 256 + 4..9 * 256]));
}

/// A stream that goes around the map pages: the second pair is 257 and 258, and so on. The bits of page 2,048 and of
/// those after it are in the second pair.
#[test]
fn streams_around_map_pages() {
    for pages in [253, 254, 255, 256, 508, 509, 2040, 2050, 4000] {
        let file = pack(256, &[pages * 256 - 100]);
        let numbers = 0..file.len() / 256;
        let maps = numbers.filter(|number| [1, 2].contains(&(number % 256)));
        assert!(maps.map(|number| page(&file, 256, number)).all(is_zero), "{pages}");
        let slices = (pages as usize + 253) / 254; // 254 data pages lie between two pairs
        let (mut offsets, mut sizes) = (vec![0; slices], vec![0; slices]);
        let length = pages as usize * 256 - 100;
        assert_eq!(map_counts(&file, 0, None, &mut offsets, &mut sizes), Ok((slices, length)));
        let first = (0..).map(|i| (3 + 256 * i) * 256);
        assert!(first.zip(offsets).all(|(wanted, found)| wanted == found), "{pages}");
    }
}

/// The pages of the directory, and then its location page, around the map pages 257 and 258.
#[test]
fn directories_around_map_pages() {
    for pages in 245..=256 {
        let mut sizes = vec![0; 300];
        sizes[7] = pages * 256;
        pack(256, &sizes);
    }
}

#[test]
fn many_streams() {
    for (page_size, count) in [(256, 62), (256, 63), (256, 64), (256, 1000), (512, 2000), (4096, 3000)] {
        let sizes: Vec<u32> = (0..count).map(|k| if k % 5 == 3 { ABSENT } else { k % 3 }).collect();
        let file = pack(page_size, &sizes);
        let pages: u32 = sizes.iter().map(|size| u32::from([1, 2].contains(size))).sum();
        assert_eq!(word(&file, DIRECTORY_SIZE), 4 * (1 + count + pages));
    }
}

/// A page of 256 bytes lists 64 pages of 64 numbers: the count, 4,095 sizes, and pages.
#[test]
fn the_largest_directory() {
    for page in [0, 1, 4000] {
        let mut sizes = vec![ABSENT; 4095 - page];
        sizes[0] = 256 * page as u32;
        let file = pack(256, &sizes);
        assert_eq!(word(&file, DIRECTORY_SIZE), 4 * 4096);
        sizes.push(0);
        for room in [0, 5000, file.len() + 512] {
            assert_eq!(written(256, &sizes, &bytes_for(&sizes), room), Err(DIRECTORY_TOO_LARGE));
        }
    }
}

#[test]
fn refuses_page_sizes() {
    let edges = [0, 1, 2, 0x7f, 0x80, 0xff, 0x101, 0x180, 0x300, 0x1001, 0x7f_ffff, 0x80_0001, 0xff_ffff, u32::MAX];
    let powers = (24..32).map(|shift| 1 << shift);
    for page_size in edges.into_iter().chain(powers) {
        // Nothing else matters.
        for (sizes, bytes) in [(&[][..], &[][..]), (&[1], &[1]), (&[1], &[]), (&[0; 5000], &[])] {
            for room in [0, 5000] {
                assert_eq!(written(page_size, sizes, bytes, room), Err(invalid_page_size(page_size)));
            }
        }
    }
}

#[test]
fn refuses_sizes_that_differ() {
    // Sums of more than 32 bits among them: cut to 32 they are 0, 1 and 2.
    let sums: [(&[u32], usize); 11] = [
        (&[], 1),
        (&[0], 1),
        (&[1], 0),
        (&[ABSENT], 1),
        (&[ABSENT - 1], 0),
        (&[256, ABSENT, 1], 256),
        (&[256, ABSENT, 1], 258),
        (&[ABSENT - 1, 2], 0),
        (&[ABSENT - 1, 3], 1),
        (&[0x8000_0000, 0x8000_0000, 2], 2),
        (&[ABSENT - 1; 5000], 10),
    ];
    for (sizes, length) in sums {
        for room in [0, 5000] {
            assert_eq!(written(256, sizes, &vec![1; length], room), Err(SIZES_DIFFER), "{length}");
        }
    }
}

/// 22 before 23, both before 10.
#[test]
fn refuses_in_order() {
    let sizes = [0; 4096];
    for room in [0, 5000] {
        assert_eq!(written(256, &sizes, &[1], room), Err(SIZES_DIFFER));
        assert_eq!(written(256, &sizes, &[], room), Err(DIRECTORY_TOO_LARGE));
    }
    assert_eq!(written(512, &sizes, &[], 0), Err(no_room(37 * 512)));
}

#[test]
fn refuses_to_write_into_too_little() {
    for (page_size, sizes, wanted) in [(256, [1, 0], 4096), (512, [1025, ABSENT], 4096), (1024, [1, 1], 7168)] {
        let bytes = bytes_for(&sizes);
        for room in [0, 1, 52, 256, 4095, wanted - 1] {
            assert_eq!(written(page_size, &sizes, &bytes, room), Err(no_room(wanted)));
        }
        let file = written(page_size, &sizes, &bytes, wanted);
        for room in [wanted + 1, wanted + page_size as usize, 20_000] {
            assert_eq!(written(page_size, &sizes, &bytes, room), file);
        }
    }
}

//! Containers as files.
#![allow(dead_code)] // Each test uses what it needs.

const MAGIC: &[u8; 32] = b"Microsoft C/C++ MSF 7.00\r\n\x1a\x44\x53\x00\x00\x00";
pub const SMALL_MAGIC: &[u8; 42] = b"Microsoft C/C++ program database 2.00\r\n\x1a\x4a\x47";

/// The size of an absent stream.
pub const ABSENT: u32 = 0xffff_ffff;

// Where the words of file F are.
pub const PAGE_SIZE: usize = 32;
pub const PAGES_USED: usize = 40;
pub const DIRECTORY_SIZE: usize = 44;
pub const LOCATION_ENTRY: usize = 52;
pub const LOCATION_LIST: usize = 3 * 256;
pub const COUNT: usize = 4 * 256;
pub const SIZE_0: usize = COUNT + 4;
pub const LAST_PAGE: usize = COUNT + 32;

/// File F of the project's rules, 24 pages of 256 bytes: stream 0 has 300 bytes in pages 20 and 21, stream 1 is absent,
/// stream 2 has 600 bytes in pages 10, 11 and 5. Among the other bytes no two neighbours are equal.
pub fn f() -> Vec<u8> {
    let mut file: Vec<u8> = (0..6144).map(|i| (i % 251) as u8).collect();
    file[..MAGIC.len()].copy_from_slice(MAGIC);
    put(&mut file, PAGE_SIZE, &[256, 1, 24, 36, 0, 3]);
    put(&mut file, LOCATION_LIST, &[4]);
    put(&mut file, COUNT, &[3, 300, ABSENT, 600, 20, 21, 10, 11, 5]);
    file
}

/// F with a word replaced.
pub fn f_with(at: usize, word: u32) -> Vec<u8> {
    let mut file = f();
    put(&mut file, at, &[word]);
    file
}

/// F with a page number replaced by one that is legal and past the file.
pub fn f_past(at: usize) -> Vec<u8> {
    let mut file = f_with(PAGES_USED, 25);
    put(&mut file, at, &[24]);
    file
}

/// F cut to its first bytes.
pub fn f_cut(length: usize) -> Vec<u8> {
    f()[..length].to_vec()
}

/// F with other bytes at the front.
pub fn f_headed(front: &[u8]) -> Vec<u8> {
    let mut file = f();
    file[..front.len()].copy_from_slice(front);
    file
}

/// F with a directory so large that it needs one location entry more than the header block holds.
pub fn f_overfull() -> Vec<u8> {
    let mut file = f_with(DIRECTORY_SIZE, 16_564_225);
    put(&mut file, LOCATION_ENTRY, &[3; 1011]);
    file
}

/// How long the stream of `hostile` is: a million pages of 4,096 bytes.
pub const HOSTILE_LENGTH: usize = 4_096_000_000;

/// A file of 28 KB whose one stream names page 5 a million times. The directory names page 4 for all its pages but the
/// first.
pub fn hostile() -> Vec<u8> {
    const PAGE: usize = 4096;
    let mut file = vec![0; 7 * PAGE];
    file[..MAGIC.len()].copy_from_slice(MAGIC);
    put(&mut file, PAGE_SIZE, &[PAGE as u32, 1, 7, 8 + 4 * 1_000_000, 0, 2]);
    put(&mut file, 2 * PAGE, &[4; 977]);
    put(&mut file, 2 * PAGE, &[3]);
    put(&mut file, 3 * PAGE, &[5; PAGE / 4]);
    put(&mut file, 3 * PAGE, &[1, HOSTILE_LENGTH as u32]);
    put(&mut file, 4 * PAGE, &[5; PAGE / 4]);
    file
}

/// The bytes of F's streams.
pub fn stream_0() -> Vec<u8> {
    f()[5120..5420].to_vec()
}
pub fn stream_2() -> Vec<u8> {
    [&f()[2560..3072], &f()[1280..1368]].concat()
}

/// The word at a place.
pub fn word(file: &[u8], at: usize) -> u32 {
    u32::from_le_bytes(file[at..at + 4].try_into().unwrap())
}

/// Puts words at a place.
pub fn put(file: &mut [u8], at: usize, words: &[u32]) {
    for (place, word) in file[at..].chunks_exact_mut(4).zip(words) {
        place.copy_from_slice(&word.to_le_bytes());
    }
}

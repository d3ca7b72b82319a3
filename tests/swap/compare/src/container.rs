//! Containers: made ones, and damage to any. Only here does this program know where the words of a container are.

use crate::random::Random;

const MAGIC: &[u8; 32] = b"Microsoft C/C++ MSF 7.00\r\n\x1a\x44\x53\x00\x00\x00";
const SMALL_MAGIC: &[u8; 42] = b"Microsoft C/C++ program database 2.00\r\n\x1a\x4a\x47";
const PAGE_SIZE: usize = 32;
const PAGES_USED: usize = 40;
const DIRECTORY_SIZE: usize = 44;
const LOCATION_ENTRIES: usize = 52;
const HEADER_BLOCK: usize = 4096;
const ABSENT: u32 = u32::MAX;

pub fn word(file: &[u8], at: usize) -> u32 {
    file.get(at..at + 4).map_or(0, |bytes| u32::from_le_bytes(bytes.try_into().unwrap()))
}

fn put(file: &mut [u8], at: usize, word: u32) {
    if let Some(bytes) = file.get_mut(at..at + 4) {
        bytes.copy_from_slice(&word.to_le_bytes());
    }
}

pub fn pages_used(file: &[u8]) -> u32 {
    word(file, PAGES_USED)
}

/// The file with pages_used lowered by one. pdb refuses a page number above pages_used, and we one that is not below it,
/// so of this file pdb says what we say of the other. These bytes are in page 0, which is in no stream.
pub fn lowered(file: &[u8]) -> Option<Vec<u8>> {
    let used = pages_used(file).checked_sub(1)?;
    let mut file = file.to_vec();
    put(&mut file, PAGES_USED, used);
    Some(file)
}

/// A container of small pages. Its streams have a few pages, or it has many streams and few pages: then the location list
/// takes more than a page.
pub fn make(random: &mut Random) -> Vec<u8> {
    let page = random.pick(&[256, 256, 512, 1024]);
    let wide = random.one_in(4);
    let count = if wide { 4000 + random.below(6000) } else { random.below(24) };
    let sizes: Vec<u32> = (0..count)
        .map(|_| match random.below(if wide { 200 } else { 6 }) {
            0 | 1 => random.below(4 * page) as u32,
            2 => page as u32 * random.below(4) as u32,
            3 => 0,
            _ if wide => random.pick(&[0, ABSENT, ABSENT]),
            4 => ABSENT,
            _ => random.below(40) as u32,
        })
        .collect();
    lay_out(page, &sizes, random)
}

fn pages_for(bytes: usize, page: usize) -> usize {
    (bytes + page - 1) / page
}

/// Pages are given out in order, except that some are exchanged.
fn lay_out(page: usize, sizes: &[u32], random: &mut Random) -> Vec<u8> {
    let of_streams = sizes.iter().filter(|size| **size != ABSENT).map(|size| pages_for(*size as usize, page)).sum();
    let directory_size = 4 * (1 + sizes.len() + of_streams);
    let of_directory = pages_for(directory_size, page);
    let of_location = pages_for(4 * of_directory, page);
    let mut numbers: Vec<u32> = (1..=(of_streams + of_directory + of_location) as u32).collect();
    for _ in 0..random.pick(&[0, 2, numbers.len() / 4, numbers.len()]) {
        let (one, other) = (random.below(numbers.len()), random.below(numbers.len()));
        numbers.swap(one, other);
    }
    let used = numbers.len() + 1 + random.below(2);
    let mut file: Vec<u8> = (0..(used * page).max(HEADER_BLOCK)).map(|_| random.next() as u8).collect();
    file[..MAGIC.len()].copy_from_slice(MAGIC);
    for (i, word) in [page as u32, 1, used as u32, directory_size as u32, 0].iter().enumerate() {
        put(&mut file, PAGE_SIZE + 4 * i, *word);
    }
    let (streams, rest) = numbers.split_at(of_streams);
    let (directory, location) = rest.split_at(of_directory);
    for (i, number) in location.iter().enumerate() {
        put(&mut file, LOCATION_ENTRIES + 4 * i, *number);
    }
    put_list(&mut file, page, location, directory);
    let words: Vec<u32> = [&[sizes.len() as u32], sizes, streams].concat();
    put_list(&mut file, page, directory, &words);
    file
}

/// Puts words into pages.
fn put_list(file: &mut [u8], page: usize, pages: &[u32], words: &[u32]) {
    for (number, part) in pages.iter().zip(words.chunks(page / 4)) {
        for (i, word) in part.iter().enumerate() {
            put(file, *number as usize * page + 4 * i, *word);
        }
    }
}

/// Where the words of a sound container are: of the header, of the location list, and of the directory.
pub struct Places {
    page: usize,
    header: Vec<usize>,
    location: Vec<usize>,
    directory: Vec<usize>,
}

pub fn places(file: &[u8]) -> Places {
    let page = word(file, PAGE_SIZE) as usize;
    let directory_size = word(file, DIRECTORY_SIZE) as usize;
    let entries = pages_for(directory_size, page);
    let in_pages = |pages: &[usize], words: usize| -> Vec<usize> {
        let all = pages.iter().flat_map(|at| (0..page / 4).map(move |i| word(file, *at) as usize * page + 4 * i));
        all.take(words).collect()
    };
    let header: Vec<usize> = (0..pages_for(4 * entries, page)).map(|i| LOCATION_ENTRIES + 4 * i).collect();
    let location = in_pages(&header, entries);
    let directory = in_pages(&location, directory_size / 4);
    let header = (PAGE_SIZE..LOCATION_ENTRIES).step_by(4).chain(header).collect();
    Places { page, header, location, directory }
}

/// Damages a file in one to three places.
pub fn damage(file: &mut Vec<u8>, places: &Places, random: &mut Random) {
    for _ in 0..1 + random.below(3) {
        let at = match random.below(16) {
            0..=4 => random.pick(&places.header),
            5..=7 if !places.location.is_empty() => random.pick(&places.location),
            8..=11 if !places.directory.is_empty() => {
                // The count and the first sizes more often than the others.
                let words = if random.one_in(2) { places.directory.len() } else { places.directory.len().min(8) };
                random.pick(&places.directory[..words])
            }
            12 => {
                let at = random.below(MAGIC.len());
                file[at] ^= 1 << random.below(8);
                continue;
            }
            13 if random.one_in(3) => {
                file[..SMALL_MAGIC.len()].copy_from_slice(SMALL_MAGIC);
                continue;
            }
            14 => {
                put(file, DIRECTORY_SIZE, random.pick(&[0, 0, 1, 3, 4, 5, 7, 8, 12, 16]));
                continue;
            }
            _ => {
                cut(file, places.page, random);
                continue;
            }
        };
        let word = other_word(file, word(file, at), random);
        put(file, at, word);
    }
}

/// A word that may make a difference.
fn other_word(file: &[u8], before: u32, random: &mut Random) -> u32 {
    let used = pages_used(file);
    match random.below(6) {
        0 => random.pick(&[0, 1, 2, 3, 4, 255, 256, 512, 4096, 1 << 23, 1 << 24, 1 << 31, u32::MAX - 1, u32::MAX]),
        1 => random.pick(&[used.wrapping_sub(1), used, used, used.wrapping_add(1)]),
        2 => before.wrapping_add(random.pick(&[1, 2, 4, 256, u32::MAX, u32::MAX - 3])),
        3 => random.below(used as usize + 2) as u32,
        4 => before ^ (1 << random.below(32)),
        _ => random.next() as u32,
    }
}

/// Cuts a file, at the end of a page or anywhere.
fn cut(file: &mut Vec<u8>, page: usize, random: &mut Random) {
    let length = random.below(file.len() + 1);
    match random.below(4) {
        0 => file.truncate(length / page * page),
        1 => file.truncate(length / page * page + 1),
        2 => file.truncate(HEADER_BLOCK + random.below(3) - 1),
        _ => file.truncate(length),
    }
    file.resize(file.len().max(SMALL_MAGIC.len()), 0); // damage that follows needs bytes to change
}

/// The parts of a file of this length with the streams of another, and with the directory and then the location list at the
/// end.
pub fn with_directory_at_end(file: &[u8], length: u64) -> Vec<(u64, Vec<u8>)> {
    let Places { page, location, directory, .. } = places(file);
    let used = (length / page as u64) as u32;
    let of_location = pages_for(4 * location.len(), page) as u32;
    let of_directory = location.len() as u32;
    let at = |number: u32| u64::from(number) * page as u64;
    let (list, first) = (used - of_location, used - of_location - of_directory);
    let mut front = file.to_vec();
    put(&mut front, PAGES_USED, used);
    for (i, number) in (list..used).enumerate() {
        put(&mut front, LOCATION_ENTRIES + 4 * i, number);
    }
    let words = directory.iter().flat_map(|at| word(file, *at).to_le_bytes()).collect();
    let numbers = (first..list).flat_map(u32::to_le_bytes).collect();
    vec![(0, front), (at(first), words), (at(list), numbers)]
}

/// The parts of a file of 2^54 bytes and a page: the header block, the location list, a stream of five bytes, and at the end
/// the directory.
pub fn far() -> Vec<(u64, Vec<u8>)> {
    const PAGE: u64 = 1 << 23;
    const LAST: u32 = 1 << 31;
    let words = |words: &[u32]| words.iter().flat_map(|word| word.to_le_bytes()).collect::<Vec<u8>>();
    let mut header = [MAGIC.as_slice(), &words(&[PAGE as u32, 1, LAST + 1, 12, 0, 1])].concat();
    header.resize(HEADER_BLOCK, 0);
    vec![
        (0, header),
        (PAGE, words(&[LAST])),
        (2 * PAGE, b"hello".to_vec()),
        (u64::from(LAST) * PAGE, words(&[1, 5, 2])),
    ]
}

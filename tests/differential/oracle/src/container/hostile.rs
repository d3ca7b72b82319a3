//! Sound files of 24 KiB with the largest possible directory, 4,240,441,344 bytes: the header names one
//! page of the location list 1,011 times, and that page names four pages over and over. pdb would make
//! a view of the whole directory, so it cannot be asked. The listing of such a file is computed here from
//! how the file is made. pdb is asked about the same file with a directory of 4 MiB, which has all its
//! sizes and page entries, and must list the same.

use super::files::{need, put_word, Container, DIRECTORY_SIZE, ENTRIES_HELD};
use super::lent::Lent;
use super::listing::{self, head, size_line, Listing};
use crate::random::Random;

const PAGE: usize = 0x1000;
/// The number of words in a page.
const WORDS: usize = PAGE / 4;

// The file's pages after the header's. All words of the last two are page entries, except that the first
// word of `LAST_SIZE` is the last size.
const LOCATION: u32 = 1;
const COUNT: u32 = 2;
const SIZES: u32 = 3;
const LAST_SIZE: u32 = 4;
const PAGES: u32 = 5;

const LARGEST: u32 = (ENTRIES_HELD * WORDS * PAGE) as u32;
/// One pass over the location list.
const ONE_ROUND: u32 = (WORDS * PAGE) as u32;

/// Each stream has 254 pages. So all entries of 4,096 streams are in the first pass, and the listing is
/// over 64 KiB.
const SIZE: usize = 254 * PAGE - 1000;

/// How many streams the files have: as many as are listed, and half of it.
pub const STREAMS: [u32; 2] = [4096, 2048];

pub fn file(streams: u32) -> Vec<u8> {
    with_directory(streams, LARGEST)
}

/// The listing of a hostile file, if this is one.
pub fn listing(file: &[u8]) -> Option<Listing> {
    let streams = STREAMS.iter().find(|&&n| file == &self::file(n)[..])?;
    let reckoned = Listing::Lines(lines(*streams));
    match listing::listing(Lent::lowered(&with_directory(*streams, ONE_ROUND))) {
        Some(asked) if asked.text() == reckoned.text() => Some(reckoned),
        _ => crate::stop("pdb does not list what is reckoned of a hostile file"),
    }
}

/// The file. The number of streams is a multiple of 1,024.
fn with_directory(streams: u32, size: u32) -> Vec<u8> {
    let mut location = vec![COUNT];
    location.resize(streams as usize / WORDS, SIZES);
    location.push(LAST_SIZE);
    location.resize(WORDS, PAGES);
    let container = Container {
        page_size: PAGE,
        used: 6,
        length: 6 * PAGE,
        entries: vec![LOCATION; ENTRIES_HELD],
        location,
        streams: Vec::new(),
    };
    let mut file = container.file(&mut Random::new(0));
    put_word(&mut file, DIRECTORY_SIZE, size);
    for i in 0..WORDS {
        let at = |page: u32| page as usize * PAGE + 4 * i;
        put_word(&mut file, at(COUNT), SIZE as u32);
        put_word(&mut file, at(SIZES), SIZE as u32);
        put_word(&mut file, at(LAST_SIZE), entry(i));
        put_word(&mut file, at(PAGES), entry(i));
    }
    put_word(&mut file, COUNT as usize * PAGE, streams);
    put_word(&mut file, LAST_SIZE as usize * PAGE, SIZE as u32);
    file
}

/// The page number in word `w` of the directory: the last page at each seventh word of a page, else the
/// page before it.
fn entry(w: usize) -> u32 {
    if w % WORDS % 7 == 6 {
        PAGES
    } else {
        LAST_SIZE
    }
}

fn lines(streams: u32) -> Vec<String> {
    let line = |k| size_line(k, SIZE, slices(streams, k));
    Some(head(streams))
        .into_iter()
        .chain((0..streams).map(line))
        .collect()
}

/// The number of a stream's slices: its pages, without those that are one above the page before.
fn slices(streams: u32, k: u32) -> usize {
    let pages = need(SIZE, PAGE);
    let first = 1 + streams as usize + k as usize * pages;
    let above = |&w: &usize| entry(w) == entry(w - 1) + 1;
    pages - (first + 1..first + pages).filter(above).count()
}

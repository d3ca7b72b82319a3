//! Containers laid out as files.

use super::question::Run;
use crate::random::Random;

pub const BIG_MAGIC: &[u8] = b"Microsoft C/C++ MSF 7.00\r\n\x1a\x44\x53\x00\x00\x00";
pub const SMALL_MAGIC: &[u8] = b"Microsoft C/C++ program database 2.00\r\n\x1a\x4a\x47";

// Where the words of the header are.
pub const PAGE_SIZE: usize = 32;
pub const PAGES_USED: usize = 40;
pub const DIRECTORY_SIZE: usize = 44;
pub const ENTRIES: usize = 52;
pub const HEADER_BLOCK: usize = 4096;
/// The number of location entries that the header block holds.
pub const ENTRIES_HELD: usize = (HEADER_BLOCK - ENTRIES) / 4;

/// The size of an absent stream.
pub const ABSENT: u32 = 0xffff_ffff;

#[derive(Clone, Debug)]
pub struct Stream {
    pub size: u32,
    pub pages: Vec<u32>,
}

/// A container's parts, each at the place that the others name.
#[derive(Clone, Debug)]
pub struct Container {
    pub page_size: usize,
    /// The number of pages.
    pub used: u32,
    /// The file's length.
    pub length: usize,
    /// The pages of the location list, which the header lists.
    pub entries: Vec<u32>,
    /// The pages of the directory, which the location list lists.
    pub location: Vec<u32>,
    pub streams: Vec<Stream>,
}

impl Container {
    /// File F of the project's rules.
    pub fn f() -> Self {
        Container {
            page_size: 0x100,
            used: 24,
            length: 6144,
            entries: vec![3],
            location: vec![4],
            streams: vec![
                stream(300, &[20, 21]),
                stream(ABSENT, &[]),
                stream(600, &[10, 11, 5]),
            ],
        }
    }

    /// The directory's words: the number of streams, their sizes, their pages.
    pub fn directory(&self) -> Vec<u32> {
        let mut words = vec![self.streams.len() as u32];
        words.extend(self.streams.iter().map(|stream| stream.size));
        words.extend(self.streams.iter().flat_map(|stream| stream.pages.iter()));
        words
    }

    /// The file, with zeros in all places that the container does not use.
    pub fn file(&self, random: &mut Random) -> Vec<u8> {
        let mut file = vec![0; self.length];
        for page in self.streams.iter().flat_map(|stream| &stream.pages) {
            let from = self.page(*page).min(self.length);
            let to = (from + self.page_size).min(self.length);
            file[from..to].iter_mut().for_each(|b| *b = random.byte());
        }
        self.lay_out(&mut file);
        file
    }

    /// The file, with random bytes in all places that the container does not use.
    pub fn file_of_noise(&self, random: &mut Random) -> Vec<u8> {
        let mut file: Vec<u8> = (0..self.length).map(|_| random.byte()).collect();
        self.lay_out(&mut file);
        file
    }

    fn lay_out(&self, file: &mut [u8]) {
        let directory = self.directory();
        file[..BIG_MAGIC.len()].copy_from_slice(BIG_MAGIC);
        put_word(file, PAGE_SIZE, self.page_size as u32);
        put_word(file, PAGE_SIZE + 4, 1); // free_page_map
        put_word(file, PAGES_USED, self.used);
        put_word(file, DIRECTORY_SIZE, 4 * directory.len() as u32);
        for (i, &page) in self.entries.iter().enumerate() {
            put_word(file, ENTRIES + 4 * i, page);
        }
        for (i, &page) in self.location.iter().enumerate() {
            put_word(file, self.location_word(i), page);
        }
        for (i, &word) in directory.iter().enumerate() {
            put_word(file, self.directory_word(i), word);
        }
    }

    /// Where the location list's word `i` is.
    pub fn location_word(&self, i: usize) -> usize {
        self.word(&self.entries, i)
    }

    /// Where the directory's word `i` is.
    pub fn directory_word(&self, i: usize) -> usize {
        self.word(&self.location, i)
    }

    /// Which of the directory's words is a stream's first page.
    pub fn first_page_word(&self, stream: usize) -> usize {
        let before: usize = self.streams[..stream].iter().map(|s| s.pages.len()).sum();
        1 + self.streams.len() + before
    }

    /// Where word `i` of these pages is.
    fn word(&self, pages: &[u32], i: usize) -> usize {
        let words = self.page_size / 4;
        self.page(pages[i / words]) + i % words * 4
    }

    fn page(&self, page: u32) -> usize {
        page as usize * self.page_size
    }
}

pub fn stream(size: u32, pages: &[u32]) -> Stream {
    Stream {
        size,
        pages: pages.to_vec(),
    }
}

/// The number of pages that these bytes take.
pub fn need(bytes: usize, page_size: usize) -> usize {
    (bytes + page_size - 1) / page_size
}

/// The edit that puts a word at a place.
pub fn word(at: usize, word: u32) -> Run {
    Run {
        at,
        bytes: word.to_le_bytes().to_vec(),
    }
}

/// Puts a word at a place, if the file has room for it.
pub fn put_word(file: &mut [u8], at: usize, word: u32) {
    if at + 4 <= file.len() {
        file[at..at + 4].copy_from_slice(&word.to_le_bytes());
    }
}

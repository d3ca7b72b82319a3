//! The steps of the project's container rules, as far as the list of a stream's bytes mentions them.
//! Nothing here asks pdb. A step returns `None` if it, or one before it, refuses.

use std::ops::Range;

use super::files::{
    need, ABSENT, BIG_MAGIC, DIRECTORY_SIZE, ENTRIES, HEADER_BLOCK, PAGES_USED, PAGE_SIZE,
};
use crate::records::number;

const SMALLEST_PAGE: usize = 0x100;
const LARGEST_PAGE: usize = 0x80_0000;
/// The number of location entries that fit the header block.
pub const MOST_LOCATIONS: usize = (HEADER_BLOCK - ENTRIES) / 4;

/// A file and the words of its header.
pub struct Header<'f> {
    file: &'f [u8],
    pub page_size: usize,
    used: usize,
    directory_size: usize,
}

/// A stream: its size, and which of the directory's words is its first page entry.
pub struct Own<'f> {
    pub header: Header<'f>,
    size: usize,
    first: usize,
}

/// Steps 1 and 2.
pub fn headed(file: &[u8]) -> Option<Header<'_>> {
    if file.len() < HEADER_BLOCK || !file.starts_with(BIG_MAGIC) {
        return None;
    }
    let page_size = word(file, PAGE_SIZE);
    if !page_size.is_power_of_two() || !(SMALLEST_PAGE..=LARGEST_PAGE).contains(&page_size) {
        return None;
    }
    Some(Header {
        file,
        page_size,
        used: word(file, PAGES_USED),
        directory_size: word(file, DIRECTORY_SIZE),
    })
}

/// Steps 1 to 3.
fn located(file: &[u8]) -> Option<Header<'_>> {
    headed(file).filter(|header| {
        let pages = header.location_pages();
        pages <= MOST_LOCATIONS && header.fit(|j| header.location(j), pages)
    })
}

/// The location list lies in the file; its page numbers are not yet checked.
pub fn list_read(file: &[u8]) -> Option<Header<'_>> {
    located(file)
        .filter(|header| header.lies_in_file(|j| header.location(j), 4 * header.directory_pages()))
}

/// Steps 1 to 5.
fn reached(file: &[u8]) -> Option<Header<'_>> {
    list_read(file).filter(|header| {
        let page = |j| header.directory_page(j);
        header.fit(page, header.directory_pages())
            && header.lies_in_file(page, header.directory_size)
    })
}

/// The same, and the directory holds the count.
pub fn counted(file: &[u8]) -> Option<Header<'_>> {
    reached(file).filter(|header| header.holds(1))
}

/// The length that the count and the mapping need: a file of that length holds the header block, and the
/// location list and the directory if these stages are reached. `None` if the file is shorter.
pub fn held(file: &[u8]) -> Option<usize> {
    if file.len() < HEADER_BLOCK {
        return None;
    }
    let mut held = HEADER_BLOCK;
    if let Some(header) = located(file) {
        let pages = header.directory_pages();
        held = held.max(header.end(|j| header.location(j), 4 * pages));
        let page = |j| header.directory_page(j);
        if held <= file.len() && header.fit(page, pages) {
            held = held.max(header.end(page, header.directory_size));
        }
    }
    Some(held).filter(|&held| held <= file.len())
}

/// Step 7 up to k's own page entries, which are not yet read.
pub fn placed(file: &[u8], k: usize) -> Option<Own<'_>> {
    let header = counted(file).filter(|header| k < header.count() && header.holds(2 + k))?;
    let size = header.size(k);
    let before: usize = (0..k).map(|j| header.pages_of(header.size(j))).sum();
    let first = 1 + header.count() + before;
    if size == ABSENT as usize || !header.holds(first) {
        return None;
    }
    Some(Own {
        header,
        size,
        first,
    })
}

/// Steps 7 and 8, if the bytes asked for lie in the file: the stream and the length.
pub fn readable(file: &[u8], k: usize, limit: Option<u64>) -> Option<(Own<'_>, usize)> {
    let own = placed(file, k)?;
    let length = limit.map_or(own.size, |limit| own.size.min(limit as usize));
    let page = |j| own.page(j);
    let passes = own.header.holds(own.entries().end)
        && own.header.fit(page, own.entries().len())
        && own.header.lies_in_file(page, length);
    Some((own, length)).filter(|_| passes)
}

impl Header<'_> {
    pub fn directory_pages(&self) -> usize {
        need(self.directory_size, self.page_size)
    }

    pub fn location_pages(&self) -> usize {
        need(4 * self.directory_pages(), self.page_size)
    }

    /// Page `j` of the location list.
    fn location(&self, j: usize) -> usize {
        word(self.file, ENTRIES + 4 * j)
    }

    /// Where the location list's word `j` is.
    pub fn list_place(&self, j: usize) -> usize {
        self.through(|i| self.location(i), 4 * j)
    }

    /// Page `j` of the directory.
    fn directory_page(&self, j: usize) -> usize {
        word(self.file, self.list_place(j))
    }

    /// Where the directory's word `w` is.
    pub fn word_place(&self, w: usize) -> usize {
        self.through(|i| self.directory_page(i), 4 * w)
    }

    pub fn directory_word(&self, w: usize) -> usize {
        word(self.file, self.word_place(w))
    }

    /// The number of whole words of the directory.
    pub fn words(&self) -> usize {
        self.directory_size / 4
    }

    pub fn holds(&self, words: usize) -> bool {
        words <= self.words()
    }

    /// The number of streams.
    pub fn count(&self) -> usize {
        self.directory_word(0)
    }

    fn size(&self, stream: usize) -> usize {
        self.directory_word(1 + stream)
    }

    /// An absent stream has no pages.
    fn pages_of(&self, size: usize) -> usize {
        if size == ABSENT as usize {
            0
        } else {
            need(size, self.page_size)
        }
    }

    /// Where byte `i` of these pages is.
    fn through(&self, page: impl Fn(usize) -> usize, i: usize) -> usize {
        page(i / self.page_size) * self.page_size + i % self.page_size
    }

    /// Whether the first `count` page numbers are legal: pages_used counts the pages (request 2026-03).
    fn fit(&self, page: impl Fn(usize) -> usize, count: usize) -> bool {
        (0..count).all(|j| (1..self.used).contains(&page(j)))
    }

    /// Whether the first `size` bytes of these pages lie in the file.
    fn lies_in_file(&self, page: impl Fn(usize) -> usize, size: usize) -> bool {
        self.end(page, size) <= self.file.len()
    }

    /// Where the last of the first `size` bytes of these pages ends, in the file's order.
    fn end(&self, page: impl Fn(usize) -> usize, size: usize) -> usize {
        (0..need(size, self.page_size))
            .map(|j| page(j) * self.page_size + wanted(self.page_size, size, j))
            .max()
            .unwrap_or(0)
    }
}

impl Own<'_> {
    /// Which of the directory's words are its page entries.
    pub fn entries(&self) -> Range<usize> {
        self.first..self.first + need(self.size, self.header.page_size)
    }

    pub fn page(&self, j: usize) -> usize {
        self.header.directory_word(self.first + j)
    }
}

/// How many of `size` bytes lie in page `j`.
pub fn wanted(page_size: usize, size: usize, j: usize) -> usize {
    page_size.min(size - j * page_size)
}

fn word(file: &[u8], at: usize) -> usize {
    number(&file[at..at + 4]) as usize
}

//! What a writer of containers must answer, reckoned from the text of request 2026-05. pdb has no writer to be
//! asked, but it has a reader: `reading.rs` has it read what is written.

use super::answers::Packer;
use super::pages::{bytes_of, roles, Role};
use crate::container::{
    need, put_word, Refusal, BIG_MAGIC, DIRECTORY_SIZE, ENTRIES, PAGES_USED, PAGE_SIZE,
};

const INVALID_PAGE_SIZE: u64 = 3;
const NO_ROOM: u64 = 10;
const SIZES_DIFFER: u64 = 22;
const DIRECTORY_TOO_LARGE: u64 = 23;
const OVER_32_BITS: u64 = 24;

const FREE_PAGE_MAP: usize = 36;

/// The bytes of a number.
const WORD: usize = 4;

pub struct Reckoning;

impl Packer for Reckoning {
    fn pack(
        page_size: u32,
        sizes: &[u32],
        bytes: &[u8],
        store: &mut [u8],
    ) -> Result<usize, Refusal> {
        let layout = Layout::new(page_size, sizes, bytes.len())?;
        let length = layout.length();
        let file = store.get_mut(..length);
        layout.write(sizes, bytes, file.ok_or((NO_ROOM, length as u64))?);
        Ok(length)
    }
}

/// A file before it is written: what each of its pages is for.
pub struct Layout {
    page_size: usize,
    directory_size: usize,
    pub roles: Vec<Role>,
}

impl Layout {
    /// The layout, if the file can be written at all from so many bytes.
    pub fn new(page_size: u32, sizes: &[u32], given: usize) -> Result<Self, Refusal> {
        if !(8..=23).any(|shift| page_size == 1 << shift) {
            return Err((INVALID_PAGE_SIZE, page_size.into()));
        }
        let page_size = page_size as usize;
        let sum: u128 = sizes.iter().map(|&size| bytes_of(size) as u128).sum();
        if sum != given as u128 {
            return Err((SIZES_DIFFER, 0));
        }
        let pages = sizes.iter().map(|&size| need(bytes_of(size), page_size));
        let directory_size = WORD * (1 + sizes.len() + pages.sum::<usize>());
        let directory = need(directory_size, page_size);
        if WORD * directory > page_size {
            return Err((DIRECTORY_TOO_LARGE, 0));
        }
        let roles = roles(page_size, sizes, directory);
        if directory_size > u32::MAX as usize || roles.len() > u32::MAX as usize {
            return Err((OVER_32_BITS, 0));
        }
        Ok(Layout {
            page_size,
            directory_size,
            roles,
        })
    }

    pub fn length(&self) -> usize {
        self.roles.len() * self.page_size
    }

    fn write(&self, sizes: &[u32], bytes: &[u8], file: &mut [u8]) {
        let (streams, directory) = (split(sizes, bytes), self.directory(sizes));
        file.iter_mut().for_each(|byte| *byte = 0);
        for (page, &role) in file.chunks_exact_mut(self.page_size).zip(&self.roles) {
            match role {
                Role::Header => self.write_header(page),
                Role::Stream(stream, i) => put(&streams[stream][i * self.page_size..], page),
                Role::Directory(i) => put(&directory[i * self.page_size..], page),
                Role::Location => put(&words(&self.directory_pages()), page),
                Role::FreeMap | Role::Padding => {}
            }
        }
        for page in self.pages(|role| role == Role::Padding) {
            self.mark_free(page as usize, file);
        }
    }

    fn write_header(&self, page: &mut [u8]) {
        let location = self.pages(|role| role == Role::Location);
        put(BIG_MAGIC, page);
        put_word(page, PAGE_SIZE, self.page_size as u32);
        put_word(page, FREE_PAGE_MAP, 1);
        put_word(page, PAGES_USED, self.roles.len() as u32);
        put_word(page, DIRECTORY_SIZE, self.directory_size as u32);
        put_word(page, ENTRIES, location[0]);
    }

    /// The bit of page n is bit n mod 8, lowest first, of byte (n mod 8P)/8 of page 1 + P*(n/8P).
    fn mark_free(&self, n: usize, file: &mut [u8]) {
        let p = self.page_size;
        let map = 1 + p * (n / (8 * p));
        file[map * p + n % (8 * p) / 8] |= 1 << (n % 8);
    }

    /// The count, the sizes, and the pages of all streams.
    fn directory(&self, sizes: &[u32]) -> Vec<u8> {
        let pages = self.pages(|role| matches!(role, Role::Stream(..)));
        words(&[&[sizes.len() as u32], sizes, &pages].concat())
    }

    fn directory_pages(&self) -> Vec<u32> {
        self.pages(|role| matches!(role, Role::Directory(_)))
    }

    /// The numbers of the pages with such a role.
    fn pages(&self, is: fn(Role) -> bool) -> Vec<u32> {
        let numbered = (0..).zip(&self.roles);
        numbered
            .filter(|(_, &role)| is(role))
            .map(|(n, _)| n)
            .collect()
    }
}

/// The bytes of each stream.
pub fn split<'b>(sizes: &[u32], mut bytes: &'b [u8]) -> Vec<&'b [u8]> {
    let mut streams = Vec::with_capacity(sizes.len());
    for &size in sizes {
        let (own, rest) = bytes.split_at(bytes_of(size));
        streams.push(own);
        bytes = rest;
    }
    streams
}

fn words(numbers: &[u32]) -> Vec<u8> {
    numbers
        .iter()
        .flat_map(|n| n.to_le_bytes().to_vec())
        .collect()
}

/// Puts bytes to the front of a page, as many as it holds.
fn put(bytes: &[u8], page: &mut [u8]) {
    let count = bytes.len().min(page.len());
    page[..count].copy_from_slice(&bytes[..count]);
}

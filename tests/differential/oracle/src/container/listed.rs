//! The bytes that answers about stream k depend on, as the project's rules list them and in their
//! order.

use std::ops::Range;

use super::files::{need, BIG_MAGIC, DIRECTORY_SIZE, ENTRIES, PAGES_USED, PAGE_SIZE};
use super::question::{Question, COUNT, DIRECTORY, EXTRACT, MAP};
use super::steps::{counted, headed, list_read, placed, readable, wanted, MOST_LOCATIONS};

/// Some of a file's bytes.
pub struct Bytes(Vec<bool>);

/// The bytes that the question's operations depend on. Opening and the location list's part have one list;
/// the directory's part, the count, mapping and extraction each include the list of the one before.
pub fn listed(file: &[u8], question: &Question) -> Bytes {
    let k = question.stream as usize;
    let asks = |operations| question.operations & operations != 0;
    let mut listed = Bytes::none(file);
    listed.put_header(file);
    listed.put_location_entries(file);
    if asks(DIRECTORY | COUNT | MAP | EXTRACT) {
        listed.put_location_list(file);
    }
    if asks(COUNT | MAP | EXTRACT) {
        listed.put_count(file);
    }
    if asks(MAP | EXTRACT) {
        listed.put_sizes(file, k);
        listed.put_own_page_entries(file, k);
    }
    if asks(EXTRACT) {
        listed.put_slices(file, k, question.limit);
    }
    listed
}

/// The pages that the directory names for streams other than k.
pub fn other_pages(file: &[u8], stream: u32) -> Bytes {
    let mut pages = Bytes::none(file);
    if let Some(header) = counted(file) {
        let own = placed(file, stream as usize).map_or(0..0, |own| own.entries());
        for w in (1 + header.count()..header.words()).filter(|w| !own.contains(w)) {
            let page = header.directory_word(w) * header.page_size;
            pages.put(page..page + header.page_size);
        }
    }
    pages
}

// The items of the list.
impl Bytes {
    /// Bytes 0 to 35 and 40 to 47, and 36 to 39 too if bytes 0 to 31 are not the big magic.
    fn put_header(&mut self, file: &[u8]) {
        self.put(0..PAGE_SIZE + 4);
        self.put(PAGES_USED..DIRECTORY_SIZE + 4);
        if !file.starts_with(BIG_MAGIC) {
            self.put(PAGE_SIZE + 4..PAGES_USED);
        }
    }

    /// The location entries in the header block, if the page size passes.
    fn put_location_entries(&mut self, file: &[u8]) {
        if let Some(header) = headed(file) {
            for j in 0..header.location_pages().min(MOST_LOCATIONS) {
                self.put_word(ENTRIES + 4 * j);
            }
        }
    }

    /// The location list, if that stage is reached and the list lies in the file.
    fn put_location_list(&mut self, file: &[u8]) {
        if let Some(header) = list_read(file) {
            for j in 0..header.directory_pages() {
                self.put_word(header.list_place(j));
            }
        }
    }

    /// The directory's count, if the directory holds it.
    fn put_count(&mut self, file: &[u8]) {
        if let Some(header) = counted(file) {
            self.put_word(header.word_place(0));
        }
    }

    /// Sizes 0 to k, as many as the directory holds, and none if k is not below the count.
    fn put_sizes(&mut self, file: &[u8], k: usize) {
        if let Some(header) = counted(file).filter(|header| k < header.count()) {
            for w in (1..2 + k).take_while(|w| header.holds(w + 1)) {
                self.put_word(header.word_place(w));
            }
        }
    }

    /// k's own page entries, as many as the directory holds.
    fn put_own_page_entries(&mut self, file: &[u8], k: usize) {
        if let Some(own) = placed(file, k) {
            for w in own.entries().take_while(|w| own.header.holds(w + 1)) {
                self.put_word(own.header.word_place(w));
            }
        }
    }

    /// The bytes that the cut slices name, if all lie in the file. Pages name the same bytes before
    /// they are merged into slices.
    fn put_slices(&mut self, file: &[u8], k: usize, limit: Option<u64>) {
        if let Some((own, length)) = readable(file, k, limit) {
            let page_size = own.header.page_size;
            for j in 0..need(length, page_size) {
                let page = own.page(j) * page_size;
                self.put(page..page + wanted(page_size, length, j));
            }
        }
    }
}

impl Bytes {
    fn none(file: &[u8]) -> Self {
        Bytes(vec![false; file.len()])
    }

    pub fn has(&self, at: usize) -> bool {
        self.0[at]
    }

    fn put_word(&mut self, at: usize) {
        self.put(at..at + 4);
    }

    /// Adds those of these bytes that the file has.
    fn put(&mut self, places: Range<usize>) {
        let end = self.0.len();
        for has in &mut self.0[places.start.min(end)..places.end.min(end)] {
            *has = true;
        }
    }
}

//! The answers of a writer of containers, as words, by the numbers of the project's rules. Each answer is a list of
//! words that begins with the number of its case.

use super::question::Question;
use crate::container::Refusal;
use crate::digest::Word::{self, Byte, Plain};

const WRITTEN: u64 = 41;
const REFUSED: u64 = 42;

/// A writer that is asked: the reckoning or our library.
pub trait Packer {
    /// Writes a container into a store: its length, or a refusal.
    fn pack(
        page_size: u32,
        sizes: &[u32],
        bytes: &[u8],
        store: &mut [u8],
    ) -> Result<usize, Refusal>;
}

/// What a writer did with a question and a store.
pub struct Outcome {
    pub result: Result<usize, Refusal>,
    pub store: Vec<u8>,
}

impl Outcome {
    pub fn of<P: Packer>(question: &Question, bytes: &[u8], room: usize) -> Self {
        let mut store: Vec<u8> = (0..room).map(untouched).collect();
        let result = P::pack(question.page_size, &question.sizes, bytes, &mut store);
        Outcome { result, store }
    }

    /// The result as words.
    pub fn result_words(&self) -> Vec<Word> {
        match self.result {
            Ok(length) => vec![Plain(WRITTEN), Plain(length as u64)],
            Err((number, value)) => vec![Plain(REFUSED), Plain(number), Plain(value)],
        }
    }

    /// The result, and then the whole store.
    pub fn words(&self) -> Vec<Word> {
        let mut words = self.result_words();
        words.extend(self.store.iter().map(|&b| Byte(b)));
        words
    }

    /// The file, if it was written.
    pub fn file(&self) -> Option<&[u8]> {
        self.result.ok().and_then(|length| self.store.get(..length))
    }
}

/// The length of a store or stream, and its bytes, eight in a word: it may be long, and a word takes sixteen bytes.
pub fn in_eights(bytes: &[u8]) -> Vec<Word> {
    let word = |bytes: &[u8]| {
        let mut eight = [0; 8];
        eight[..bytes.len()].copy_from_slice(bytes);
        Plain(u64::from_le_bytes(eight))
    };
    let mut words = vec![Plain(bytes.len() as u64)];
    words.extend(bytes.chunks(8).map(word));
    words
}

/// What byte `i` of a store begins as. It is never 0, so that a zero that is not written shows.
fn untouched(i: usize) -> u8 {
    1 + (i % 251) as u8
}

//! The answers of a writer, as words, by the numbers of the project's rules. Each answer is a list of words
//! that begins with the number of its case.

use crate::annotations::Refusal;
use crate::digest::Word::{self, Byte, Plain};

const WRITTEN: u64 = 31;
const REFUSED: u64 = 32;

/// A writer that is asked: the reckoning or our library.
pub trait Writer {
    /// Writes the annotations of a list into a store: how many bytes, or a refusal.
    fn write(list: &[i64], store: &mut [u8]) -> Result<usize, Refusal>;
}

/// What a writer did with a list and a store.
pub struct Outcome {
    pub result: Result<usize, Refusal>,
    pub store: Vec<u8>,
}

impl Outcome {
    pub fn of<W: Writer>(list: &[i64], room: usize) -> Self {
        let mut store: Vec<u8> = (0..room).map(untouched).collect();
        let result = W::write(list, &mut store);
        Outcome { result, store }
    }

    /// The result, and then the whole store.
    pub fn words(&self) -> Vec<Word> {
        let mut words = match self.result {
            Ok(length) => vec![Plain(WRITTEN), Plain(length as u64)],
            Err((number, value)) => vec![Plain(REFUSED), Plain(number), Plain(value)],
        };
        words.extend(self.store.iter().map(|&b| Byte(b)));
        words
    }
}

/// What byte `i` of a store begins as. No number begins with such a byte.
fn untouched(i: usize) -> u8 {
    0xe0 + (i % 31) as u8
}

//! The answers of pdb's `ParseBuffer`, as words. Each answer is a list of words that begins with the
//! number of its case.

use crate::common::{Error, ParseBuffer};
use crate::digest::Word::{self, Byte, Plain};

const WORD: u64 = 21;
const WORD_REFUSED: u64 = 22;
const TAKEN: u64 = 23;
const NOT_THERE: u64 = 24;

const SHORT_DATA: u64 = 7;

pub type Answer = Vec<Word>;

/// The number at a place, and the place after it.
pub fn parse_u32(bytes: &[u8], at: usize) -> Answer {
    let mut buffer = buffer_at(bytes, at);
    match buffer.parse_u32() {
        Ok(value) => vec![
            Plain(WORD),
            Plain(u64::from(value)),
            Plain(buffer.pos() as u64),
        ],
        Err(error) => vec![Plain(WORD_REFUSED), Plain(short_data(&error))],
    }
}

/// The `n` bytes from a place on: where in the whole they begin, how many there are, and each of
/// them. If they are not there, pdb refuses and there is no byte.
pub fn take(bytes: &[u8], at: usize, n: usize) -> Answer {
    match buffer_at(bytes, at).take(n) {
        Ok(part) => {
            let begins = part.as_ptr() as usize - bytes.as_ptr() as usize;
            let mut answer = vec![Plain(TAKEN), Plain(begins as u64), Plain(part.len() as u64)];
            answer.extend(part.iter().map(|&b| Byte(b)));
            answer
        }
        Err(error) => {
            short_data(&error);
            vec![Plain(NOT_THERE), Plain(0)]
        }
    }
}

fn buffer_at(bytes: &[u8], at: usize) -> ParseBuffer<'_> {
    let mut buffer = ParseBuffer::from(bytes);
    buffer.seek(at);
    buffer
}

/// Refusal 7, the only one here.
fn short_data(error: &Error) -> u64 {
    match error {
        Error::UnexpectedEof | Error::ScrollError(_) => SHORT_DATA,
        other => crate::stop(&format!("pdb refuses with {:?}, which is not 7", other)),
    }
}

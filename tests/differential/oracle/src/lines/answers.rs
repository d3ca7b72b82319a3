//! The answers of a runner, as words, by the numbers of the project's rules. Each answer is a list of words that
//! begins with the number of its case.

use crate::annotations::Refusal;
use crate::digest::Word::{self, Plain, Signed};

const RAN: u64 = 51;
const REFUSED: u64 = 52;
const REFUSED_NOWHERE: u64 = 53;

/// A refusal, and the place after it if it has one.
pub type Refused = (Refusal, Option<usize>);

/// A runner that is asked: the reckoning or our library.
pub trait Runner {
    /// Runs the line program in these bytes, with its records into a store: how many, or a refusal.
    fn run(bytes: &[u8], store: &mut [i64]) -> Result<usize, Refused>;
}

/// What a runner did with a program and a store.
pub struct Outcome {
    pub result: Result<usize, Refused>,
    pub store: Vec<i64>,
}

impl Outcome {
    pub fn of<R: Runner>(bytes: &[u8], room: usize) -> Self {
        let mut store: Vec<i64> = (0..room).map(untouched).collect();
        let result = R::run(bytes, &mut store);
        Outcome { result, store }
    }

    /// The result, and then the whole store.
    pub fn words(&self) -> Vec<Word> {
        let mut words = match self.result {
            Ok(count) => vec![Plain(RAN), Plain(count as u64)],
            Err(((number, value), Some(place))) => vec![
                Plain(REFUSED),
                Plain(number),
                Plain(value),
                Plain(place as u64),
            ],
            Err(((number, value), None)) => {
                vec![Plain(REFUSED_NOWHERE), Plain(number), Plain(value)]
            }
        };
        words.extend(self.store.iter().map(|&z| Signed(z)));
        words
    }
}

/// What entry `i` of a store begins as. No record of a program that can be asked about has such a number.
fn untouched(i: usize) -> i64 {
    -7_000_000_000_000_000_000 - (i % 65_536) as i64
}

//! A list: questions and the digests of their answers, as a sequence of records.
//!
//! A record is a header of 14 bytes, with little-endian numbers, and then the question's list of signed
//! numbers, eight bytes each: how many numbers u16, lowest room u16, highest room u16, lane a u32,
//! lane b u32.

use std::io::{self, Write};

use super::answers::Outcome;
use super::reckoning::Reckoning;
use crate::digest::Digest;
use crate::records::{number, Layout};

/// How many numbers of a list an annotation takes. (In the store of a decoder it takes one more.)
pub const RECORD_ENTRIES: usize = 3;

/// The most annotations that a list has.
pub const LONGEST: usize = 512;
/// Two bytes more than the longest list takes. An annotation has at most nine: an opcode of one byte and two
/// operands of four.
pub const LARGEST_ROOM: usize = LONGEST * 9 + 2;

/// The bytes of a number in a record.
const WIDTH: usize = 8;

pub const LAYOUT: Layout = Layout {
    header: 14,
    lanes: 6,
    body: |header| WIDTH * number(&header[..2]) as usize,
};

/// One question: writing a list into stores of each room from `low` to `high`.
#[derive(Clone, Debug)]
pub struct Question {
    pub list: Vec<i64>,
    pub low: usize,
    pub high: usize,
}

impl Question {
    /// What is reckoned for each room.
    pub fn reckoned(&self) -> impl Iterator<Item = (usize, Outcome)> + '_ {
        (self.low..=self.high).map(move |room| (room, Outcome::of::<Reckoning>(&self.list, room)))
    }

    /// The digest of the reckoned answers.
    pub fn digest(&self) -> Digest {
        let mut digest = Digest::default();
        for (_, outcome) in self.reckoned() {
            digest.mix_all(&outcome.words());
        }
        digest
    }

    fn record(&self) -> Vec<u8> {
        assert!(self.list.len() <= LONGEST * RECORD_ENTRIES);
        assert!(self.low <= self.high && self.high <= LARGEST_ROOM);
        let Digest { a, b } = self.digest();
        let mut record = Vec::with_capacity(LAYOUT.header + WIDTH * self.list.len());
        for &number in &[self.list.len(), self.low, self.high] {
            record.extend_from_slice(&(number as u16).to_le_bytes());
        }
        record.extend_from_slice(&a.to_le_bytes());
        record.extend_from_slice(&b.to_le_bytes());
        for number in &self.list {
            record.extend_from_slice(&number.to_le_bytes());
        }
        record
    }
}

/// Writes the list of these questions with the reckoned answers.
pub fn write(questions: impl Iterator<Item = Question>, out: &mut impl Write) -> io::Result<()> {
    for question in questions {
        out.write_all(&question.record())?;
    }
    Ok(())
}

/// Record `n` of a list: the question and the digest beside it.
pub fn record(list: &[u8], n: usize) -> (Question, Digest) {
    let record = LAYOUT.record(list, n);
    let half = |at: usize| number(&record[at..at + 2]) as usize;
    let numbers = record[LAYOUT.header..].chunks_exact(WIDTH);
    let question = Question {
        list: numbers.map(|bytes| number(bytes) as i64).collect(),
        low: half(2),
        high: half(4),
    };
    (question, LAYOUT.digest(record))
}

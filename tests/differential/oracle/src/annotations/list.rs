//! A list: questions and the digests of their answers, as a sequence of records.
//!
//! A record is a header of 20 bytes, with little-endian numbers, and then the question's bytes:
//! length u16, place u16, lowest room u16, highest room u16, sweep u8, three zeros, lane a u32,
//! lane b u32.

use std::borrow::Cow;
use std::io::{self, Write};

use super::answers::{self, Answer, Library, ENTRIES_EACH};
use super::pdb::Pdb;
use crate::digest::Digest;
use crate::records::{number, Layout};

pub const LONGEST: usize = 4096;
/// One entry more than all annotations of the longest string take. Each has at least two bytes.
pub const LARGEST_ROOM: usize = LONGEST / 2 * ENTRIES_EACH + 1;

pub const LAYOUT: Layout = Layout {
    header: 20,
    lanes: 12,
    body: |header| number(&header[..2]) as usize,
};

/// One question: the number and the steps at a place, and decoding all bytes into stores of each room
/// from `low` to `high`. A sweep asks it 256 times, once for each value of the last byte.
#[derive(Clone, Debug)]
pub struct Question {
    pub bytes: Vec<u8>,
    pub at: usize,
    pub low: usize,
    pub high: usize,
    pub sweep: bool,
}

impl Question {
    /// The strings that the question is about.
    pub fn strings(&self) -> Vec<Cow<'_, [u8]>> {
        if !self.sweep {
            return vec![Cow::Borrowed(&self.bytes)];
        }
        let prefix = &self.bytes[..self.bytes.len() - 1];
        let swept = |last| Cow::Owned([prefix, &[last]].concat());
        (0..=255).map(swept).collect()
    }

    /// A library's answers about one of the strings.
    pub fn answer<L: Library>(&self, bytes: &[u8]) -> Answer {
        let mut answer = Answer::new();
        answers::number::<L>(bytes, self.at, &mut answer);
        answers::steps::<L>(bytes, self.at, &mut answer);
        for room in self.low..=self.high {
            answers::decode::<L>(bytes, room, &mut answer);
        }
        answer
    }

    /// The digest of all of pdb's answers.
    pub fn digest(&self) -> Digest {
        let mut digest = Digest::default();
        for bytes in self.strings() {
            for (_, words) in self.answer::<Pdb>(&bytes) {
                digest.mix_all(&words);
            }
        }
        digest
    }

    fn record(&self) -> Vec<u8> {
        assert!(self.bytes.len() <= LONGEST && self.low <= self.high && self.high <= LARGEST_ROOM);
        assert!(!self.sweep || !self.bytes.is_empty());
        let Digest { a, b } = self.digest();
        let mut record = Vec::with_capacity(LAYOUT.header + self.bytes.len());
        for &number in &[self.bytes.len(), self.at, self.low, self.high] {
            record.extend_from_slice(&(number as u16).to_le_bytes());
        }
        record.extend_from_slice(&[u8::from(self.sweep), 0, 0, 0]);
        record.extend_from_slice(&a.to_le_bytes());
        record.extend_from_slice(&b.to_le_bytes());
        record.extend_from_slice(&self.bytes);
        record
    }
}

/// Writes the list of these questions with pdb's answers.
pub fn write(questions: impl Iterator<Item = Question>, out: &mut impl Write) -> io::Result<()> {
    for question in questions {
        out.write_all(&question.record())?;
    }
    Ok(())
}

/// Record `n` of a list: the question and the digest beside it.
pub fn record(list: &[u8], n: usize) -> (Question, Digest) {
    let record = LAYOUT.record(list, n);
    let half = |at: usize| number(&record[at..at + 2]) as usize;
    let question = Question {
        bytes: record[LAYOUT.header..].to_vec(),
        at: half(2),
        low: half(4),
        high: half(6),
        sweep: record[8] == 1,
    };
    (question, LAYOUT.digest(record))
}

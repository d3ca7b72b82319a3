//! A list: questions and the digests of their answers, as a sequence of records.
//!
//! A record is a header of 14 bytes, with little-endian numbers, and then the question's bytes: length u16,
//! lowest room u16, highest room u16, lane a u32, lane b u32.

use std::io::{self, Write};

use super::answers::Outcome;
use super::reckoning::{Reckoning, ENTRIES_EACH};
use super::tally::Tally;
use crate::digest::Digest;
use crate::records::{number, Layout};

/// The most bytes of a program.
pub const LONGEST: usize = 4096;
/// One entry more than all records of the longest program take. An annotation has at least two bytes.
pub const LARGEST_ROOM: usize = LONGEST / 2 * ENTRIES_EACH + 1;

pub const LAYOUT: Layout = Layout {
    header: 14,
    lanes: 6,
    body: |header| number(&header[..2]) as usize,
};

/// One question: running a program, with stores of each room from `low` to `high`.
#[derive(Clone, Debug)]
pub struct Question {
    pub bytes: Vec<u8>,
    pub low: usize,
    pub high: usize,
}

impl Question {
    /// What is reckoned for each room.
    pub fn reckoned(&self) -> impl Iterator<Item = (usize, Outcome)> + '_ {
        (self.low..=self.high).map(move |room| (room, Outcome::of::<Reckoning>(&self.bytes, room)))
    }

    /// The digest of the reckoned answers.
    pub fn digest(&self) -> Digest {
        let mut digest = Digest::default();
        for (_, outcome) in self.reckoned() {
            digest.mix_all(&outcome.words());
        }
        digest
    }

    fn record(&self) -> Vec<u8> {
        assert!(self.bytes.len() <= LONGEST);
        assert!(self.low <= self.high && self.high <= LARGEST_ROOM);
        let Digest { a, b } = self.digest();
        let mut record = Vec::with_capacity(LAYOUT.header + self.bytes.len());
        for &number in &[self.bytes.len(), self.low, self.high] {
            record.extend_from_slice(&(number as u16).to_le_bytes());
        }
        record.extend_from_slice(&a.to_le_bytes());
        record.extend_from_slice(&b.to_le_bytes());
        record.extend_from_slice(&self.bytes);
        record
    }
}

/// Writes the list of these questions with the reckoned answers, and says what answers they are.
pub fn write(questions: impl Iterator<Item = Question>, out: &mut impl Write) -> io::Result<()> {
    let mut tally = Tally::default();
    for question in questions {
        tally.take(&question.bytes);
        out.write_all(&question.record())?;
    }
    tally.say();
    Ok(())
}

/// Record `n` of a list: the question and the digest beside it.
pub fn record(list: &[u8], n: usize) -> (Question, Digest) {
    let record = LAYOUT.record(list, n);
    let half = |at: usize| number(&record[at..at + 2]) as usize;
    let question = Question {
        bytes: record[LAYOUT.header..].to_vec(),
        low: half(2),
        high: half(4),
    };
    (question, LAYOUT.digest(record))
}

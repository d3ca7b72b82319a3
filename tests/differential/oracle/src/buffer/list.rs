//! A list: questions and the digests of their answers, as a sequence of records.
//!
//! A record is a header of 18 bytes, with little-endian numbers, and then the question's bytes:
//! length u16, first place u16, last place u16, fewest bytes u16, most bytes u16, lane a u32,
//! lane b u32.

use std::io::{self, Write};

use super::answers::{self, Answer};
use crate::digest::Digest;
use crate::records::{number, Layout};

pub const LONGEST: usize = 4096;
pub const MOST: usize = 0xffff;

pub const LAYOUT: Layout = Layout {
    header: 18,
    lanes: 10,
    body: |header| number(&header[..2]) as usize,
};

/// One question: at each place from `first` to `last` the number, and taking each count of bytes from
/// `fewest` to `most`.
#[derive(Clone, Debug)]
pub struct Question {
    pub bytes: Vec<u8>,
    pub first: usize,
    pub last: usize,
    pub fewest: usize,
    pub most: usize,
}

impl Question {
    /// All of pdb's answers, each with what was asked.
    pub fn answers(&self) -> Vec<(String, Answer)> {
        let mut all = Vec::new();
        for at in self.first..=self.last {
            let number = answers::parse_u32(&self.bytes, at);
            all.push((format!("number at {}", at), number));
            for n in self.fewest..=self.most {
                let part = answers::take(&self.bytes, at, n);
                all.push((format!("take at {} of {}", at, n), part));
            }
        }
        all
    }

    pub fn digest(&self) -> Digest {
        let mut digest = Digest::default();
        for (_, answer) in self.answers() {
            digest.mix_all(&answer);
        }
        digest
    }

    fn record(&self) -> Vec<u8> {
        let numbers = [
            self.bytes.len(),
            self.first,
            self.last,
            self.fewest,
            self.most,
        ];
        assert!(self.bytes.len() <= LONGEST && self.last <= self.bytes.len());
        assert!(self.first <= self.last && self.fewest <= self.most && self.most <= MOST);
        let Digest { a, b } = self.digest();
        let mut record = Vec::with_capacity(LAYOUT.header + self.bytes.len());
        for &number in &numbers {
            record.extend_from_slice(&(number as u16).to_le_bytes());
        }
        record.extend_from_slice(&a.to_le_bytes());
        record.extend_from_slice(&b.to_le_bytes());
        record.extend_from_slice(&self.bytes);
        record
    }
}

/// Writes the list of these questions with pdb's answers.
pub fn write(questions: impl Iterator<Item = Question>, out: &mut impl Write) -> io::Result<()> {
    for question in questions {
        out.write_all(&question.record())?;
    }
    Ok(())
}

/// Record `n` of a list: the question and the digest beside it.
pub fn record(list: &[u8], n: usize) -> (Question, Digest) {
    let record = LAYOUT.record(list, n);
    let half = |at: usize| number(&record[at..at + 2]) as usize;
    let question = Question {
        bytes: record[LAYOUT.header..].to_vec(),
        first: half(2),
        last: half(4),
        fewest: half(6),
        most: half(8),
    };
    (question, LAYOUT.digest(record))
}

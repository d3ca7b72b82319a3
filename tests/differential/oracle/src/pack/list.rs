//! A list: questions and the digests of their answers, as a sequence of records.
//!
//! A record is a header of 26 bytes, with little-endian numbers, and then the question's sizes as runs of equal ones:
//! how many runs u16, page size u32, how many bytes are lent u32, lowest room u32, highest room u32, lane a u32, lane b
//! u32. A run is how many sizes u16, and the size u32.

use std::io::{self, Write};

use super::question::Question;
use crate::digest::Digest;
use crate::records::{number, Layout};

/// The most sizes of a question, and the most runs of equal ones.
const MOST_SIZES: usize = 16_400;
const MOST_RUNS: usize = 1_024;
/// The most bytes that are lent.
const LONGEST: usize = 1 << 17;
pub const LARGEST_ROOM: usize = 1 << 17;

/// The bytes of a run.
const RUN: usize = 6;

pub const LAYOUT: Layout = Layout {
    header: 26,
    lanes: 18,
    body: |header| RUN * number(&header[..2]) as usize,
};

impl Question {
    fn record(&self) -> Vec<u8> {
        let runs = runs(&self.sizes);
        assert!(self.sizes.len() <= MOST_SIZES && runs.len() <= MOST_RUNS);
        assert!(self.length <= LONGEST && self.low <= self.high && self.high <= LARGEST_ROOM);
        let Digest { a, b } = self.digest();
        let mut record = Vec::with_capacity(LAYOUT.header + RUN * runs.len());
        record.extend_from_slice(&(runs.len() as u16).to_le_bytes());
        for &number in &[
            self.page_size,
            self.length as u32,
            self.low as u32,
            self.high as u32,
            a,
            b,
        ] {
            record.extend_from_slice(&number.to_le_bytes());
        }
        for (count, size) in runs {
            record.extend_from_slice(&(count as u16).to_le_bytes());
            record.extend_from_slice(&size.to_le_bytes());
        }
        record
    }
}

/// The runs of equal sizes: how many, and the size.
fn runs(sizes: &[u32]) -> Vec<(usize, u32)> {
    let mut runs: Vec<(usize, u32)> = Vec::new();
    for &size in sizes {
        match runs.last_mut() {
            Some((count, last)) if *last == size => *count += 1,
            _ => runs.push((1, size)),
        }
    }
    runs
}

/// Writes the list of these questions with the reckoned answers.
pub fn write(questions: impl Iterator<Item = Question>, out: &mut impl Write) -> io::Result<()> {
    for question in questions {
        out.write_all(&question.record())?;
    }
    Ok(())
}

/// Record `n` of a list: the question and the digest beside it.
pub fn record(list: &[u8], n: usize) -> (Question, Digest) {
    let record = LAYOUT.record(list, n);
    let word = |at: usize| number(&record[at..at + 4]);
    let runs = record[LAYOUT.header..].chunks_exact(RUN);
    let sizes = runs.flat_map(|run| vec![number(&run[2..]) as u32; number(&run[..2]) as usize]);
    let question = Question {
        page_size: word(2) as u32,
        sizes: sizes.collect(),
        length: word(6) as usize,
        low: word(10) as usize,
        high: word(14) as usize,
    };
    (question, LAYOUT.digest(record))
}

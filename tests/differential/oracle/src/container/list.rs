//! A list of questions about containers: base files, and questions about edited copies of the base file
//! before them (`tests/differential/README.md` has the format).

use std::io::{self, Write};

use super::asked::{asked, Asked};
use super::question::{Question, Rooms, Run, Start, Sweep};
use super::tally::Tally;
use crate::digest::Digest;
use crate::records::{number, Layout};

pub const LONGEST_FILE: usize = 131_072;
/// A file in one piece has a few runs, since a run's count is a u16.
const LONGEST_BODY: usize = 132_096;
pub const MOST_ENTRIES: usize = 1024;
pub const MOST_BYTES: usize = 131_072;

const LAYOUT: Layout = Layout {
    header: 48,
    lanes: 40,
    body: |header| number(&header[..4]) as usize,
};

const BASE: u8 = 0;
const QUESTION: u8 = 1;

pub enum Record {
    /// The file that the questions after it edit.
    Base(Vec<u8>),
    Question(Question),
}

/// Writes the list of these records with the answers that ours must give, and says how many there are.
pub fn write(records: impl Iterator<Item = Record>, out: &mut impl Write) -> io::Result<()> {
    let mut base = Vec::new();
    let mut tally = Tally::default();
    for record in records {
        match record {
            Record::Base(file) => {
                out.write_all(&base_record(&file))?;
                base = file;
            }
            Record::Question(question) => {
                for piece in asked(&question, &base, &mut tally) {
                    out.write_all(&question_record(&piece))?;
                }
            }
        }
    }
    tally.say();
    Ok(())
}

fn base_record(file: &[u8]) -> Vec<u8> {
    assert!(file.len() <= LONGEST_FILE);
    let body = body(&runs(file));
    let mut record = Vec::with_capacity(LAYOUT.header + body.len());
    put(&mut record, body.len() as u64, 4);
    record.extend_from_slice(&[BASE, 0, 0, 0]);
    put(&mut record, file.len() as u64, 4);
    record.resize(LAYOUT.header, 0);
    record.extend_from_slice(&body);
    record
}

fn question_record(asked: &Asked) -> Vec<u8> {
    let q = &asked.question;
    assert!(q.length <= LONGEST_FILE && q.rooms.bytes <= MOST_BYTES);
    assert!(q.rooms.offsets <= MOST_ENTRIES && q.rooms.sizes <= MOST_ENTRIES);
    let body = body(&q.edits);
    let sweep = q.sweep.unwrap_or(Sweep {
        at: 0,
        first: 0,
        last: 0,
    });
    let mut record = Vec::with_capacity(LAYOUT.header + body.len());
    put(&mut record, body.len() as u64, 4);
    record.extend_from_slice(&[QUESTION, q.operations]);
    record.extend_from_slice(&[u8::from(q.limit.is_some()), u8::from(q.sweep.is_some())]);
    put(&mut record, q.length as u64, 4);
    put(&mut record, sweep.at as u64, 4);
    record.extend_from_slice(&[sweep.first, sweep.last]);
    put(&mut record, q.rooms.offsets as u64, 2);
    put(&mut record, q.rooms.sizes as u64, 2);
    record.extend_from_slice(&[from_byte(q.from), 0]);
    put(&mut record, q.rooms.bytes as u64, 4);
    put(&mut record, u64::from(q.stream), 4);
    put(&mut record, q.limit.unwrap_or(0), 8);
    put(&mut record, u64::from(asked.digest.a), 4);
    put(&mut record, u64::from(asked.digest.b), 4);
    record.extend_from_slice(&body);
    record
}

fn from_byte(from: Start) -> u8 {
    match from {
        Start::Head => 0,
        Start::Stream => 1,
        Start::End => 2,
    }
}

fn parse_from(byte: u8) -> Start {
    match byte {
        0 => Start::Head,
        1 => Start::Stream,
        _ => Start::End,
    }
}

/// Appends a little-endian number of `width` bytes.
fn put(record: &mut Vec<u8>, number: u64, width: usize) {
    record.extend_from_slice(&number.to_le_bytes()[..width]);
}

/// Runs in a record's format: place u32, count u16, bytes.
fn body(runs: &[Run]) -> Vec<u8> {
    let mut body = Vec::new();
    for run in runs {
        for (i, part) in run.bytes.chunks(usize::from(u16::MAX)).enumerate() {
            put(&mut body, (run.at + i * usize::from(u16::MAX)) as u64, 4);
            put(&mut body, part.len() as u64, 2);
            body.extend_from_slice(part);
        }
    }
    assert!(body.len() <= LONGEST_BODY);
    body
}

/// A file as runs, without its longer runs of zeros.
fn runs(file: &[u8]) -> Vec<Run> {
    /// More zeros than this are left out: a run's place and count take as many bytes.
    const GAP: usize = 6;
    let mut runs: Vec<Run> = Vec::new();
    for (at, &byte) in file.iter().enumerate().filter(|(_, &byte)| byte != 0) {
        match runs.last_mut() {
            Some(run) if at - (run.at + run.bytes.len()) <= GAP => {
                run.bytes.resize(at - run.at, 0);
                run.bytes.push(byte);
            }
            _ => runs.push(Run {
                at,
                bytes: vec![byte],
            }),
        }
    }
    runs
}

/// The question of record `n` of a list, with its base file and digest. Base files are records too.
pub fn record(list: &[u8], n: usize) -> (Question, Vec<u8>, Digest) {
    let record = LAYOUT.record(list, n);
    if record[4] == BASE {
        crate::stop(&format!("record {} is a base file, no question", n));
    }
    let base = (0..n)
        .rev()
        .map(|i| LAYOUT.record(list, i))
        .find(|record| record[4] == BASE)
        .map_or(Vec::new(), parse_base);
    (parse_question(record), base, LAYOUT.digest(record))
}

/// The list with one wrong answer.
pub fn altered(list: &[u8], n: usize) -> Vec<u8> {
    record(list, n);
    LAYOUT.altered(list, n)
}

fn parse_base(record: &[u8]) -> Vec<u8> {
    let mut file = vec![0; field(record, 8, 4)];
    for run in parse_runs(&record[LAYOUT.header..]) {
        file[run.at..run.at + run.bytes.len()].copy_from_slice(&run.bytes);
    }
    file
}

fn parse_question(record: &[u8]) -> Question {
    let sweep = Sweep {
        at: field(record, 12, 4),
        first: record[16],
        last: record[17],
    };
    Question {
        length: field(record, 8, 4),
        edits: parse_runs(&record[LAYOUT.header..]),
        sweep: if record[7] == 1 { Some(sweep) } else { None },
        operations: record[5],
        stream: field(record, 28, 4) as u32,
        limit: if record[6] == 1 {
            Some(number(&record[32..40]))
        } else {
            None
        },
        rooms: Rooms {
            offsets: field(record, 18, 2),
            sizes: field(record, 20, 2),
            bytes: field(record, 24, 4),
        },
        from: parse_from(record[22]),
    }
}

fn parse_runs(body: &[u8]) -> Vec<Run> {
    let mut runs = Vec::new();
    let mut left = body;
    while !left.is_empty() {
        let count = field(left, 4, 2);
        runs.push(Run {
            at: field(left, 0, 4),
            bytes: left[6..6 + count].to_vec(),
        });
        left = &left[6 + count..];
    }
    runs
}

fn field(record: &[u8], at: usize, width: usize) -> usize {
    number(&record[at..at + width]) as usize
}

//! What running a line program must answer, reckoned from the text of request 2026-07 and the comments of pdb's
//! `BinaryAnnotation`. pdb's own way of running one is not asked for. It decides the annotations, the refusals among
//! them with their places, and which annotations emit.
//!
//! Nothing here steps through a program with a state. Each number of the state is reckoned by itself, for all
//! annotations, in integers of 128 bits. A record then takes what each number is at its emission.

use std::ops::RangeInclusive;

use super::answers::{Refused, Runner};
use crate::annotations::{read_front, Refusal};
use crate::symbol::annotations::BinaryAnnotation::{self, *};

const NO_ROOM: u64 = 10;
const BAD_LINE: u64 = 25;

/// How many entries of a store a record takes.
pub const ENTRIES_EACH: usize = 8;

/// Offset, length, file, line, line count, kind, start column, end column.
pub type Record = [i64; ENTRIES_EACH];

/// The length of a record that has none.
const NO_LENGTH: i128 = -1;

const UNSIGNED_32: RangeInclusive<i128> = 0..=0xffff_ffff;
const SIGNED_64: RangeInclusive<i128> = -0x8000_0000_0000_0000..=0x7fff_ffff_ffff_ffff;

/// Why a program is refused.
#[derive(Clone, Copy, Debug, Eq, PartialEq)]
pub enum Why {
    /// By the decoder, with the place after it.
    Undecoded(Refusal, usize),
    /// As 25, at the annotation of that index.
    BadLine(usize, Cause),
}

/// What is wrong with an annotation that is refused as 25.
#[derive(Clone, Copy, Debug, Eq, PartialEq)]
pub enum Cause {
    OffsetAbove32Bits,
    LineOutside64Bits,
    ColumnOutside64Bits,
    FallingOffset,
    NothingEmitted,
}

pub struct Reckoning;

impl Runner for Reckoning {
    fn run(bytes: &[u8], store: &mut [i64]) -> Result<usize, Refused> {
        let records = records(bytes).map_err(|why| match why {
            Why::Undecoded(refusal, place) => (refusal, Some(place)),
            Why::BadLine(index, _) => ((BAD_LINE, index as u64), None),
        })?;
        let entries = records.concat();
        match store.get_mut(..entries.len()) {
            None => Err(((NO_ROOM, entries.len() as u64), None)),
            Some(front) => {
                front.copy_from_slice(&entries);
                Ok(records.len())
            }
        }
    }
}

/// The records of a program, or its first refusal. All annotations that pdb reads stand before the one that it
/// refuses, so if one of them is bad it comes first.
pub fn records(bytes: &[u8]) -> Result<Vec<Record>, Why> {
    let (annotations, refused) = read_front(bytes);
    let program = Program::new(annotations);
    if let Some((index, cause)) = program.first_bad() {
        return Err(Why::BadLine(index, cause));
    }
    match refused {
        Some((refusal, place)) => Err(Why::Undecoded(refusal, place)),
        None => Ok(program.records()),
    }
}

/// The entries that all records take which the annotations emit, up to the end or pdb's refusal. A runner that does
/// not judge first would write these.
pub fn emitted(bytes: &[u8]) -> usize {
    let (annotations, _) = read_front(bytes);
    ENTRIES_EACH * annotations.into_iter().filter(|a| emits(*a)).count()
}

/// 3, 11 and 12 emit. pdb must say so too.
fn emits(annotation: BinaryAnnotation) -> bool {
    let emits = matches!(
        annotation,
        ChangeCodeOffset(_)
            | ChangeCodeOffsetAndLineOffset(_, _)
            | ChangeCodeLengthAndCodeOffset(_, _)
    );
    if emits != annotation.emits_line_info() {
        crate::stop(&format!("pdb says otherwise of {:?}", annotation));
    }
    emits
}

struct Program {
    annotations: Vec<BinaryAnnotation>,
    /// The indices of the annotations that emit.
    emissions: Vec<usize>,
    /// Base plus code offset, at each emission.
    offsets: Vec<i128>,
}

impl Program {
    fn new(annotations: Vec<BinaryAnnotation>) -> Self {
        let indices = 0..annotations.len();
        let mut program = Program {
            emissions: indices.filter(|&i| emits(annotations[i])).collect(),
            annotations,
            offsets: Vec::new(),
        };
        let (bases, code_offsets) = (program.emitted(0, base), program.emitted(0, code_offset));
        let both = bases.into_iter().zip(code_offsets);
        program.offsets = both.map(|(base, code_offset)| base + code_offset).collect();
        program
    }

    /// A number of the state after each annotation. It begins as `start`.
    fn after_each<'p>(
        &'p self,
        start: i128,
        change: impl Fn(i128, BinaryAnnotation) -> i128 + 'p,
    ) -> impl Iterator<Item = i128> + 'p {
        self.annotations.iter().scan(start, move |number, &a| {
            *number = change(*number, a);
            Some(*number)
        })
    }

    /// A number of the state at each emission.
    fn emitted(&self, start: i128, change: impl Fn(i128, BinaryAnnotation) -> i128) -> Vec<i128> {
        let after = self.annotations.iter().zip(self.after_each(start, change));
        after
            .filter(|(a, _)| emits(**a))
            .map(|(_, number)| number)
            .collect()
    }

    /// The first annotation that is refused as 25.
    fn first_bad(&self) -> Option<(usize, Cause)> {
        let bad = vec![
            (self.above_32_bits(), Cause::OffsetAbove32Bits),
            (self.outside(line), Cause::LineOutside64Bits),
            (self.outside(end_column), Cause::ColumnOutside64Bits),
            (self.falling(), Cause::FallingOffset),
            (self.nothing_emitted(), Cause::NothingEmitted),
        ];
        let found = bad.into_iter().filter_map(|(at, cause)| Some((at?, cause)));
        found.min_by_key(|&(at, _)| at)
    }

    fn above_32_bits(&self) -> Option<usize> {
        let above = |k: &usize| !UNSIGNED_32.contains(&self.offsets[*k]);
        let k = (0..self.emissions.len()).find(above)?;
        Some(self.emissions[k])
    }

    /// The first annotation after which a line or column is outside of 64 bits. Both begin as 0.
    fn outside(&self, change: fn(i128, BinaryAnnotation) -> i128) -> Option<usize> {
        self.after_each(0, change)
            .position(|number| !SIGNED_64.contains(&number))
    }

    /// The first emission whose offset is below that of the record before it, if that is due a length.
    fn falling(&self) -> Option<usize> {
        let falls = |k: &usize| {
            self.given_length(k - 1).is_none() && self.offsets[*k] < self.offsets[k - 1]
        };
        let k = (1..self.emissions.len()).find(falls)?;
        Some(self.emissions[k])
    }

    /// The first 4, if it stands before every emission.
    fn nothing_emitted(&self) -> Option<usize> {
        let first = self.emissions.first().copied();
        let before = &self.annotations[..first.unwrap_or(self.annotations.len())];
        before.iter().position(|a| matches!(a, ChangeCodeLength(_)))
    }

    /// The length that record `k` has before the next one is emitted: that of the last 4 which follows it, or its
    /// own if it is a 12.
    fn given_length(&self, k: usize) -> Option<i128> {
        let from = self.emissions[k];
        let to = self.emissions.get(k + 1).copied();
        let following = &self.annotations[from + 1..to.unwrap_or(self.annotations.len())];
        let set = following.iter().rev().find_map(|&a| match a {
            ChangeCodeLength(length) => Some(length),
            _ => None,
        });
        let own = match self.annotations[from] {
            ChangeCodeLengthAndCodeOffset(length, _) => Some(length),
            _ => None,
        };
        set.or(own).map(i128::from)
    }

    /// The length of record `k`: the one that it has, else the distance to the next record, else none.
    fn length(&self, k: usize) -> i128 {
        let next = self.offsets.get(k + 1);
        let distance = next.map(|next| next - self.offsets[k]);
        self.given_length(k).or(distance).unwrap_or(NO_LENGTH)
    }

    /// The records, if no annotation is bad.
    fn records(&self) -> Vec<Record> {
        let columns = [
            self.offsets.clone(),
            (0..self.emissions.len()).map(|k| self.length(k)).collect(),
            self.emitted(0, file),
            self.emitted(0, line),
            self.emitted(1, line_count),
            self.emitted(1, kind),
            self.emitted(0, start_column),
            self.emitted(0, end_column),
        ];
        let record = |k: usize| {
            let mut record = [0; ENTRIES_EACH];
            for (entry, column) in record.iter_mut().zip(&columns) {
                *entry = column[k] as i64;
            }
            record
        };
        (0..self.emissions.len()).map(record).collect()
    }
}

// What an annotation makes of each number of the state.

fn code_offset(number: i128, annotation: BinaryAnnotation) -> i128 {
    match annotation {
        CodeOffset(absolute) => absolute.into(),
        ChangeCodeOffset(delta) => number + i128::from(delta),
        ChangeCodeOffsetAndLineOffset(delta, _) => number + i128::from(delta),
        ChangeCodeLengthAndCodeOffset(_, delta) => number + i128::from(delta),
        _ => number,
    }
}

fn base(number: i128, annotation: BinaryAnnotation) -> i128 {
    match annotation {
        ChangeCodeOffsetBase(absolute) => absolute.into(),
        _ => number,
    }
}

fn file(number: i128, annotation: BinaryAnnotation) -> i128 {
    match annotation {
        ChangeFile(file) => file.0.into(),
        _ => number,
    }
}

fn line(number: i128, annotation: BinaryAnnotation) -> i128 {
    match annotation {
        ChangeLineOffset(delta) => number + i128::from(delta),
        ChangeCodeOffsetAndLineOffset(_, delta) => number + i128::from(delta),
        _ => number,
    }
}

fn line_count(number: i128, annotation: BinaryAnnotation) -> i128 {
    match annotation {
        ChangeLineEndDelta(count) => count.into(),
        _ => number,
    }
}

fn kind(number: i128, annotation: BinaryAnnotation) -> i128 {
    match annotation {
        ChangeRangeKind(kind) => kind.into(),
        _ => number,
    }
}

fn start_column(number: i128, annotation: BinaryAnnotation) -> i128 {
    match annotation {
        ChangeColumnStart(column) => column.into(),
        _ => number,
    }
}

fn end_column(number: i128, annotation: BinaryAnnotation) -> i128 {
    match annotation {
        ChangeColumnEnd(column) => column.into(),
        ChangeColumnEndDelta(delta) => number + i128::from(delta),
        _ => number,
    }
}

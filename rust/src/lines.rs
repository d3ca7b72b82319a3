//! Line records: what the line program of an inlined function makes of its annotations.

use crate::{ffi, DecodeRefusal};
use core::iter::FusedIterator;
use core::slice::ChunksExact;

/// How many entries of its store [`run_lines`] writes for a line record.
pub const LINE_ENTRIES: usize = 8;

/// Runs the line program of an inlined function. Writes its line records to the front of `store`, [`LINE_ENTRIES`]
/// entries each, in the order of the fields of [`LineRecord`], where -1 stands for no length. Returns how many records
/// there are. [`line_records`] reads them.
///
/// At the start the code offset, its base, the file, the line and both columns are 0, the line count and the kind 1.
/// Each annotation changes these as [`BinaryAnnotation`] says. Those that emit a record then emit it with what these
/// have come to, and its offset is the base plus the code offset.
///
/// A record has a length if its own annotation gives it one, or a later one sets it. Else it gets one when the next
/// record is emitted: the difference of their offsets. So only the last record may have none.
///
/// # Offsets after opcode 4
///
/// `ChangeCodeLength` (4) sets a length and does not move the code offset. LLVM, and the crate pdb where it evaluates
/// line programs, move it by that length, and clang counts on that: in most programs that clang writes, records after a
/// 4 begin too early here, by the lengths that 4 set before them. See docs/LINES.md of the repository before you map
/// addresses to lines.
///
/// # Errors
///
/// Refuses with the first refusal met, annotation after annotation: with 7, 8 or 9 as [`decode`] does, and with 25 and
/// the annotation's index, from 0, if
///
/// - a record's offset takes more than 32 bits, or is below that of the record before it while that has no length;
/// - the line or the end column leaves 64 bits;
/// - it sets the length of the record before it, and there is none.
///
/// If there is no other refusal, refuses with 10 if the store has fewer than [`LINE_ENTRIES`] entries for each record.
///
/// ```
/// use trovespan::{line_records, run_lines, LINE_ENTRIES};
///
/// // File 8; 6 bytes of code and 1 line on; 3 bytes and 2 lines on; 5 bytes long.
/// let mut store = [0; 16];
/// let count = run_lines(&[5, 8, 11, 0x26, 11, 0x43, 4, 5], &mut store)?;
/// assert_eq!(count, 2);
/// assert_eq!(store, [6, 3, 8, 1, 1, 1, 0, 0, 9, 5, 8, 3, 1, 1, 0, 0]);
///
/// let records = line_records(&store[..LINE_ENTRIES * count]).flatten();
/// assert!(records.map(|record| (record.offset, record.line)).eq([(6, 1), (9, 3)]));
/// # Ok::<(), trovespan::DecodeRefusal>(())
/// ```
///
/// [`BinaryAnnotation`]: crate::BinaryAnnotation
/// [`decode`]: crate::decode
pub fn run_lines(bytes: &[u8], store: &mut [i64]) -> Result<usize, DecodeRefusal> {
    let (number, value, place) = ffi::run_lines(bytes, store);
    DecodeRefusal::judge(number, value, place)?;
    Ok(value as usize)
}

/// A line record: which lines of which file a piece of code comes from.
#[derive(Clone, Copy, Debug, PartialEq, Eq, Hash)]
pub struct LineRecord {
    /// Where the code begins, as [`run_lines`] counts it.
    pub offset: u32,
    /// The number of bytes of the code. `None` if the line program does not say it.
    pub length: Option<u32>,
    /// The index of the file, as in [`FileIndex`](crate::FileIndex).
    pub file: u32,
    /// The first line, relative to where the line program starts. It may be below zero.
    pub line: i64,
    /// How many lines there are.
    pub line_count: u32,
    /// 0 for an expression, 1 for a statement. Other kinds are kept as they are given.
    pub kind: u32,
    /// The start column. 0 means none.
    pub start_column: u32,
    /// The end column. It may be below zero.
    pub end_column: i64,
}

impl LineRecord {
    /// Returns the record that has these entries, as [`run_lines`] writes them. `None` if an entry does not fit its
    /// field, or if the length is below -1: [`run_lines`] writes no such entries.
    ///
    /// ```
    /// use trovespan::LineRecord;
    ///
    /// let record = LineRecord::from_entries(&[9, -1, 8, -3, 1, 1, 0, 0]).unwrap();
    /// assert_eq!((record.offset, record.length, record.line), (9, None, -3));
    /// assert_eq!(LineRecord::from_entries(&[-1; 8]), None);
    /// ```
    #[must_use]
    pub fn from_entries(entries: &[i64; LINE_ENTRIES]) -> Option<Self> {
        let unsigned = |entry: i64| u32::try_from(entry).ok();
        let [offset, length, file, line, line_count, kind, start_column, end_column] = *entries;
        Some(Self {
            offset: unsigned(offset)?,
            length: if length == ffi::NO_LENGTH { None } else { Some(unsigned(length)?) },
            file: unsigned(file)?,
            line,
            line_count: unsigned(line_count)?,
            kind: unsigned(kind)?,
            start_column: unsigned(start_column)?,
            end_column,
        })
    }
}

/// An iterator over line records in a store. [`line_records`] makes it.
#[derive(Clone, Debug)]
pub struct LineRecords<'a> {
    entries: ChunksExact<'a, i64>,
}

/// Iterates over the line records in a store, [`LINE_ENTRIES`] entries each, and allocates nothing. Entries after the
/// last whole record are not read.
///
/// An item is `None` if its entries are none that [`run_lines`] writes, as [`LineRecord::from_entries`] says. So lend
/// the entries that it wrote, [`LINE_ENTRIES`] times as many as it returned, and every item is a record.
///
/// ```
/// use trovespan::{line_records, run_lines, LINE_ENTRIES};
///
/// let mut store = [0; 100];
/// let count = run_lines(&[3, 5, 3, 2], &mut store)?;
/// let mut records = line_records(&store[..LINE_ENTRIES * count]).flatten();
/// assert_eq!(records.next().map(|first| (first.offset, first.length)), Some((5, Some(2))));
/// assert_eq!(records.next().map(|last| (last.offset, last.length)), Some((7, None)));
/// assert_eq!(records.next(), None);
/// # Ok::<(), trovespan::DecodeRefusal>(())
/// ```
#[must_use]
pub fn line_records(store: &[i64]) -> LineRecords<'_> {
    LineRecords { entries: store.chunks_exact(LINE_ENTRIES) }
}

/// The record of one chunk.
fn record(entries: &[i64]) -> Option<LineRecord> {
    LineRecord::from_entries(entries.try_into().ok()?)
}

impl Iterator for LineRecords<'_> {
    type Item = Option<LineRecord>;

    fn next(&mut self) -> Option<Self::Item> {
        self.entries.next().map(record)
    }

    fn size_hint(&self) -> (usize, Option<usize>) {
        self.entries.size_hint()
    }

    fn nth(&mut self, n: usize) -> Option<Self::Item> {
        self.entries.nth(n).map(record)
    }
}

impl DoubleEndedIterator for LineRecords<'_> {
    fn next_back(&mut self) -> Option<Self::Item> {
        self.entries.next_back().map(record)
    }
}

impl ExactSizeIterator for LineRecords<'_> {}

impl FusedIterator for LineRecords<'_> {}

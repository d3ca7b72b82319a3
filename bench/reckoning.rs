//! A line program run by plain Rust over pdb's iterator of annotations. pdb's own evaluation is not among the
//! sources that the oracle has, and follows other rules than ours. So beside `lines` stands what our rules cost
//! in Rust.

use trovespan::LINE_ENTRIES;

use crate::symbol::annotations::{BinaryAnnotation, BinaryAnnotations};
use crate::FallibleIterator;

#[derive(Clone, Copy)]
struct Line {
    offset: u32,
    length: Option<u32>,
    file: u32,
    line: i64,
    count: u32,
    kind: u32,
    start: u32,
    end: i64,
}

impl Line {
    fn entries(self) -> [i64; LINE_ENTRIES] {
        [
            i64::from(self.offset),
            self.length.map_or(-1, i64::from),
            i64::from(self.file),
            self.line,
            i64::from(self.count),
            i64::from(self.kind),
            i64::from(self.start),
            self.end,
        ]
    }
}

struct Program {
    base: u32,
    code: u32,
    /// What the next record has, but for its offset and length.
    next: Line,
    /// The record that was emitted last. Its length may still be set.
    last: Option<Line>,
}

impl Program {
    fn new() -> Self {
        let next = Line {
            offset: 0,
            length: None,
            file: 0,
            line: 0,
            count: 1,
            kind: 1,
            start: 0,
            end: 0,
        };
        Program {
            base: 0,
            code: 0,
            next,
            last: None,
        }
    }

    /// Takes an annotation, and returns the record that it closes, if it closes one. `None` if it cannot be run.
    fn take(&mut self, annotation: BinaryAnnotation) -> Option<Option<Line>> {
        use BinaryAnnotation::*;
        match annotation {
            CodeOffset(v) => self.code = v,
            ChangeCodeOffsetBase(v) => self.base = v,
            ChangeCodeOffset(v) => return self.emit(v, None),
            ChangeCodeLength(v) => self.last.as_mut()?.length = Some(v),
            ChangeFile(file) => self.next.file = file.0,
            ChangeLineOffset(z) => self.next.line = self.next.line.checked_add(i64::from(z))?,
            ChangeLineEndDelta(v) => self.next.count = v,
            ChangeRangeKind(v) => self.next.kind = v,
            ChangeColumnStart(v) => self.next.start = v,
            ChangeColumnEndDelta(z) => self.next.end = self.next.end.checked_add(i64::from(z))?,
            ChangeCodeOffsetAndLineOffset(v, z) => {
                self.next.line = self.next.line.checked_add(i64::from(z))?;
                return self.emit(v, None);
            }
            ChangeCodeLengthAndCodeOffset(v, w) => return self.emit(w, Some(v)),
            ChangeColumnEnd(v) => self.next.end = i64::from(v),
        }
        Some(None)
    }

    fn emit(&mut self, by: u32, length: Option<u32>) -> Option<Option<Line>> {
        self.code = self.code.checked_add(by)?;
        let offset = self.base.checked_add(self.code)?;
        if let Some(last) = &mut self.last {
            if last.length.is_none() {
                last.length = Some(offset.checked_sub(last.offset)?);
            }
        }
        Some(self.last.replace(Line {
            offset,
            length,
            ..self.next
        }))
    }
}

/// Hands out each record. `None` if the program is refused.
fn each(bytes: &[u8], mut take: impl FnMut(Line)) -> Option<()> {
    let mut program = Program::new();
    let mut annotations = BinaryAnnotations::new(bytes).iter();
    while let Some(annotation) = annotations.next().ok()? {
        if let Some(line) = program.take(annotation)? {
            take(line);
        }
    }
    program.last.into_iter().for_each(take);
    Some(())
}

/// Runs the program twice, as ours does: it writes nothing before it has judged all. Returns how many records
/// there are.
pub fn run_lines(bytes: &[u8], store: &mut [i64]) -> Option<usize> {
    let mut count = 0;
    each(bytes, |_| count += 1)?;
    let mut room = store
        .get_mut(..LINE_ENTRIES * count)?
        .chunks_exact_mut(LINE_ENTRIES);
    each(bytes, |line| {
        if let Some(entries) = room.next() {
            entries.copy_from_slice(&line.entries());
        }
    })?;
    Some(count)
}

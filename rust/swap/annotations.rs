// Stands in for src/symbol/annotations.rs of pdb 0.8.0, Copyright 2017 pdb Developers, whose names
// it keeps. Changed: Trovespan's proved library reads the annotations.
//
// Licensed under the Apache License, Version 2.0, <LICENSE-APACHE or
// http://apache.org/licenses/LICENSE-2.0> or the MIT license <LICENSE-MIT or
// http://opensource.org/licenses/MIT>, at your option, as pdb is.

//! Binary annotations. Each is read by a step of the proved library.

use trovespan::{BinaryAnnotation as Read, Step};

use crate::common::*;
use crate::msf::error;
use crate::FallibleIterator;

/// A binary annotation: an instruction of the line program of an inlined function (`S_INLINESITE`).
#[derive(Clone, Copy, Debug, Eq, PartialEq)]
pub enum BinaryAnnotation {
    /// Sets the code offset.
    CodeOffset(u32),
    /// Sets the base to which the code offsets after it are relative.
    ChangeCodeOffsetBase(u32),
    /// **Emitting**. Advances the code offset.
    ChangeCodeOffset(u32),
    /// Sets the code length of the line record before it.
    ChangeCodeLength(u32),
    /// Sets the file of the line records after it.
    ChangeFile(FileIndex),
    /// Advances the line number.
    ChangeLineOffset(i32),
    /// Sets how many lines the line records after it cover. Before it, that is 1.
    ChangeLineEndDelta(u32),
    /// Sets the kind of the line records after it. Before it, that is a statement.
    ChangeRangeKind(u32),
    /// Sets the start column. Before it, there is none.
    ChangeColumnStart(u32),
    /// Advances the end column.
    ChangeColumnEndDelta(i32),
    /// **Emitting**. Advances the code offset and the line number.
    ChangeCodeOffsetAndLineOffset(u32, i32),
    /// **Emitting**. Sets the code length of its line record, and advances the code offset.
    ChangeCodeLengthAndCodeOffset(u32, u32),
    /// Sets the end column.
    ChangeColumnEnd(u32),
}

impl BinaryAnnotation {
    /// Returns whether the annotation emits a line record.
    pub fn emits_line_info(self) -> bool {
        matches!(
            self,
            Self::ChangeCodeOffset(..)
                | Self::ChangeCodeOffsetAndLineOffset(..)
                | Self::ChangeCodeLengthAndCodeOffset(..)
        )
    }

    /// The annotation that the library has read, as this crate names it.
    fn named(read: Read) -> Self {
        match read {
            Read::CodeOffset(offset) => Self::CodeOffset(offset),
            Read::ChangeCodeOffsetBase(base) => Self::ChangeCodeOffsetBase(base),
            Read::ChangeCodeOffset(offset) => Self::ChangeCodeOffset(offset),
            Read::ChangeCodeLength(length) => Self::ChangeCodeLength(length),
            Read::ChangeFile(file) => Self::ChangeFile(FileIndex(file.0)),
            Read::ChangeLineOffset(lines) => Self::ChangeLineOffset(lines),
            Read::ChangeLineEndDelta(lines) => Self::ChangeLineEndDelta(lines),
            Read::ChangeRangeKind(kind) => Self::ChangeRangeKind(kind),
            Read::ChangeColumnStart(column) => Self::ChangeColumnStart(column),
            Read::ChangeColumnEndDelta(columns) => Self::ChangeColumnEndDelta(columns),
            Read::ChangeCodeOffsetAndLineOffset(offset, lines) => {
                Self::ChangeCodeOffsetAndLineOffset(offset, lines)
            }
            Read::ChangeCodeLengthAndCodeOffset(length, offset) => {
                Self::ChangeCodeLengthAndCodeOffset(length, offset)
            }
            Read::ChangeColumnEnd(column) => Self::ChangeColumnEnd(column),
        }
    }
}

/// An iterator over binary annotations.
#[derive(Clone, Debug, Default)]
pub struct BinaryAnnotationsIter<'t> {
    data: &'t [u8],
    /// The place where the next step begins.
    at: usize,
}

impl<'t> FallibleIterator for BinaryAnnotationsIter<'t> {
    type Item = BinaryAnnotation;
    type Error = Error;

    fn next(&mut self) -> Result<Option<Self::Item>> {
        let (step, next) = trovespan::step(self.data, self.at);
        self.at = next;
        match step {
            Step::Annotation {
                opcode,
                first,
                second,
                ..
            } => match Read::new(opcode, first, second) {
                Some(read) => Ok(Some(BinaryAnnotation::named(read))),
                None => Err(Error::UnknownBinaryAnnotation(opcode)),
            },
            Step::End => Ok(None),
            Step::Refused(why) => Err(error(why)),
        }
    }
}

/// The binary annotations of a symbol.
#[derive(Clone, Copy, Debug, Default, Eq, PartialEq)]
pub struct BinaryAnnotations<'t> {
    data: &'t [u8],
}

impl<'t> BinaryAnnotations<'t> {
    /// The annotations in these bytes.
    pub(crate) fn new(data: &'t [u8]) -> Self {
        BinaryAnnotations { data }
    }

    /// Iterates over the annotations.
    pub fn iter(&self) -> BinaryAnnotationsIter<'t> {
        BinaryAnnotationsIter {
            data: self.data,
            at: 0,
        }
    }
}

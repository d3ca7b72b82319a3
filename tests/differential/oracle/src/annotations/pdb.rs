//! pdb's answers, by the numbers of the project's rules. pdb says what a number is, and the places before and
//! after it. Whether that is the shortest form is judged here, by the table of forms.

use super::answers::{Annotation, Library, Number, Refusal, Step, ENTRIES_EACH};
use super::forms;
use crate::common::Error;
use crate::symbol::annotations::{BinaryAnnotation, BinaryAnnotations, BinaryAnnotationsIter};
use crate::FallibleIterator;

// The refusals.
const SHORT_DATA: u64 = 7;
const INVALID_COMPRESSED_ANNOTATION: u64 = 8;
const UNKNOWN_BINARY_ANNOTATION: u64 = 9;
const NO_ROOM: u64 = 10;

pub struct Pdb;

impl Library for Pdb {
    fn number(bytes: &[u8], at: usize) -> (Result<Number, Refusal>, usize) {
        let mut iter = iter_at(bytes, at);
        let number = next_number(&mut iter);
        (number.map_err(|error| refusal(&error)), iter.buffer.pos())
    }

    fn steps(bytes: &[u8], at: usize) -> Vec<(Step, usize)> {
        let mut iter = iter_at(bytes, at);
        let mut steps = Vec::new();
        loop {
            let step = match next_annotation(bytes, &mut iter) {
                Ok(Some((annotation, shortest))) => Step::Annotation(Annotation {
                    triple: triple(annotation),
                    shortest,
                    emits: Some(annotation.emits_line_info()),
                }),
                Ok(None) => {
                    // The iterator drops its buffer at the end, so the place is the length.
                    steps.push((Step::End, bytes.len()));
                    return steps;
                }
                Err(error) => Step::Refused(refusal(&error)),
            };
            steps.push((step, iter.buffer.pos()));
        }
    }

    /// pdb has no such function. This is its iterator, run from the start, and the rules' own refusal for
    /// a store that is too small.
    fn decode(bytes: &[u8], store: &mut [i64]) -> Result<usize, (Refusal, Option<usize>)> {
        let entries = entries(bytes).map_err(|(refusal, place)| (refusal, Some(place)))?;
        match store.get_mut(..entries.len()) {
            None => Err(((NO_ROOM, entries.len() as u64), None)),
            Some(front) => {
                front.copy_from_slice(&entries);
                Ok(entries.len() / ENTRIES_EACH)
            }
        }
    }
}

/// The store entries of the annotations up to the end, or the first refusal and the place after it.
fn entries(bytes: &[u8]) -> Result<Vec<i64>, (Refusal, usize)> {
    let mut entries = Vec::new();
    match each(bytes, |annotation| entries.extend_from_slice(&annotation)) {
        None => Ok(entries),
        Some(refused) => Err(refused),
    }
}

/// The store entries of the annotations, if every byte is part of one.
pub fn read_whole(bytes: &[u8]) -> Option<Vec<i64>> {
    let mut iter = iter_at(bytes, 0);
    let mut entries = Vec::new();
    let mut read = 0;
    while let Some((annotation, shortest)) = next_annotation(bytes, &mut iter).ok()? {
        entries.extend_from_slice(&entries_of(annotation, shortest));
        read = iter.buffer.pos();
    }
    (read == bytes.len()).then_some(entries)
}

/// The annotations up to the end or the first refusal; then that refusal, and the place after it.
pub fn read_front(bytes: &[u8]) -> (Vec<BinaryAnnotation>, Option<(Refusal, usize)>) {
    let mut iter = iter_at(bytes, 0);
    let mut annotations = Vec::new();
    loop {
        match iter.next() {
            Ok(Some(annotation)) => annotations.push(annotation),
            Ok(None) => return (annotations, None),
            Err(error) => return (annotations, Some((refusal(&error), iter.buffer.pos()))),
        }
    }
}

/// The number of store entries that the annotations take, up to the end or the first refusal.
pub fn needed(bytes: &[u8]) -> usize {
    let mut needed = 0;
    each(bytes, |annotation| needed += annotation.len());
    needed
}

/// Passes on the store entries of each annotation, up to the end or the first refusal.
fn each(bytes: &[u8], mut take: impl FnMut([i64; ENTRIES_EACH])) -> Option<(Refusal, usize)> {
    let mut iter = iter_at(bytes, 0);
    loop {
        match next_annotation(bytes, &mut iter) {
            Ok(Some((annotation, shortest))) => take(entries_of(annotation, shortest)),
            Ok(None) => return None,
            Err(error) => return Some((refusal(&error), iter.buffer.pos())),
        }
    }
}

/// The next annotation of these bytes, and whether all its numbers have their shortest form.
fn next_annotation(
    bytes: &[u8],
    iter: &mut BinaryAnnotationsIter<'_>,
) -> Result<Option<(BinaryAnnotation, bool)>, Error> {
    let from = iter.buffer.pos();
    let annotation = iter.next()?;
    Ok(annotation.map(|annotation| {
        let shortest = all_shortest(bytes, from, iter.buffer.pos());
        (annotation, shortest)
    }))
}

/// Whether all numbers between two places have their shortest form. pdb has found an annotation there.
fn all_shortest(bytes: &[u8], from: usize, to: usize) -> bool {
    let mut iter = iter_at(bytes, from);
    let mut shortest = true;
    while iter.buffer.pos() < to {
        let number = next_number(&mut iter).expect("pdb has read this number");
        shortest &= number.shortest;
    }
    shortest
}

/// The next number.
fn next_number(iter: &mut BinaryAnnotationsIter<'_>) -> Result<Number, Error> {
    let from = iter.buffer.pos();
    let value = iter.uncompress_next()?;
    let taken = iter.buffer.pos() - from;
    Ok(Number {
        value,
        taken,
        shortest: forms::is_shortest(value, taken),
    })
}

fn iter_at(bytes: &[u8], at: usize) -> BinaryAnnotationsIter<'_> {
    let mut iter = BinaryAnnotations::new(bytes).iter();
    iter.buffer.seek(at);
    iter
}

fn refusal(error: &Error) -> Refusal {
    match error {
        Error::UnexpectedEof | Error::ScrollError(_) => (SHORT_DATA, 0),
        Error::InvalidCompressedAnnotation => (INVALID_COMPRESSED_ANNOTATION, 0),
        Error::UnknownBinaryAnnotation(opcode) => (UNKNOWN_BINARY_ANNOTATION, u64::from(*opcode)),
        other => crate::stop(&format!(
            "pdb refuses with {:?}, which has no number",
            other
        )),
    }
}

/// An annotation's entries in a store: its triple, and 1 if all its numbers have their shortest form, else 0.
fn entries_of(annotation: BinaryAnnotation, shortest: bool) -> [i64; ENTRIES_EACH] {
    let [opcode, first, second] = triple(annotation);
    [opcode, first, second, i64::from(shortest)]
}

/// Opcode, first operand, second operand or 0.
pub fn triple(annotation: BinaryAnnotation) -> [i64; 3] {
    use BinaryAnnotation::*;
    match annotation {
        CodeOffset(v) => [1, i64::from(v), 0],
        ChangeCodeOffsetBase(v) => [2, i64::from(v), 0],
        ChangeCodeOffset(v) => [3, i64::from(v), 0],
        ChangeCodeLength(v) => [4, i64::from(v), 0],
        ChangeFile(file) => [5, i64::from(file.0), 0],
        ChangeLineOffset(z) => [6, i64::from(z), 0],
        ChangeLineEndDelta(v) => [7, i64::from(v), 0],
        ChangeRangeKind(v) => [8, i64::from(v), 0],
        ChangeColumnStart(v) => [9, i64::from(v), 0],
        ChangeColumnEndDelta(z) => [10, i64::from(z), 0],
        ChangeCodeOffsetAndLineOffset(v, z) => [11, i64::from(v), i64::from(z)],
        ChangeCodeLengthAndCodeOffset(v, w) => [12, i64::from(v), i64::from(w)],
        ChangeColumnEnd(v) => [13, i64::from(v), 0],
    }
}

//! Answers by their fields. The crate may add fields, so a test cannot write down the answers themselves.
#![allow(dead_code)] // Each test uses what it needs.

use trovespan::{map, open, step, Refusal, Step};

/// The page size and the number of pages used.
pub fn opened(file: &[u8]) -> Result<(u32, u32), Refusal> {
    open(file).map(|opened| (opened.page_size, opened.pages_used))
}

/// The number of slices and the length.
pub fn map_counts(
    file: &[u8],
    stream: u32,
    limit: Option<usize>,
    offsets: &mut [u64],
    sizes: &mut [u64],
) -> Result<(usize, usize), Refusal> {
    map(file, stream, limit, offsets, sizes).map(|mapped| (mapped.slices, mapped.length))
}

/// What a step finds.
#[derive(Clone, Copy, Debug, PartialEq, Eq)]
pub enum Found {
    /// Opcode, first operand, second operand, and whether all numbers have their shortest form.
    Annotation(u32, i64, i64, bool),
    End,
    Refused(Refusal),
}

/// A step, and the place after it.
pub fn stepped(bytes: &[u8], at: usize) -> (Found, usize) {
    let (step, next) = step(bytes, at);
    let found = match step {
        Step::Annotation { opcode, first, second, shortest, .. } => Found::Annotation(opcode, first, second, shortest),
        Step::End => Found::End,
        Step::Refused(why) => Found::Refused(why),
    };
    (found, next)
}

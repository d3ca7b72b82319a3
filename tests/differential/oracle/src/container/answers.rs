//! The answers of a library about a container, as words, by the numbers of the project's rules. Each
//! answer is a list of words that begins with the number of its case. `None` means that pdb cannot be
//! asked.

use super::listing::Listing;
use crate::digest::Word::{self, Byte, Plain};

// The cases.
const OPENED: u64 = 11;
const OPEN_REFUSED: u64 = 12;
const COUNTED: u64 = 13;
const COUNT_REFUSED: u64 = 14;
const MAPPED: u64 = 15;
const MAP_REFUSED: u64 = 16;
const EXTRACTED: u64 = 17;
const EXTRACT_REFUSED: u64 = 18;
const NEEDED: u64 = 61;
const NEED_REFUSED: u64 = 62;

/// A refusal's number and value.
pub type Refusal = (u64, u64);

pub type Answer = Vec<Word>;

/// A stage of what mapping reads before it comes to the stream.
#[derive(Clone, Copy, Debug, Eq, PartialEq)]
pub enum Stage {
    LocationList,
    Directory,
}

/// A library that is asked: pdb, in two ways, or ours.
pub trait Library {
    /// The page size and pages_used.
    fn open(file: &[u8]) -> Result<(u64, u64), Refusal>;

    /// The number of streams.
    fn count(file: &[u8]) -> Option<Result<u64, Refusal>>;

    /// Maps a stream, cut to the limit, into two stores: the number of slices, and their length.
    fn map(
        file: &[u8],
        stream: u32,
        limit: Option<usize>,
        offsets: &mut [u64],
        sizes: &mut [u64],
    ) -> Option<Result<(usize, usize), Refusal>>;

    /// Extracts a stream, cut to the limit, into a store: the number of bytes.
    fn extract(
        file: &[u8],
        stream: u32,
        limit: Option<usize>,
        out: &mut [u8],
    ) -> Option<Result<usize, Refusal>>;

    /// The slices of the part that mapping reads at a stage, into two stores: their number, and their
    /// length.
    fn need(
        file: &[u8],
        stage: Stage,
        offsets: &mut [u64],
        sizes: &mut [u64],
    ) -> Result<(usize, usize), Refusal>;

    /// The listing, which our crate does not have.
    fn listing(_: &[u8]) -> Option<Listing> {
        None
    }
}

pub fn open<L: Library>(file: &[u8]) -> Answer {
    match L::open(file) {
        Ok((size, used)) => vec![Plain(OPENED), Plain(size), Plain(used)],
        Err(refusal) => refused(OPEN_REFUSED, refusal),
    }
}

pub fn count<L: Library>(file: &[u8]) -> Option<Answer> {
    Some(match L::count(file)? {
        Ok(streams) => vec![Plain(COUNTED), Plain(streams)],
        Err(refusal) => refused(COUNT_REFUSED, refusal),
    })
}

/// Maps the stream into stores of these rooms; then both stores.
pub fn map<L: Library>(
    file: &[u8],
    stream: u32,
    limit: Option<u64>,
    rooms: (usize, usize),
) -> Option<Answer> {
    let (mut offsets, mut sizes) = entries(rooms);
    let mapped = L::map(file, stream, bytes(limit), &mut offsets, &mut sizes)?;
    let cases = (MAPPED, MAP_REFUSED);
    Some(stored(cases, mapped, offsets, sizes))
}

/// The part of a stage into stores of these rooms; then both stores.
pub fn need<L: Library>(file: &[u8], stage: Stage, rooms: (usize, usize)) -> Answer {
    let (mut offsets, mut sizes) = entries(rooms);
    let needed = L::need(file, stage, &mut offsets, &mut sizes);
    stored((NEEDED, NEED_REFUSED), needed, offsets, sizes)
}

/// The number of slices and their length, or the refusal, by its case; then both stores.
fn stored(
    (accepted, case): (u64, u64),
    result: Result<(usize, usize), Refusal>,
    offsets: Vec<u64>,
    sizes: Vec<u64>,
) -> Answer {
    let mut answer = match result {
        Ok((slices, length)) => {
            vec![Plain(accepted), Plain(slices as u64), Plain(length as u64)]
        }
        Err(refusal) => refused(case, refusal),
    };
    answer.extend(offsets.into_iter().chain(sizes).map(Plain));
    answer
}

/// Extracts the stream into a store of `room` bytes; then the store.
pub fn extract<L: Library>(
    file: &[u8],
    stream: u32,
    limit: Option<u64>,
    room: usize,
) -> Option<Answer> {
    let mut store = untouched(room);
    let mut answer = match L::extract(file, stream, bytes(limit), &mut store)? {
        Ok(length) => vec![Plain(EXTRACTED), Plain(length as u64)],
        Err(refusal) => refused(EXTRACT_REFUSED, refusal),
    };
    answer.extend(store.into_iter().map(Byte));
    Some(answer)
}

/// The stores of these rooms for offsets and for sizes before they are lent.
fn entries(rooms: (usize, usize)) -> (Vec<u64>, Vec<u64>) {
    let from = |first: u64, room: usize| (first..first + room as u64).collect();
    (
        from(7_000_000_000_000_000_000, rooms.0),
        from(8_000_000_000_000_000_000, rooms.1),
    )
}

/// The bytes of a store before it is lent.
pub fn untouched(room: usize) -> Vec<u8> {
    (0..room).map(|i| (i % 251) as u8).collect()
}

/// Both libraries count a limit in `usize`.
pub fn bytes(limit: Option<u64>) -> Option<usize> {
    limit.map(|limit| limit as usize)
}

fn refused(case: u64, (number, value): Refusal) -> Answer {
    vec![Plain(case), Plain(number), Plain(value)]
}

//! What is read in a file that was written: by pdb, or by our library.

use std::fmt;

use super::answers::in_eights;
use super::pages::bytes_of;
use super::question::Question;
use super::reckoning::split;
use crate::container::{Library, Refusal, Wanted, ABSENT};
use crate::digest::Word::{self, Plain};

const STREAM_NOT_FOUND: u64 = 5;

/// No stream has more slices than pages of this size.
const SMALLEST_PAGE: usize = 0x100;

/// All streams are read if there are not more, else some.
const ALL: usize = 4_200;
const SOME: usize = 64;

/// What a part of a reading is about.
#[derive(Debug, PartialEq)]
pub enum Part {
    /// The page size and the number of pages.
    Opened,
    /// The number of streams.
    Count,
    /// The bytes of a stream's slices.
    Mapped(u32),
    /// The bytes of a stream.
    Extracted(u32),
}

pub type Parts = Vec<(Part, Vec<Word>)>;

impl fmt::Display for Part {
    fn fmt(&self, f: &mut fmt::Formatter<'_>) -> fmt::Result {
        match self {
            Part::Opened => write!(f, "opened"),
            Part::Count => write!(f, "count"),
            Part::Mapped(stream) => write!(f, "slices of stream {}", stream),
            Part::Extracted(stream) => write!(f, "stream {}", stream),
        }
    }
}

/// Stops unless pdb reads in the file what was to be written.
pub fn judge(question: &Question, file: &[u8]) {
    if read::<Wanted>(question, file) != given(question, file.len()) {
        crate::stop(&format!(
            "pdb does not read what was reckoned for {:?}",
            question
        ));
    }
}

/// What a library reads: pdb as `Wanted`, so that a page number equal to the number of pages would be refused.
pub fn read<L: Library>(question: &Question, file: &[u8]) -> Parts {
    let opened = L::open(file).map(|(size, used)| vec![Plain(size), Plain(used)]);
    let counted = asked(L::count(file)).map(|count| vec![Plain(count)]);
    let mut parts = vec![(Part::Opened, words(opened)), (Part::Count, words(counted))];
    for stream in streams(question) {
        let room = size_of(question, stream).map_or(0, bytes_of);
        let (mapped, extracted) = (
            map::<L>(file, stream, room),
            extract::<L>(file, stream, room),
        );
        parts.push((
            Part::Mapped(stream),
            words(mapped.map(|bytes| in_eights(&bytes))),
        ));
        parts.push((
            Part::Extracted(stream),
            words(extracted.map(|bytes| in_eights(&bytes))),
        ));
    }
    parts
}

/// What must be read in a file of this length: what was given.
pub fn given(question: &Question, length: usize) -> Parts {
    let (page_size, count) = (u64::from(question.page_size), question.sizes.len() as u64);
    let mut parts = vec![
        (
            Part::Opened,
            words(Ok(vec![Plain(page_size), Plain(length as u64 / page_size)])),
        ),
        (Part::Count, words(Ok(vec![Plain(count)]))),
    ];
    let lent = question.bytes();
    let own = split(&question.sizes, &lent);
    for stream in streams(question) {
        let wanted = match size_of(question, stream) {
            None | Some(ABSENT) => Err((STREAM_NOT_FOUND, u64::from(stream))),
            Some(_) => Ok(in_eights(own[stream as usize])),
        };
        parts.push((Part::Mapped(stream), words(wanted.clone())));
        parts.push((Part::Extracted(stream), words(wanted)));
    }
    parts
}

/// How many streams of the file are read.
#[cfg(feature = "ours")]
pub fn count(question: &Question) -> usize {
    streams(question)
        .filter(|&stream| size_of(question, stream).is_some())
        .count()
}

/// The streams that are asked for: all, or some if there are very many; always the last one, and one that is not there.
fn streams(question: &Question) -> impl Iterator<Item = u32> {
    let count = question.sizes.len();
    let step = if count <= ALL { 1 } else { count / SOME };
    let last = count.saturating_sub(1);
    (0..last)
        .step_by(step)
        .chain(last..=count)
        .map(|stream| stream as u32)
}

fn size_of(question: &Question, stream: u32) -> Option<u32> {
    question.sizes.get(stream as usize).copied()
}

/// The bytes of a stream's slices, as far as they are in the file.
fn map<L: Library>(file: &[u8], stream: u32, size: usize) -> Result<Vec<u8>, Refusal> {
    let room = size / SMALLEST_PAGE + 1;
    let (mut offsets, mut sizes) = (vec![0; room], vec![0; room]);
    let (slices, _) = asked(L::map(file, stream, None, &mut offsets, &mut sizes))?;
    let slices = offsets.iter().zip(&sizes).take(slices);
    let parts =
        slices.filter_map(|(&offset, &size)| file.get(offset as usize..(offset + size) as usize));
    Ok(parts.flatten().copied().collect())
}

fn extract<L: Library>(file: &[u8], stream: u32, size: usize) -> Result<Vec<u8>, Refusal> {
    let mut out = vec![0; size];
    let length = asked(L::extract(file, stream, None, &mut out))?;
    out.truncate(length);
    Ok(out)
}

/// pdb can be asked about every file here: no part of one is over 1 GiB.
fn asked<T>(answer: Option<T>) -> T {
    answer.unwrap_or_else(|| crate::stop("pdb cannot be asked about a file that was written"))
}

/// 0 and what was read, or the refusal.
fn words(read: Result<Vec<Word>, Refusal>) -> Vec<Word> {
    match read {
        Ok(words) => [vec![Plain(0)], words].concat(),
        Err((number, value)) => vec![Plain(number), Plain(value)],
    }
}

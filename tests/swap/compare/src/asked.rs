//! What is asked, and how the answers are kept so that they can be compared.

use std::collections::BTreeMap;
use std::io;
use std::panic::{catch_unwind, AssertUnwindSafe};

/// A file, of which only these parts can be read: where they begin, and their bytes.
pub type Parts<'f> = &'f [(u64, &'f [u8])];

/// A stream and a limit.
pub type Question = (u32, Option<usize>);

/// How a source fails.
#[derive(Clone, Copy, Debug)]
pub enum Failure {
    Error(io::ErrorKind),
    /// The view has one byte more than was asked for.
    Longer,
}

/// What is told about streams.
#[derive(Debug, Default, PartialEq)]
pub struct Streams {
    pub answers: Vec<String>,
    /// How many requests had been made after each answer, and then each request to the source.
    pub views: Vec<String>,
    pub requests: usize,
    /// The first word of each error.
    pub errors: Vec<String>,
}

impl Streams {
    pub fn answer(&mut self, question: String, answer: Result<String, String>) {
        if let Err(why) = &answer {
            self.errors.extend(why.split(|c: char| !c.is_alphabetic()).next().map(str::to_string));
        }
        self.answers.push(format!("{question}: {answer:?}"));
    }
}

/// What is told about the contents of a file, and how much of each kind.
#[derive(Debug, Default, PartialEq)]
pub struct Told {
    pub lines: Vec<String>,
    pub counts: BTreeMap<&'static str, usize>,
}

impl Told {
    pub fn say(&mut self, kind: &'static str, line: String) {
        if line.starts_with(PANIC) {
            *self.counts.entry("panics").or_default() += 1;
        }
        *self.counts.entry(kind).or_default() += 1;
        self.lines.push(line);
    }
}

/// A list of annotations that has more errors is taken for one that never ends.
pub const ERRORS: usize = 200;

const PANIC: &str = "panic: ";

/// What a call returns, or as an error what it panics with.
pub fn caught<T>(call: impl FnOnce() -> Result<T, String>) -> Result<T, String> {
    catch_unwind(AssertUnwindSafe(call)).unwrap_or_else(|why| {
        let text = why.downcast_ref::<String>().cloned();
        let text = text.or_else(|| why.downcast_ref::<&str>().map(|text| text.to_string()));
        Err(format!("{PANIC}{}", text.unwrap_or_default()))
    })
}

/// A view of more bytes is refused: a damaged file can ask for 4 GB.
const MOST: usize = 1 << 25;

/// The bytes of slices.
pub fn read(file: Parts, slices: &[(u64, usize)]) -> io::Result<Vec<u8>> {
    if slices.iter().map(|slice| slice.1).sum::<usize>() > MOST {
        return Err(io::Error::new(io::ErrorKind::Other, "more than this source gives"));
    }
    let mut bytes = Vec::new();
    for &(offset, size) in slices {
        let part = file.iter().find_map(|(at, part)| part.get(offset.checked_sub(*at)? as usize..)?.get(..size));
        bytes.extend_from_slice(part.ok_or(io::ErrorKind::UnexpectedEof)?);
    }
    Ok(bytes)
}

/// FNV-1a.
pub fn digest(bytes: &[u8]) -> u64 {
    bytes.iter().fold(0xcbf2_9ce4_8422_2325, |sum, byte| (sum ^ u64::from(*byte)).wrapping_mul(0x100_0000_01b3))
}

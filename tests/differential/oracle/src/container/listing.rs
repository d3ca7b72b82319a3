//! The listing of a file, made from pdb's answers: the count, and each stream's mapping. The text, the
//! parts and refusal 11 are the project's own rules, and are written here from those rules alone.

use super::answers::{untouched, Answer, Library};
use super::lent::Lent;
use super::pdb::{counted, refusal, Directory, Wanted, SHORT_DATA};
use super::source::{open, Reading};
use crate::common::{Error, Result};
use crate::digest::Word::{Byte, Plain};

// The cases.
const LISTED: u64 = 19;
const LIST_REFUSED: u64 = 20;

const OVER_LIMIT: u64 = 11;
const MOST_BYTES: usize = 65_536;
const MOST_STREAMS: u64 = 4096;

/// Where a listing goes on.
#[derive(Clone, Copy, Debug, Eq, PartialEq)]
pub enum Place {
    Head,
    Stream(u32),
    End,
}

pub enum Listing {
    /// The head, and a line for each stream, each with its newline.
    Lines(Vec<String>),
    /// The file is not listed: the refusal's number and value.
    Refused(u64, u64),
}

/// Whole lines, and where the listing goes on after them.
struct Part {
    bytes: Vec<u8>,
    next: Place,
}

/// The text of the listing of a file, as ours must be.
pub fn whole(file: &[u8]) -> String {
    match Wanted::listing(file) {
        Some(listing) => listing.text(),
        None => crate::stop("pdb would make a view of over 1 GiB"),
    }
}

/// The listing made from pdb's answers. `None` if pdb cannot be asked.
pub fn listing(file: Lent<'_>) -> Option<Listing> {
    if file.len() > MOST_BYTES {
        return Some(Listing::Refused(OVER_LIMIT, MOST_BYTES as u64));
    }
    let directory = match counted(file.clone())? {
        Ok(directory) => directory,
        Err(error) => {
            let (number, value) = refusal(&error);
            return Some(Listing::Refused(number, value));
        }
    };
    match over(&directory) {
        Some((number, value)) => Some(Listing::Refused(number, value)),
        None => lines(file, directory.streams as u32).map(Listing::Lines),
    }
}

/// 7 if the sizes reach past the directory, 11 if there are too many streams.
fn over(directory: &Directory) -> Option<(u64, u64)> {
    if 4 + 4 * directory.streams > directory.size {
        return Some((SHORT_DATA, 0));
    }
    Some((OVER_LIMIT, MOST_STREAMS)).filter(|_| directory.streams > MOST_STREAMS)
}

/// A listing is one question, so the file is opened once for all its streams.
fn lines(file: Lent<'_>, streams: u32) -> Option<Vec<String>> {
    let mut open = match open(file, Reading::OnlyTheTable) {
        Ok(open) => open,
        Err(_) => crate::stop("pdb opens a file once and then not again"),
    };
    let mut lines = vec![head(streams)];
    for k in 0..streams {
        let got = open.get(k, None).map(|stream| stream.len());
        let seen = open.seen();
        if seen.over {
            return None;
        }
        lines.push(line(k, got, seen.slices.len()));
    }
    Some(lines)
}

pub fn head(streams: u32) -> String {
    format!("streams {}\n", streams)
}

/// A stream's line, from its mapping: the length, and the number of slices.
fn line(k: u32, got: Result<usize>, slices: usize) -> String {
    match got {
        Ok(size) => size_line(k, size, slices),
        // Only streams below the count are listed, so this one is absent.
        Err(Error::StreamNotFound(_)) => format!("{} absent\n", k),
        Err(error) => {
            let (number, value) = refusal(&error);
            format!("{} {}", k, refused_line(number, value))
        }
    }
}

pub fn size_line(k: u32, size: usize, slices: usize) -> String {
    format!("{} {} {}\n", k, size, slices)
}

fn refused_line(number: u64, value: u64) -> String {
    format!("refused {} {}\n", number, value)
}

impl Listing {
    pub fn text(&self) -> String {
        match self {
            Listing::Lines(lines) => lines.concat(),
            Listing::Refused(number, value) => refused_line(*number, *value),
        }
    }

    /// The answers of the project's operation, asked repeatedly from a place on, each time into a store of
    /// `room` bytes, until the end, a refusal, or a part without a line. Each answer is followed by the
    /// whole store, and a refusal by the answer and store of writing its line.
    pub fn answer(&self, from: Place, room: usize) -> Answer {
        match self {
            Listing::Lines(lines) => parts(lines, from, room)
                .iter()
                .flat_map(|part| part.answer(room))
                .collect(),
            Listing::Refused(number, value) => {
                let line = refused_line(*number, *value).into_bytes();
                let line = Some(line).filter(|line| line.len() <= room);
                let line = line.unwrap_or_default();
                let mut answer = vec![Plain(LIST_REFUSED), Plain(*number), Plain(*value)];
                answer.extend(store(&[], room));
                answer.push(Plain(line.len() as u64));
                answer.extend(store(&line, room));
                answer
            }
        }
    }
}

/// The parts from a place on, the last of which reaches the end or has no line.
fn parts(lines: &[String], from: Place, room: usize) -> Vec<Part> {
    let mut parts = vec![part(lines, from, room)];
    loop {
        let last = &parts[parts.len() - 1];
        if last.next == Place::End || last.bytes.is_empty() {
            return parts;
        }
        let next = last.next;
        parts.push(part(lines, next, room));
    }
}

/// As many lines as fit.
fn part(lines: &[String], from: Place, room: usize) -> Part {
    let mut n = match from {
        Place::Head => 0,
        Place::Stream(k) => lines.len().min(1 + k as usize),
        Place::End => lines.len(),
    };
    let mut bytes = Vec::new();
    while n < lines.len() && bytes.len() + lines[n].len() <= room {
        bytes.extend_from_slice(lines[n].as_bytes());
        n += 1;
    }
    let next = match n {
        n if n == lines.len() => Place::End,
        0 => Place::Head,
        n => Place::Stream(n as u32 - 1),
    };
    Part { bytes, next }
}

impl Part {
    fn answer(&self, room: usize) -> Answer {
        let (place, stream) = match self.next {
            Place::Head => (0, 0),
            Place::Stream(k) => (1, k),
            Place::End => (2, 0),
        };
        let mut answer = vec![
            Plain(LISTED),
            Plain(self.bytes.len() as u64),
            Plain(place),
            Plain(u64::from(stream)),
        ];
        answer.extend(store(&self.bytes, room));
        answer
    }
}

/// A store of `room` bytes that begins with what was written.
fn store(written: &[u8], room: usize) -> Answer {
    let mut store = untouched(room);
    store[..written.len()].copy_from_slice(written);
    store.into_iter().map(Byte).collect()
}

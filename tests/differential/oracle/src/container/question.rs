//! A question about a container: an edited copy of a base file, and what is asked about it.

use super::answers::{self, Answer, Library, Stage};
use super::listing::Place;

// The operations that a question asks for, as bits.
pub const OPEN: u8 = 1;
pub const COUNT: u8 = 2;
pub const MAP: u8 = 4;
pub const EXTRACT: u8 = 8;
pub const LIST: u8 = 16;
pub const LOCATION_LIST: u8 = 32;
pub const DIRECTORY: u8 = 64;

/// Both stages of what mapping reads.
pub const STAGES: u8 = LOCATION_LIST | DIRECTORY;

/// Bytes at a place of a file.
#[derive(Clone, Debug)]
pub struct Run {
    pub at: usize,
    pub bytes: Vec<u8>,
}

/// The lengths of the stores. That of bytes is lent for a stream and for a listing.
#[derive(Clone, Copy, Debug)]
pub struct Rooms {
    pub offsets: usize,
    pub sizes: usize,
    pub bytes: usize,
}

/// Where a listing begins.
#[derive(Clone, Copy, Debug, Eq, PartialEq)]
pub enum Start {
    Head,
    /// The line of the question's stream.
    Stream,
    End,
}

/// One byte of the file takes each value from `first` to `last`, and the question is asked at each.
#[derive(Clone, Copy, Debug)]
pub struct Sweep {
    pub at: usize,
    pub first: u8,
    pub last: u8,
}

#[derive(Clone, Debug)]
pub struct Question {
    /// The file's length. The base file is cut there, or extended by zeros.
    pub length: usize,
    pub edits: Vec<Run>,
    pub sweep: Option<Sweep>,
    pub operations: u8,
    pub stream: u32,
    pub limit: Option<u64>,
    pub rooms: Rooms,
    pub from: Start,
}

impl Question {
    /// The listing too.
    pub fn and_listing(self) -> Self {
        Question {
            operations: self.operations | LIST,
            ..self
        }
    }

    /// The files that the question is about.
    pub fn files(&self, base: &[u8]) -> Vec<Vec<u8>> {
        // Zeros first: those of a long file that nothing touches take no memory.
        let mut file = vec![0; self.length];
        let kept = base.len().min(self.length);
        file[..kept].copy_from_slice(&base[..kept]);
        for edit in &self.edits {
            file[edit.at..edit.at + edit.bytes.len()].copy_from_slice(&edit.bytes);
        }
        match self.sweep {
            None => vec![file],
            Some(sweep) => (sweep.first..=sweep.last)
                .map(|value| {
                    let mut file = file.clone();
                    file[sweep.at] = value;
                    file
                })
                .collect(),
        }
    }

    /// A library's answers about a file, operation by operation. `None` if it cannot be asked.
    pub fn answers<L: Library>(&self, file: &[u8]) -> Vec<(u8, Option<Answer>)> {
        let Rooms {
            offsets,
            sizes,
            bytes,
        } = self.rooms;
        let rooms = (offsets, sizes);
        let ask = |operation| match operation {
            OPEN => Some(answers::open::<L>(file)),
            COUNT => answers::count::<L>(file),
            MAP => answers::map::<L>(file, self.stream, self.limit, rooms),
            EXTRACT => answers::extract::<L>(file, self.stream, self.limit, bytes),
            LIST => L::listing(file).map(|listing| listing.answer(self.place(), bytes)),
            LOCATION_LIST => Some(answers::need::<L>(file, Stage::LocationList, rooms)),
            _ => Some(answers::need::<L>(file, Stage::Directory, rooms)),
        };
        [OPEN, COUNT, MAP, EXTRACT, LIST, LOCATION_LIST, DIRECTORY]
            .iter()
            .filter(|&&operation| self.operations & operation != 0)
            .map(|&operation| (operation, ask(operation)))
            .collect()
    }

    fn place(&self) -> Place {
        match self.from {
            Start::Head => Place::Head,
            Start::Stream => Place::Stream(self.stream),
            Start::End => Place::End,
        }
    }
}

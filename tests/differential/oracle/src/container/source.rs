//! The source that pdb reads a file from. It passes each request on to pdb's own source over the lent file,
//! and keeps what was requested.

use std::cell::{Ref, RefCell};
use std::io;
use std::rc::Rc;

use super::answers::Stage;
use super::lent::Lent;
use crate::common::Result;
use crate::msf::{open_msf, Msf, Stream};
use crate::source::{Source, SourceSlice, SourceView};

/// No larger view is made.
const LARGEST_VIEW: usize = 1 << 30;

// pdb requests the header block, the location list, the directory and the stream, in this order. It keeps
// the directory, so each later view is a stream's.
const LOCATION_LIST: usize = 2;
const DIRECTORY: usize = 3;
const STREAM: usize = 4;

/// What pdb requested from its source.
#[derive(Debug, Default)]
pub struct Seen {
    views: usize,
    /// Whether a view was over the limit, so that there is no answer.
    pub over: bool,
    /// The directory's first word, or as much of it as there is, once the directory is read.
    pub directory: Option<Vec<u8>>,
    /// The length of the directory, once it is read.
    pub directory_size: usize,
    /// The slices of the last stream requested.
    pub slices: Vec<SourceSlice>,
    /// The slices of the part that was not read, once it is requested.
    pub part: Option<Vec<SourceSlice>>,
}

/// What is read. A mapping is an answer even if the stream's own bytes are not there, and so is a stage's part.
#[derive(Clone, Copy, Debug, Eq, PartialEq)]
pub enum Reading {
    Streams,
    OnlyTheTable,
    /// Nothing from this stage's part on: pdb is stopped there.
    Before(Stage),
}

impl Reading {
    fn stops_at(self, view: usize) -> bool {
        match self {
            Reading::Before(Stage::LocationList) => view == LOCATION_LIST,
            Reading::Before(Stage::Directory) => view == DIRECTORY,
            Reading::Streams | Reading::OnlyTheTable => false,
        }
    }
}

#[derive(Debug)]
pub struct Watched<'s> {
    file: Lent<'s>,
    reading: Reading,
    seen: Rc<RefCell<Seen>>,
}

/// A file that pdb opened, and what pdb requests.
pub struct Open<'s> {
    msf: Box<dyn Msf<'s, Watched<'s>> + 's>,
    seen: Rc<RefCell<Seen>>,
}

pub fn open(file: Lent<'_>, reading: Reading) -> Result<Open<'_>> {
    let seen = Rc::new(RefCell::new(Seen::default()));
    let msf = open_msf(Watched {
        file,
        reading,
        seen: Rc::clone(&seen),
    })?;
    Ok(Open { msf, seen })
}

impl<'s> Open<'s> {
    pub fn get(&mut self, stream: u32, limit: Option<usize>) -> Result<Stream<'s>> {
        self.msf.get(stream, limit)
    }

    pub fn seen(&self) -> Ref<'_, Seen> {
        self.seen.borrow()
    }
}

/// pdb's `get` of a stream, over a newly opened file, and what it requested.
pub fn get(
    file: Lent<'_>,
    stream: u32,
    limit: Option<usize>,
    reading: Reading,
) -> (Result<Stream<'_>>, Seen) {
    match open(file, reading) {
        Err(error) => (Err(error), Seen::default()),
        Ok(mut open) => (open.get(stream, limit), open.seen.take()),
    }
}

impl<'s> Source<'s> for Watched<'s> {
    fn view(
        &mut self,
        slices: &[SourceSlice],
    ) -> std::result::Result<Box<dyn SourceView<'s>>, io::Error> {
        let mut seen = self.seen.borrow_mut();
        seen.views += 1;
        if self.reading.stops_at(seen.views) {
            seen.part = Some(slices.to_vec());
            return Err(io::Error::new(io::ErrorKind::Other, "not read"));
        }
        let size = slices.iter().map(|slice| slice.size).sum();
        if size > LARGEST_VIEW {
            seen.over = true;
            return Err(io::Error::new(io::ErrorKind::Other, "over the limit"));
        }
        if seen.views >= STREAM {
            seen.slices = slices.to_vec();
            if self.reading == Reading::OnlyTheTable {
                return Ok(Box::new(Unread(vec![0; size])));
            }
        }
        let view = self.file.view(slices)?;
        if seen.views == DIRECTORY {
            let bytes = view.as_slice();
            seen.directory = Some(bytes[..bytes.len().min(4)].to_vec());
            seen.directory_size = bytes.len();
        }
        Ok(view)
    }
}

/// Zeros in place of a stream's bytes: pdb needs a view of the right length.
struct Unread(Vec<u8>);

impl std::fmt::Debug for Unread {
    fn fmt(&self, f: &mut std::fmt::Formatter<'_>) -> std::fmt::Result {
        write!(f, "Unread({} bytes)", self.0.len())
    }
}

impl SourceView<'_> for Unread {
    fn as_slice(&self) -> &[u8] {
        &self.0
    }
}

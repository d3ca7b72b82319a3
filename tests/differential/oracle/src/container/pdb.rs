//! pdb's answers about a container, by the numbers of the project's rules. `None` means that pdb cannot be
//! asked, since it would make a view of over 1 GiB.

use std::io::ErrorKind;

use super::answers::{Library, Refusal, Stage};
use super::hostile;
use super::lent::Lent;
use super::listing::{listing, Listing};
use super::source::{get, Reading};
use crate::common::{Error, Result};
use crate::msf::big::BigMSF;
use crate::msf::open_msf;
use crate::records::number;
use crate::source::{Source, SourceSlice};

// The refusals.
const UNRECOGNIZED_FILE_FORMAT: u64 = 1;
const UNIMPLEMENTED_FEATURE: u64 = 2;
const INVALID_PAGE_SIZE: u64 = 3;
const PAGE_REFERENCE_OUT_OF_RANGE: u64 = 4;
const STREAM_NOT_FOUND: u64 = 5;
const FILE_ENDS: u64 = 6;
pub const SHORT_DATA: u64 = 7;
/// The rules' own refusal, which pdb does not have.
const NO_ROOM: u64 = 10;

const HEADER_BLOCK: usize = 4096;

/// pdb, asked about the file itself.
pub struct Pdb;

/// What ours must answer: pdb, asked about the lowered file.
pub struct Wanted;

/// How a file is lent to pdb.
pub trait Lends {
    fn lend(file: &[u8]) -> Lent<'_>;
}

impl Lends for Pdb {
    fn lend(file: &[u8]) -> Lent<'_> {
        Lent::own(file)
    }
}

impl Lends for Wanted {
    fn lend(file: &[u8]) -> Lent<'_> {
        Lent::lowered(file)
    }
}

impl<P: Lends> Library for P {
    /// However the file is lent, the second number is what pdb reads in the file itself.
    fn open(file: &[u8]) -> std::result::Result<(u64, u64), Refusal> {
        let lent = opened(P::lend(file)).map_err(|error| refusal(&error))?;
        let own = opened(Lent::own(file)).map_err(|error| refusal(&error))?;
        Ok((lent.0, own.1))
    }

    fn count(file: &[u8]) -> Option<std::result::Result<u64, Refusal>> {
        let counted = counted(P::lend(file))?.map(|directory| directory.streams);
        Some(counted.map_err(|error| refusal(&error)))
    }

    fn map(
        file: &[u8],
        stream: u32,
        limit: Option<usize>,
        offsets: &mut [u64],
        sizes: &mut [u64],
    ) -> Option<std::result::Result<(usize, usize), Refusal>> {
        let slices = slices(P::lend(file), stream, limit)?;
        Some(stored(slices, offsets, sizes))
    }

    fn extract(
        file: &[u8],
        stream: u32,
        limit: Option<usize>,
        out: &mut [u8],
    ) -> Option<std::result::Result<usize, Refusal>> {
        let (got, seen) = get(P::lend(file), stream, limit, Reading::Streams);
        if seen.over {
            return None;
        }
        Some(match got {
            Err(error) => Err(refusal(&error)),
            Ok(stream) if stream.len() > out.len() => no_room(stream.len()),
            Ok(stream) => {
                out[..stream.len()].copy_from_slice(&stream);
                Ok(stream.len())
            }
        })
    }

    fn need(
        file: &[u8],
        stage: Stage,
        offsets: &mut [u64],
        sizes: &mut [u64],
    ) -> std::result::Result<(usize, usize), Refusal> {
        stored(needed(P::lend(file), stage), offsets, sizes)
    }

    fn listing(file: &[u8]) -> Option<Listing> {
        listing(P::lend(file)).or_else(|| hostile::listing(file))
    }
}

/// Puts these slices into two stores, if both have room: the number of slices, and their length.
fn stored(
    slices: Result<Vec<SourceSlice>>,
    offsets: &mut [u64],
    sizes: &mut [u64],
) -> std::result::Result<(usize, usize), Refusal> {
    let slices = slices.map_err(|error| refusal(&error))?;
    if slices.len() > offsets.len().min(sizes.len()) {
        return no_room(slices.len());
    }
    for (i, slice) in slices.iter().enumerate() {
        offsets[i] = slice.offset;
        sizes[i] = slice.size as u64;
    }
    let length = slices.iter().map(|slice| slice.size).sum();
    Ok((slices.len(), length))
}

fn no_room<T>(needed: usize) -> std::result::Result<T, Refusal> {
    Err((NO_ROOM, needed as u64))
}

fn opened(mut file: Lent<'_>) -> Result<(u64, u64)> {
    open_msf(file.clone())?;
    // The result of `open_msf` hides its header, so the header is made again, as `open_msf` does.
    let block = file.view(&[SourceSlice {
        offset: 0,
        size: HEADER_BLOCK,
    }])?;
    let header = BigMSF::new(file, block)?.header;
    Ok((
        header.page_size as u64,
        u64::from(header.maximum_valid_page_number),
    ))
}

/// A directory that holds its count.
pub struct Directory {
    pub streams: u64,
    /// In bytes.
    pub size: u64,
}

/// The directory's first word is the count. pdb has no such function. A request for any stream makes it
/// read the directory, and refuse one that is too short.
pub fn counted(file: Lent<'_>) -> Option<Result<Directory>> {
    let (got, seen) = get(file, 0, Some(0), Reading::OnlyTheTable);
    if seen.over {
        return None;
    }
    let size = seen.directory_size as u64;
    Some(match (seen.directory, got) {
        (Some(word), _) if word.len() == 4 => Ok(Directory {
            streams: number(&word),
            size,
        }),
        (_, Err(error)) => Err(error),
        (_, Ok(_)) => crate::stop("pdb finds a stream in a directory that has no count"),
    })
}

/// A stream's slices, cut to the limit.
pub fn slices(
    file: Lent<'_>,
    stream: u32,
    limit: Option<usize>,
) -> Option<Result<Vec<SourceSlice>>> {
    let (got, seen) = get(file, stream, limit, Reading::OnlyTheTable);
    if seen.over {
        return None;
    }
    Some(got.map(|_| seen.slices))
}

/// The slices of the part that pdb reads at a stage, on its way to a stream. Whether the part is there is not
/// asked.
pub fn needed(file: Lent<'_>, stage: Stage) -> Result<Vec<SourceSlice>> {
    let (got, seen) = get(file, 0, None, Reading::Before(stage));
    match (seen.part, got) {
        (Some(slices), _) => Ok(slices),
        (None, Err(error)) => Err(error),
        (None, Ok(_)) => crate::stop("pdb finds a stream without the part before it"),
    }
}

pub fn refusal(error: &Error) -> Refusal {
    let (number, value) = match error {
        Error::UnrecognizedFileFormat => (UNRECOGNIZED_FILE_FORMAT, 0),
        Error::UnimplementedFeature(_) => (UNIMPLEMENTED_FEATURE, 0),
        Error::InvalidPageSize(size) => (INVALID_PAGE_SIZE, *size),
        Error::PageReferenceOutOfRange(page) => (PAGE_REFERENCE_OUT_OF_RANGE, *page),
        Error::StreamNotFound(stream) => (STREAM_NOT_FOUND, *stream),
        Error::IoError(e) if e.kind() == ErrorKind::UnexpectedEof => (FILE_ENDS, 0),
        Error::UnexpectedEof | Error::ScrollError(_) => (SHORT_DATA, 0),
        other => crate::stop(&format!(
            "pdb refuses with {:?}, which has no number",
            other
        )),
    };
    (number, u64::from(value))
}

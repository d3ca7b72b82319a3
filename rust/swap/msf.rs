// Stands in for src/msf/mod.rs of pdb 0.8.0, Copyright 2017 pdb Developers, whose names it keeps.
// Changed: Trovespan's proved library reads the container.
//
// Licensed under the Apache License, Version 2.0, <LICENSE-APACHE or
// http://apache.org/licenses/LICENSE-2.0> or the MIT license <LICENSE-MIT or
// http://opensource.org/licenses/MIT>, at your option, as pdb is.

//! The container of PDB files. Which bytes of the file make a stream, and why there are none, is the
//! answer of the proved library. The bytes themselves come through [`Source`].
//!
//! The library reads a file that is lent as a slice, and a `Source` has neither a slice nor a
//! length. To map a stream, the library reads the header block, the location list and the directory,
//! and nothing else. So these are viewed, and copied to their places in an image of the file that is
//! zero elsewhere.

use std::fmt;
use std::io;
use std::ops::Deref;

use trovespan::{Kind, Mapped, Refusal, Stage, HEADER_BLOCK};

use crate::common::*;
use crate::source::*;

/// A container of streams.
pub trait Msf<'s, S>: fmt::Debug {
    /// Returns a stream, or its first `limit` bytes.
    fn get(&mut self, stream_number: u32, limit: Option<usize>) -> Result<Stream<'s>>;
}

/// A stream of a container.
#[derive(Debug)]
pub struct Stream<'s> {
    source_view: Box<dyn SourceView<'s>>,
}

impl Stream<'_> {
    #[inline]
    pub(crate) fn parse_buffer(&self) -> ParseBuffer<'_> {
        ParseBuffer::from(self.as_slice())
    }

    /// Returns the bytes of the stream.
    #[inline]
    pub fn as_slice(&self) -> &[u8] {
        self.source_view.as_slice()
    }
}

impl Deref for Stream<'_> {
    type Target = [u8];

    #[inline]
    fn deref(&self) -> &Self::Target {
        self.as_slice()
    }
}

/// Opens a container: views its header block, and judges it.
pub fn open_msf<'s, S: Source<'s> + 's>(mut source: S) -> Result<Box<dyn Msf<'s, S> + 's>> {
    let block = SourceSlice {
        offset: 0,
        size: HEADER_BLOCK,
    };
    let header = Part::view(&mut source, vec![block]).map_err(|why| match why {
        Error::IoError(why) if why.kind() == io::ErrorKind::UnexpectedEof => {
            Error::UnrecognizedFileFormat
        }
        why => why,
    })?;
    trovespan::open(header.view.as_slice()).map_err(error)?;
    Ok(Box::new(Container {
        source,
        header,
        directory: Directory::Unknown,
        stores: Stores::default(),
    }))
}

/// A container, read as far as it was needed.
struct Container<'s, S> {
    source: S,
    header: Part<'s>,
    directory: Directory<'s>,
    stores: Stores,
}

/// How much of the directory is known. A failure leaves it as it is, so that the next call views the
/// same again.
enum Directory<'s> {
    Unknown,
    /// Where it is, by the location list.
    Found {
        location: Part<'s>,
        slices: Vec<SourceSlice>,
    },
    /// An image of the file with all that mapping reads.
    Available {
        image: Vec<u8>,
    },
}

impl<'s, S: Source<'s>> Msf<'s, S> for Container<'s, S> {
    fn get(&mut self, stream_number: u32, limit: Option<usize>) -> Result<Stream<'s>> {
        let slices = loop {
            self.directory = match &self.directory {
                Directory::Unknown => self.find()?,
                Directory::Found { location, slices } => {
                    let directory = Part::view(&mut self.source, slices.clone())?;
                    let image = image(&[&self.header, location, &directory])?;
                    Directory::Available { image }
                }
                Directory::Available { image } => {
                    break self.stores.slices(|offsets, sizes| {
                        trovespan::map(image, stream_number, limit, offsets, sizes)
                    })?
                }
            };
        };
        Ok(Stream {
            source_view: view(&mut self.source, &slices)?,
        })
    }
}

impl<'s, S: Source<'s>> Container<'s, S> {
    /// Views the location list, and finds the directory by it.
    fn find(&mut self) -> Result<Directory<'s>> {
        let header = self.header.view.as_slice();
        let slices = self.stores.needed(header, Stage::LocationList)?;
        let location = Part::view(&mut self.source, slices)?;
        let image = image(&[&self.header, &location])?;
        let slices = self.stores.needed(&image, Stage::Directory)?;
        Ok(Directory::Found { location, slices })
    }
}

impl<S: fmt::Debug> fmt::Debug for Container<'_, S> {
    fn fmt(&self, f: &mut fmt::Formatter<'_>) -> fmt::Result {
        f.debug_struct("Container")
            .field("source", &self.source)
            .finish()
    }
}

/// A part of the file, viewed.
struct Part<'s> {
    slices: Vec<SourceSlice>,
    view: Box<dyn SourceView<'s>>,
}

impl<'s> Part<'s> {
    fn view(source: &mut dyn Source<'s>, slices: Vec<SourceSlice>) -> Result<Self> {
        let view = view(source, &slices)?;
        Ok(Part { slices, view })
    }
}

fn view<'s>(
    source: &mut dyn Source<'s>,
    slices: &[SourceSlice],
) -> Result<Box<dyn SourceView<'s>>> {
    let view = source.view(slices)?;
    // Other bytes than were asked for are the mistake of the source, and not of the file.
    let length = slices.iter().map(|slice| slice.size).sum::<usize>();
    assert_eq!(view.as_slice().len(), length);
    Ok(view)
}

/// The parts where the file has them, and zeros elsewhere, up to the end of the last. (A `usize` has
/// 64 bits wherever the library can be linked.)
fn image(parts: &[&Part<'_>]) -> Result<Vec<u8>> {
    let slices = parts.iter().flat_map(|part| &part.slices);
    let end = slices.map(|slice| slice.offset as usize + slice.size).max();
    let mut image = zeros(end.unwrap_or(0))?;
    for part in parts {
        let mut bytes = part.view.as_slice();
        for slice in &part.slices {
            let (front, rest) = bytes.split_at(slice.size);
            image[slice.offset as usize..][..slice.size].copy_from_slice(front);
            bytes = rest;
        }
    }
    Ok(image)
}

/// Zeros, of which those alone take memory that are written to later: fresh memory of the system is
/// zero. glibc may give an allocation of up to 32 MiB memory that was in use before, and fills that
/// with zeros itself, so a larger one is asked for. Below 1 MiB that makes no difference.
///
/// `vec!` ends the process if there is not so much memory, so that is tried first.
fn zeros(length: usize) -> Result<Vec<u8>> {
    const SMALL: usize = 1 << 20;
    const ALWAYS_FRESH: usize = 33 << 20;
    let room = match length {
        0..=SMALL => length,
        _ => length.max(ALWAYS_FRESH),
    };
    let tried = Vec::<u8>::new().try_reserve_exact(room);
    tried.map_err(|_| io::Error::from(io::ErrorKind::OutOfMemory))?;
    let mut zeros = vec![0; room];
    zeros.truncate(length);
    Ok(zeros)
}

/// Where the library writes slices. Kept, and made larger when an answer has more of them.
#[derive(Default)]
struct Stores {
    offsets: Vec<u64>,
    sizes: Vec<u64>,
}

impl Stores {
    /// The slices of a part that mapping reads.
    fn needed(&mut self, file: &[u8], stage: Stage) -> Result<Vec<SourceSlice>> {
        self.slices(|offsets, sizes| trovespan::needed_to_map(file, stage, offsets, sizes))
    }

    fn slices(
        &mut self,
        ask: impl Fn(&mut [u64], &mut [u64]) -> std::result::Result<Mapped, Refusal>,
    ) -> Result<Vec<SourceSlice>> {
        let mut answer = ask(&mut self.offsets, &mut self.sizes);
        if let Some(entries) = entries_needed(&answer) {
            self.offsets.resize(entries, 0);
            self.sizes.resize(entries, 0);
            answer = ask(&mut self.offsets, &mut self.sizes);
        }
        let count = answer.map_err(error)?.slices;
        let slices = self.offsets.iter().zip(&self.sizes).take(count);
        Ok(slices
            .map(|(&offset, &size)| SourceSlice {
                offset,
                size: size as usize,
            })
            .collect())
    }
}

/// How many entries an answer needs that had no room.
fn entries_needed(answer: &std::result::Result<Mapped, Refusal>) -> Option<usize> {
    match answer {
        Err(why) if why.kind() == Kind::NoRoom => Some(why.value as usize),
        _ => None,
    }
}

/// A refusal of the library as an error of this crate.
pub(crate) fn error(why: Refusal) -> Error {
    let value = why.value as u32; // a word of the file, or the number of a stream
    match why.kind() {
        Kind::UnrecognizedFileFormat => Error::UnrecognizedFileFormat,
        Kind::UnimplementedFeature => Error::UnimplementedFeature("small MSF file format"),
        Kind::InvalidPageSize => Error::InvalidPageSize(value),
        Kind::PageReferenceOutOfRange => Error::PageReferenceOutOfRange(value),
        Kind::StreamNotFound => Error::StreamNotFound(value),
        Kind::FileEnds => Error::IoError(io::ErrorKind::UnexpectedEof.into()),
        Kind::ShortData => Error::UnexpectedEof,
        Kind::InvalidCompressedAnnotation => Error::InvalidCompressedAnnotation,
        Kind::UnknownBinaryAnnotation => Error::UnknownBinaryAnnotation(value),
        // What is asked here is refused for no other reason.
        _ => Error::UnimplementedFeature("a refusal of the proved library that has no error here"),
    }
}

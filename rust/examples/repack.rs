//! repack [--at-most N] FILE OUT [PAGE_SIZE]: writes a PDB file, of any size, anew to OUT, with the same streams.
//!
//! The pages of OUT have PAGE_SIZE bytes, or as many as those of FILE. Absent streams stay absent. Bytes of FILE that
//! belong to no stream are left out. OUT may be FILE.
//!
//! If the streams have more than N bytes together, or OUT would have, no memory is allocated for them. N is 268435456 if
//! it is not given. A small file can name one page many times, so the size of its streams has nothing to do with that
//! of the file. At most 65,535 streams are read.
//!
//! On failure prints one line on standard error, and neither makes nor changes OUT. A hostile file can take minutes.
//! Then the progress is on standard error too.

mod common;

use common::streams::{self, in_words, Progress};
use common::{arguments, at_most, number, output, read, shown, stop, store, words, FAILED};
use std::ffi::OsString;
use std::path::Path;
use trovespan::{extract, open, stream_length, write_container, Kind, Refusal, ABSENT};

const USAGE: &str = "repack [--at-most N] FILE OUT [PAGE_SIZE]";

fn main() {
    let mut arguments = arguments();
    let at_most = at_most("repack", &mut arguments, USAGE);
    let page_size = page_size(&mut arguments);
    let [path, out] = words(arguments, USAGE);
    let streams = Streams::read(&read("repack", &path), at_most)
        .unwrap_or_else(|why| stop(FAILED, format!("repack: {}: {why}", shown(&path))));
    let failed = |why| stop(FAILED, format!("repack: {}: {why}", shown(&out)));
    let packed = streams.packed(page_size, at_most).unwrap_or_else(failed);
    if let Err(e) = output::write(Path::new(&out), &packed) {
        failed(e.to_string());
    }
}

/// Takes PAGE_SIZE from the end of the arguments, if it is there.
fn page_size(arguments: &mut Vec<OsString>) -> Option<u32> {
    if arguments.len() != 3 {
        return None;
    }
    let word = arguments.pop()?;
    Some(number("repack", "PAGE_SIZE", &word, u32::MAX.into()) as u32)
}

/// All streams of a file.
struct Streams {
    /// The page size of the file that they were in.
    page_size: u32,
    /// The size of each, or `ABSENT`.
    sizes: Vec<u32>,
    /// The bytes of all, one after the other.
    bytes: Vec<u8>,
}

impl Streams {
    /// Reads all streams. Allocates nothing for their bytes before all of them are known to be in the file.
    fn read(file: &[u8], at_most: usize) -> Result<Self, String> {
        let count = streams::count(file).map_err(in_words)?;
        let sizes = sizes(file, count)?;
        let length = sizes.iter().map(|&size| bytes_of(size)).sum();
        let mut bytes = store("its streams have", length, at_most)?;
        copy(file, &sizes, &mut bytes)?;
        Ok(Self { page_size: open(file).map_err(in_words)?.page_size, sizes, bytes })
    }

    /// The streams as a new file.
    fn packed(&self, page_size: Option<u32>, at_most: usize) -> Result<Vec<u8>, String> {
        let page_size = page_size.unwrap_or(self.page_size);
        let write = |out: &mut [u8]| write_container(page_size, &self.sizes, &self.bytes, out);
        let length = match write(&mut []) {
            Err(why) if why.kind() == Kind::NoRoom => why.value as usize,
            answer => answer.map_err(in_words)?,
        };
        let mut packed = store("it would have", length, at_most)?;
        write(&mut packed).map_err(in_words)?;
        Ok(packed)
    }
}

/// The size of each stream. Its number is below the count, so one that is not found is absent.
fn sizes(file: &[u8], count: u32) -> Result<Vec<u32>, String> {
    let mut progress = Progress::begin("repack, sizes");
    let size = |stream| {
        progress.show(stream, count);
        match stream_length(file, stream) {
            Ok(length) => Ok(length as u32),
            Err(why) if why.kind() == Kind::StreamNotFound => Ok(ABSENT),
            Err(why) => Err(of_stream(stream, why)),
        }
    };
    (0..count).map(size).collect()
}

/// Copies the bytes of each stream that is there.
fn copy(file: &[u8], sizes: &[u32], mut bytes: &mut [u8]) -> Result<(), String> {
    let mut progress = Progress::begin("repack, bytes");
    for (stream, &size) in (0..).zip(sizes) {
        progress.show(stream, sizes.len() as u32);
        let (own, rest) = bytes.split_at_mut(bytes_of(size));
        if size != ABSENT {
            extract(file, stream, None, own).map_err(|why| of_stream(stream, why))?;
        }
        bytes = rest;
    }
    Ok(())
}

fn bytes_of(size: u32) -> usize {
    match size {
        ABSENT => 0,
        size => size as usize,
    }
}

fn of_stream(stream: u32, why: Refusal) -> String {
    format!("stream {stream}: {why}")
}

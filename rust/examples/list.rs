//! list FILE: lists the streams of a PDB file of any size.
//!
//! The output is that of the proved program `list`: `streams N`, then for each stream its number, size and number of
//! slices, `K absent` for an absent stream, or `K refused C V` if it cannot be mapped. For a file that cannot be listed
//! it is the one line `refused C V`, with a line on standard error and status 1. The limits of the proved program are not
//! those of this one, which lists files of any size and up to 65,535 streams.
//!
//! A hostile file can take minutes. Then the progress is on standard error.

mod common;

use common::streams::{self, in_words, Progress};
use common::{arguments, read, shown, stop, words, FAILED};
use std::fs::File;
use std::io::{self, BufWriter, Write};
use std::os::unix::io::AsFd;
use trovespan::{Kind, Mapped, Refusal};

fn main() {
    let [path] = words(arguments(), "list FILE");
    let file = read("list", &path);
    let streams = streams::count(&file);
    if let Err(e) = write(&file, streams) {
        stop(FAILED, format!("list: standard output: {e}"));
    }
    if let Err(why) = streams {
        stop(FAILED, format!("list: {}: {}", shown(&path), in_words(why)));
    }
}

fn write(file: &[u8], streams: Result<u32, Refusal>) -> io::Result<()> {
    // Rust's own standard output ignores that it cannot be written if it is not open for writing.
    let mut out = BufWriter::new(File::from(io::stdout().as_fd().try_clone_to_owned()?));
    match streams {
        Ok(streams) => write_lines(file, streams, &mut out)?,
        Err(why) => writeln!(out, "{}", refused(why))?,
    }
    out.flush()
}

/// Each mapping opens the file and walks its directory, so the time is that of the directory for each stream, or twice
/// that. The proved program opens the file once.
fn write_lines(file: &[u8], streams: u32, out: &mut impl Write) -> io::Result<()> {
    let mut stores = Stores::default();
    let mut progress = Progress::begin("list");
    writeln!(out, "streams {streams}")?;
    for stream in 0..streams {
        progress.show(stream, streams);
        match stores.map(file, stream) {
            Ok(mapped) => writeln!(out, "{stream} {} {}", mapped.length, mapped.slices)?,
            // The number is below the count, so the stream is absent.
            Err(why) if why.kind() == Kind::StreamNotFound => writeln!(out, "{stream} absent")?,
            Err(why) => writeln!(out, "{stream} {}", refused(why))?,
        }
    }
    Ok(())
}

fn refused(why: Refusal) -> String {
    format!("refused {} {}", why.number, why.value)
}

/// Stores for a stream's slices, kept from stream to stream, so that few streams are mapped twice. No stream has over
/// 2^24 slices, which take 256 MiB.
#[derive(Default)]
struct Stores {
    offsets: Vec<u64>,
    sizes: Vec<u64>,
}

impl Stores {
    /// Maps a whole stream, and grows the stores if needed.
    fn map(&mut self, file: &[u8], stream: u32) -> Result<Mapped, Refusal> {
        match trovespan::map(file, stream, None, &mut self.offsets, &mut self.sizes) {
            Err(why) if why.kind() == Kind::NoRoom => {
                self.grow(why.value as usize);
                trovespan::map(file, stream, None, &mut self.offsets, &mut self.sizes)
            }
            answer => answer,
        }
    }

    fn grow(&mut self, room: usize) {
        self.offsets.resize(room, 0);
        self.sizes.resize(room, 0);
    }
}

//! Going through all streams of a file.

use std::io::{self, Write};
use std::time::{Duration, Instant};
use trovespan::Refusal;

// Refusals of the programs themselves.
const SHORT_DATA: u32 = 7;
const OVER_LIMIT: u32 = 11;

/// The most streams that a program goes through. PDB files number their streams with 16 bits, and 65,535 means none.
const STREAM_LIMIT: u32 = 65_535;

/// The time from one line of progress to the next.
const PROGRESS_EVERY: Duration = Duration::from_secs(10);

/// Where the directory's size is in the header.
const DIRECTORY_SIZE: usize = 44;

/// Returns the number of streams, if the directory holds all their sizes and they are not too many. So a made-up count
/// is not believed.
pub fn count(file: &[u8]) -> Result<u32, Refusal> {
    let streams = trovespan::stream_count(file)?;
    if 4 + 4 * u64::from(streams) > u64::from(directory_size(file)) {
        return Err(Refusal { number: SHORT_DATA, value: 0 });
    }
    if streams > STREAM_LIMIT {
        return Err(Refusal { number: OVER_LIMIT, value: STREAM_LIMIT.into() });
    }
    Ok(streams)
}

/// Precondition: the streams of the file could be counted, so it has a whole header.
fn directory_size(file: &[u8]) -> u32 {
    let word = &file[DIRECTORY_SIZE..DIRECTORY_SIZE + 4];
    u32::from_le_bytes([word[0], word[1], word[2], word[3]])
}

/// The words of a refusal. The library does not know what the limit is of.
pub fn in_words(why: Refusal) -> String {
    match why.number {
        OVER_LIMIT => format!("refused {OVER_LIMIT}: over {} streams, the limit of this program", why.value),
        _ => why.to_string(),
    }
}

/// Lines on standard error that say how far a program is, if it takes long.
pub struct Progress {
    /// The program, or the program and what it does.
    who: &'static str,
    began: Instant,
    next: Duration,
}

impl Progress {
    pub fn begin(who: &'static str) -> Self {
        Progress { who, began: Instant::now(), next: PROGRESS_EVERY }
    }

    pub fn show(&mut self, done: u32, all: u32) {
        let passed = self.began.elapsed();
        if passed >= self.next {
            // The program's work does not depend on it.
            let _ = writeln!(io::stderr(), "{}: {done} of {all} streams, {} s", self.who, passed.as_secs());
            self.next = passed + PROGRESS_EVERY;
        }
    }
}

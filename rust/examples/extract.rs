//! extract [--at-most N] FILE STREAM OUT: writes the bytes of a stream of a PDB file, of any size, to OUT.
//!
//! A stream of more than N bytes is not extracted, nor is memory allocated for it. N is 268435456 if it is not given. A
//! small file can name one page many times, so the size of a stream has nothing to do with that of its file.
//!
//! On failure prints one line on standard error, and neither makes nor changes OUT.

mod common;

use common::{arguments, at_most, number, output, read, shown, stop, store, words, FAILED};
use std::path::Path;

const USAGE: &str = "extract [--at-most N] FILE STREAM OUT";

fn main() {
    let mut arguments = arguments();
    let at_most = at_most("extract", &mut arguments, USAGE);
    let [path, stream, out] = words(arguments, USAGE);
    let stream = number("extract", "STREAM", &stream, u32::MAX.into()) as u32;
    let file = read("extract", &path);
    let bytes = extract(&file, stream, at_most)
        .unwrap_or_else(|why| stop(FAILED, format!("extract: {}: stream {stream}: {why}", shown(&path))));
    if let Err(e) = output::write(Path::new(&out), &bytes) {
        stop(FAILED, format!("extract: {}: {e}", shown(&out)));
    }
}

/// The bytes of a whole stream, or why there are none. Allocates nothing before both are known to be possible.
fn extract(file: &[u8], stream: u32, at_most: usize) -> Result<Vec<u8>, String> {
    let length = trovespan::stream_length(file, stream).map_err(|why| why.to_string())?;
    let mut bytes = store("it has", length, at_most)?;
    trovespan::extract(file, stream, None, &mut bytes).map_err(|why| why.to_string())?;
    Ok(bytes)
}

//! What the programs share: arguments, reading the file, and failing; its streams; writing another file.
#![allow(dead_code)] // Each program uses what it needs.

pub mod output;
pub mod streams;

use std::ffi::{OsStr, OsString};
use std::fmt::Display;
use std::path::Path;
use std::{env, fs, process};
use trovespan::AT_MOST;

/// The status after wrong arguments.
pub const MISUSED: i32 = 2;
/// The status after a failure.
pub const FAILED: i32 = 1;

/// The arguments after the program's name.
pub fn arguments() -> Vec<OsString> {
    env::args_os().skip(1).collect()
}

/// The arguments, which must be COUNT.
pub fn words<const COUNT: usize>(arguments: Vec<OsString>, usage: &str) -> [OsString; COUNT] {
    arguments.try_into().unwrap_or_else(|_| misused(usage))
}

pub fn misused(usage: &str) -> ! {
    stop(MISUSED, format!("usage: {usage}"))
}

/// Takes `--at-most N` from the front of the arguments, if it is there.
pub fn at_most(program: &str, arguments: &mut Vec<OsString>, usage: &str) -> usize {
    if arguments.first().map_or(true, |word| word != "--at-most") {
        return AT_MOST;
    }
    match arguments.drain(..arguments.len().min(2)).nth(1) {
        Some(word) => number(program, "N", &word, usize::MAX as u64) as usize,
        None => misused(usage),
    }
}

/// Parses a number: decimal digits alone, in range.
pub fn number(program: &str, name: &str, word: &OsStr, largest: u64) -> u64 {
    let digits = word.to_str().filter(|word| word.bytes().all(|b| b.is_ascii_digit()));
    let number = digits.and_then(|digits| digits.parse().ok()).filter(|&number| number <= largest);
    number
        .unwrap_or_else(|| stop(MISUSED, format!("{program}: {}: {name} is a number from 0 to {largest}", shown(word))))
}

/// The whole file.
pub fn read(program: &str, path: &OsStr) -> Vec<u8> {
    fs::read(path).unwrap_or_else(|e| stop(FAILED, format!("{program}: {}: {e}", shown(path))))
}

/// Bytes to write to, at most `at_most`, or why there are none. `has` are the words before the length.
pub fn store(has: &str, length: usize, at_most: usize) -> Result<Vec<u8>, String> {
    if length > at_most {
        return Err(format!("{has} {length} bytes, more than {at_most} (--at-most N allows N bytes)"));
    }
    let mut bytes = Vec::new();
    bytes.try_reserve_exact(length).map_err(|_| format!("there is no memory for {length} bytes"))?;
    bytes.resize(length, 0);
    Ok(bytes)
}

/// A path, for printing.
pub fn shown(path: &OsStr) -> impl Display + '_ {
    Path::new(path).display()
}

/// Ends the program and prints one line that says why.
pub fn stop(status: i32, why: String) -> ! {
    eprintln!("{why}");
    process::exit(status)
}

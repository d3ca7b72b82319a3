//! The inline sites of every module, in the words of `llvm-pdbutil dump --symbols`, without its indentation and the
//! inlinees' names.

use std::fmt::Write;
use std::ops::Range;

use crate::annotations;
use crate::bytes::{half, part, word};
use crate::container::Stream;
use crate::modules::{modules, Module};
use crate::totals::Totals;

const DBI: usize = 3;

const INLINE_SITE: u16 = 0x114d;
/// A site that also says how often it runs. llvm-pdbutil does not print its annotations, so there is nothing to compare.
const INLINE_SITE_2: u16 = 0x115d;

/// Where a record has its kind, and a site its parent, end, inlinee and annotations.
const KIND: usize = 2;
const PARENT: usize = 4;
const END: usize = 8;
const INLINEE: usize = 12;
const ANNOTATIONS: usize = 16;

/// Where a site is: the stream of its module, and its record there.
pub struct Site {
    pub stream: usize,
    record: Range<usize>,
}

impl Site {
    /// Where it is in the stream.
    pub fn at(&self) -> usize {
        self.record.start
    }

    /// Where its annotations are in the stream, to the end of the record.
    pub fn annotations(&self) -> Range<usize> {
        self.record.start + ANNOTATIONS..self.record.end
    }
}

pub fn text(streams: &[Stream], totals: &mut Totals) -> Result<String, String> {
    let mut text = String::new();
    for (number, module) in modules(stream(streams, DBI)?)?.iter().enumerate() {
        writeln!(text, "Mod {number:04}").unwrap();
        if module.stream.is_none() {
            writeln!(text, "Error loading module stream {number}.  The specified stream could not be loaded. Module stream not present").unwrap();
        }
        for site in in_module(streams, module)? {
            write_site(streams, &site, &mut text, totals)?;
        }
        totals.modules += 1;
    }
    Ok(text)
}

/// The sites of all modules.
pub fn all(streams: &[Stream]) -> Result<Vec<Site>, String> {
    let mut sites = Vec::new();
    for module in modules(stream(streams, DBI)?)? {
        sites.extend(in_module(streams, &module)?);
    }
    Ok(sites)
}

fn stream(streams: &[Stream], number: usize) -> Result<&[u8], String> {
    let stream = streams.get(number).and_then(Option::as_deref);
    stream.ok_or_else(|| format!("there is no stream {number}"))
}

/// A module without a stream has no sites.
fn in_module(streams: &[Stream], module: &Module) -> Result<Vec<Site>, String> {
    let mut sites = Vec::new();
    let from = match module.stream {
        Some(from) => from,
        None => return Ok(sites),
    };
    let symbols = part(stream(streams, from)?, 0, module.symbols_size)?;
    let mut at = 4; // after the signature
    while at < symbols.len() {
        let size = usize::from(half(symbols, at)?) + 2;
        match half(part(symbols, at, size)?, KIND)? {
            INLINE_SITE => sites.push(Site { stream: from, record: at..at + size }),
            INLINE_SITE_2 => return Err(format!("stream {from} has an S_INLINESITE2 at {at}")),
            _ => {}
        }
        at += size;
    }
    Ok(sites)
}

fn write_site(streams: &[Stream], site: &Site, text: &mut String, totals: &mut Totals) -> Result<(), String> {
    let stream = stream(streams, site.stream)?;
    let (at, record) = (site.record.start, &stream[site.record.clone()]);
    let (parent, end, inlinee) = (word(record, PARENT)?, word(record, END)?, word(record, INLINEE)?);
    writeln!(text, "{at} | S_INLINESITE [size = {}]", record.len()).unwrap();
    writeln!(text, "inlinee = 0x{inlinee:04X}, parent = {parent}, end = {end}").unwrap();
    annotations::write(&stream[site.annotations()], text, totals)?;
    totals.sites += 1;
    Ok(())
}

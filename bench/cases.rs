//! The cases that are measured, and what each side does.

use std::cell::RefCell;
use std::io::{self, Cursor};
use std::rc::Rc;

use trovespan::{Step, ENTRIES_EACH, LINE_ENTRIES, RECORD_ENTRIES};

use super::inputs::{
    annotations, in_long_slices, in_single_pages, line_program, of_streams, records, streams,
    LONGEST_STREAM, MOST_ANNOTATIONS, PAGE,
};
use super::reckoning;
use super::timing::{Call, Stores, REFUSED};
use crate::annotations::triple;
use crate::msf::{open_msf, Msf};
use crate::source::{Source, SourceSlice, SourceView};
use crate::symbol::annotations::BinaryAnnotations;
use crate::FallibleIterator;

pub struct Case {
    pub name: &'static str,
    /// The number of bytes a call processes, if throughput is measured.
    pub bytes: Option<usize>,
    pub ours: Box<Call>,
    pub beside: Beside,
}

/// What ours is measured beside.
pub enum Beside {
    Pdb(Box<Call>),
    /// pdb has nothing that does this, but memory has a speed.
    Copy(Box<Call>),
    /// pdb has nothing that does this by our rules. Plain Rust does, over pdb's iterator.
    Reckoning(Box<Call>),
    /// pdb has nothing that does this.
    Nothing,
}

impl Beside {
    pub fn call(&self) -> Option<&Call> {
        match self {
            Beside::Pdb(call) | Beside::Copy(call) | Beside::Reckoning(call) => Some(call),
            Beside::Nothing => None,
        }
    }

    pub fn name(&self) -> &'static str {
        match self {
            Beside::Copy(_) => "a copy",
            Beside::Reckoning(_) => "a reckoning",
            _ => "theirs",
        }
    }
}

/// The cases, with `halves` halves of the work. Opening is the first.
pub fn cases(halves: usize) -> Vec<Case> {
    let length = LONGEST_STREAM / 2 * halves;
    let long = in_long_slices(length);
    let annotations = annotations(MOST_ANNOTATIONS * halves);
    vec![
        opening(long),
        mapping("map-long", long, 0),
        mapping("map-single", in_single_pages(length), 0),
        mapping(
            "map-2000-of-4000",
            of_streams(2000 * halves),
            1000 * halves as u32,
        ),
        extraction(long, length),
        fresh_extraction(long, length),
        first_page(long),
        all_streams(of_streams(2000 * halves), 2000 * halves as u32),
        steps(annotations),
        decoding(annotations),
        lines(line_program(MOST_ANNOTATIONS * halves)),
        writing(annotations),
        packing(length),
    ]
}

/// Ours reads the header in place. pdb reads a copy of the header block and keeps the header.
fn opening(file: &'static [u8]) -> Case {
    Case {
        name: "open",
        bytes: None,
        ours: Box::new(move |_| trovespan::open(file).is_ok().into()),
        beside: Beside::Pdb(Box::new(move |_| opened(file).is_some().into())),
    }
}

#[inline(never)] // so that the value is made, though it is dropped at once
fn opened(file: &'static [u8]) -> Option<Box<dyn Msf<'static, Cursor<&'static [u8]>>>> {
    open_msf(Cursor::new(file)).ok()
}

/// From the file to the stream's slices, in two stores or in a vector. Each side opens the file, finds the
/// directory and the stream in it, and checks its page numbers. pdb reads copies of the location list and
/// of the directory.
fn mapping(name: &'static str, file: &'static [u8], stream: u32) -> Case {
    Case {
        name,
        bytes: None,
        ours: Box::new(move |stores| {
            let mapped = trovespan::map(file, stream, None, &mut stores.offsets, &mut stores.sizes);
            mapped.map_or(REFUSED, |mapped| (mapped.slices + mapped.length) as u64)
        }),
        beside: Beside::Pdb(Box::new(move |_| {
            let slices = Rc::default();
            let source = Unread {
                file: Cursor::new(file),
                views: 0,
                slices: Rc::clone(&slices),
            };
            let got = open_msf(source).and_then(|mut msf| msf.get(stream, None));
            let length = got.map_or(0, |stream| stream.len());
            let slices = slices.take();
            (slices.len() + length) as u64
        })),
    }
}

/// From the file to the stream's bytes. Ours copies them into a lent store. pdb allocates a vector, fills
/// it with zeros and reads the slices into it, by its own source over a `Cursor`.
fn extraction(file: &'static [u8], length: usize) -> Case {
    Case {
        name: "extract",
        bytes: Some(length),
        ours: Box::new(move |stores| {
            let extracted = trovespan::extract(file, 0, None, &mut stores.bytes);
            extracted.map_or(REFUSED, |length| figure(&stores.bytes[..length]))
        }),
        beside: Beside::Pdb(Box::new(move |_| read_by_pdb(file, None))),
    }
}

/// The same, but ours is asked as by a caller that has no store: for the room, then for the bytes, into a
/// new vector.
fn fresh_extraction(file: &'static [u8], length: usize) -> Case {
    Case {
        name: "extract-fresh",
        bytes: Some(length),
        ours: Box::new(move |_| fresh(file).map_or(REFUSED, |stream| figure(&stream))),
        beside: Beside::Pdb(Box::new(move |_| read_by_pdb(file, None))),
    }
}

/// Only the first page of the stream. Both still check all of its page numbers.
fn first_page(file: &'static [u8]) -> Case {
    Case {
        name: "extract-page",
        bytes: None,
        ours: Box::new(move |stores| {
            let extracted = trovespan::extract(file, 0, Some(PAGE), &mut stores.bytes);
            extracted.map_or(REFUSED, |length| figure(&stores.bytes[..length]))
        }),
        beside: Beside::Pdb(Box::new(move |_| read_by_pdb(file, Some(PAGE)))),
    }
}

fn fresh(file: &[u8]) -> Result<Vec<u8>, trovespan::Refusal> {
    const TOO_SMALL: u32 = 10;
    let room = match trovespan::extract(file, 0, None, &mut []) {
        Err(why) if why.number == TOO_SMALL => why.value as usize,
        answer => answer?,
    };
    let mut stream = vec![0; room];
    trovespan::extract(file, 0, None, &mut stream)?;
    Ok(stream)
}

fn read_by_pdb(file: &'static [u8], limit: Option<usize>) -> u64 {
    let got = open_msf(Cursor::new(file)).and_then(|mut msf| msf.get(0, limit));
    got.map_or(REFUSED, |stream| figure(&stream))
}

/// The bytes of all streams, one after the other. Each call of ours opens the file afresh. pdb opens it
/// once and keeps a copy of the directory. Both go through the sizes of all earlier streams for each.
fn all_streams(file: &'static [u8], count: u32) -> Case {
    Case {
        name: "all-streams",
        bytes: None,
        ours: Box::new(move |stores| {
            let extracted = |stream| {
                let extracted = trovespan::extract(file, stream, None, &mut stores.bytes);
                extracted.map_or(REFUSED, |length| figure(&stores.bytes[..length]))
            };
            (0..count).map(extracted).sum()
        }),
        beside: Beside::Pdb(Box::new(move |_| {
            open_msf(Cursor::new(file)).map_or(REFUSED, |mut msf| {
                let read = |stream| msf.get(stream, None).map_or(REFUSED, |got| figure(&got));
                (0..count).map(read).sum()
            })
        })),
    }
}

/// The length, and a byte of every mebibyte.
fn figure(stream: &[u8]) -> u64 {
    let bytes = stream.iter().step_by(1 << 20).map(|&b| u64::from(b));
    stream.len() as u64 + bytes.sum::<u64>()
}

/// Step after step to the end, each used: ours from place to place, pdb by its iterator. Ours also says of
/// each whether its numbers are shortest, which pdb does not: that is computed, and not used.
fn steps(bytes: &'static [u8]) -> Case {
    Case {
        name: "step",
        bytes: Some(bytes.len()),
        ours: Box::new(move |_| {
            let mut sum = 0;
            let mut at = trovespan::step(bytes, 0);
            while let (Some(entries), place) = (entries(at.0), at.1) {
                sum += entries.iter().sum::<i64>();
                at = trovespan::step(bytes, place);
            }
            sum as u64
        }),
        beside: Beside::Pdb(Box::new(move |_| {
            let mut sum = 0;
            let mut iter = BinaryAnnotations::new(bytes).iter();
            while let Ok(Some(annotation)) = iter.next() {
                sum += triple(annotation).iter().sum::<i64>();
            }
            sum as u64
        })),
    }
}

/// An annotation's three numbers, which both sides have.
fn entries(step: Step) -> Option<[i64; RECORD_ENTRIES]> {
    match step {
        Step::Annotation {
            opcode,
            first,
            second,
            ..
        } => Some([i64::from(opcode), first, second]),
        _ => None,
    }
}

/// All annotations into a lent store, four entries each. Ours writes nothing before it has judged
/// all; pdb has no such function, and its side writes each annotation as its iterator comes to it. pdb does
/// not know whether the numbers are shortest. Its side writes the three numbers that it has to the same places
/// of the same store, and nothing to the fourth entry. So ours does more.
fn decoding(bytes: &'static [u8]) -> Case {
    Case {
        name: "decode",
        bytes: Some(bytes.len()),
        ours: Box::new(move |stores| {
            trovespan::decode(bytes, &mut stores.entries).map_or(REFUSED, |count| count as u64)
        }),
        beside: Beside::Pdb(Box::new(move |stores| written(bytes, stores))),
    }
}

fn written(bytes: &'static [u8], stores: &mut Stores) -> u64 {
    let mut count = 0;
    let mut iter = BinaryAnnotations::new(bytes).iter();
    let mut room = stores.entries.chunks_exact_mut(ENTRIES_EACH);
    while let (Ok(Some(annotation)), Some(entries)) = (iter.next(), room.next()) {
        entries[..RECORD_ENTRIES].copy_from_slice(&triple(annotation));
        count += 1;
    }
    count
}

/// From a line program to its line records in a lent store, eight entries each. Both sides write nothing before
/// they have judged all, in two passes over the annotations.
fn lines(bytes: &'static [u8]) -> Case {
    Case {
        name: "lines",
        bytes: Some(bytes.len()),
        ours: Box::new(move |stores| {
            let ran = trovespan::run_lines(bytes, &mut stores.lines);
            ran.map_or(REFUSED, |count| figure_of_lines(&stores.lines, count))
        }),
        beside: Beside::Reckoning(Box::new(move |stores| {
            let ran = reckoning::run_lines(bytes, &mut stores.lines);
            ran.map_or(REFUSED, |count| figure_of_lines(&stores.lines, count))
        })),
    }
}

/// The number of records, and the entries of every thousandth, each in its place.
fn figure_of_lines(store: &[i64], count: usize) -> u64 {
    let records = store.chunks_exact(LINE_ENTRIES).take(count).step_by(1000);
    let entries = records.flat_map(|record| record.iter().zip(1..));
    let sum: i64 = entries.map(|(entry, place)| entry * place).sum();
    (count as i64 + sum) as u64
}

/// All annotations again, from their records to bytes in a lent store. Ours writes nothing before it has
/// judged all; pdb writes no annotations. The bytes that count are those written, in shortest forms.
fn writing(bytes: &'static [u8]) -> Case {
    let records = records(bytes);
    let write = move |out: &mut [u8]| trovespan::write_annotations(records, out);
    Case {
        name: "write",
        bytes: write(&mut vec![0; bytes.len()]).ok(),
        ours: Box::new(move |stores| {
            write(&mut stores.bytes).map_or(REFUSED, |length| length as u64)
        }),
        beside: Beside::Nothing,
    }
}

/// The bytes of streams of 1 MiB, as a whole file in a lent store. pdb writes no containers. Beside it is a copy of the
/// same bytes to the front of the same store.
fn packing(length: usize) -> Case {
    let (sizes, bytes) = streams(length);
    Case {
        name: "pack",
        bytes: Some(length),
        ours: Box::new(move |stores| {
            let written = trovespan::write_container(PAGE as u32, &sizes, bytes, &mut stores.bytes);
            written.map_or(REFUSED, |_| length as u64)
        }),
        beside: Beside::Copy(Box::new(move |stores| {
            stores.bytes[..length].copy_from_slice(bytes);
            length as u64
        })),
    }
}

/// pdb's own source over a `Cursor`, except that a stream is not read: its slices are kept, and the view
/// is of as many other bytes of the file.
#[derive(Debug)]
struct Unread {
    file: Cursor<&'static [u8]>,
    views: usize,
    slices: Rc<RefCell<Vec<SourceSlice>>>,
}

impl<'s> Source<'s> for Unread {
    fn view(&mut self, slices: &[SourceSlice]) -> Result<Box<dyn SourceView<'s>>, io::Error> {
        /// The earlier views are the header block, the location list and the directory.
        const STREAM: usize = 4;
        self.views += 1;
        if self.views < STREAM {
            return self.file.view(slices);
        }
        *self.slices.borrow_mut() = slices.to_vec();
        let length = slices.iter().map(|slice| slice.size).sum();
        Ok(Box::new(Other(&self.file.get_ref()[..length])))
    }
}

#[derive(Debug)]
struct Other(&'static [u8]);

impl SourceView<'_> for Other {
    fn as_slice(&self) -> &[u8] {
        self.0
    }
}

//! The inputs: containers of 4,096-byte pages, streams to be written as one, annotations, as bytes and as records,
//! and a line program. They are the same at each run, and stay in memory until the program ends, since a view for
//! pdb may not borrow from anything that ends earlier.

use trovespan::{ENTRIES_EACH, RECORD_ENTRIES};

use crate::container::{need, stream, Container};
use crate::random::Random;

pub const PAGE: usize = 4096;
pub const LONGEST_STREAM: usize = 32 << 20;
/// Enough for a file with so many bytes of streams: header, maps, directory and location page take less.
pub const LONGEST_FILE: usize = LONGEST_STREAM + (1 << 20);
/// In 1 MiB, since an annotation takes at least two bytes.
pub const MOST_ANNOTATIONS: usize = (1 << 20) / 2;

const SEED: u64 = 1;

/// The number of pages in a long slice, of 1 MiB.
const LONG: u32 = 256;

/// A container whose only stream has `size` bytes, in slices of 1 MiB, the last of them first.
pub fn in_long_slices(size: usize) -> &'static [u8] {
    container(&[size], |i, pages| {
        (pages / LONG - 1 - i / LONG) * LONG + i % LONG
    })
}

/// The same with a slice for each page.
pub fn in_single_pages(size: usize) -> &'static [u8] {
    container(&[size], |i, pages| pages - 1 - i)
}

/// A container of `count` streams, of two pages each.
pub fn of_streams(count: usize) -> &'static [u8] {
    container(&vec![PAGE + PAGE / 2; count], |i, _| i)
}

/// Streams of 1 MiB, of `length` bytes in all: their sizes and their bytes.
pub fn streams(length: usize) -> (Vec<u32>, &'static [u8]) {
    const SIZE: usize = LONG as usize * PAGE;
    let mut random = Random::new(SEED);
    let bytes: Vec<u8> = (0..length).map(|_| random.byte()).collect();
    let sizes = vec![SIZE as u32; length / SIZE];
    (sizes, Box::leak(bytes.into_boxed_slice()))
}

/// A container with streams of these sizes. Their pages follow those of the directory. `order` gives the
/// page of entry i of the page entries.
fn container(sizes: &[usize], order: fn(u32, u32) -> u32) -> &'static [u8] {
    let count: usize = sizes.iter().map(|&size| need(size, PAGE)).sum();
    let directory = need(4 * (1 + sizes.len() + count), PAGE) as u32;
    let location = need(4 * directory as usize, PAGE) as u32;
    let mut after = 1; // the header block
    let mut take = |pages: u32| {
        after += pages;
        after - pages..after
    };
    let (entries, location) = (take(location).collect(), take(directory).collect());
    let first = take(count as u32).start;
    let mut pages = (0..count as u32).map(|i| first + order(i, count as u32));
    let streams = sizes.iter().map(|&size| {
        let own: Vec<u32> = pages.by_ref().take(need(size, PAGE)).collect();
        stream(size as u32, &own)
    });
    let container = Container {
        page_size: PAGE,
        streams: streams.collect(),
        used: after,
        length: after as usize * PAGE,
        entries,
        location,
    };
    Box::leak(container.file(&mut Random::new(SEED)).into_boxed_slice())
}

/// `length` bytes of annotations with operands of every form, most of them short, and zeros after the
/// last.
pub fn annotations(length: usize) -> &'static [u8] {
    /// Opcode 12 has two operands.
    const LONGEST: usize = 1 + 2 * 4;
    let mut random = Random::new(SEED);
    let mut bytes = Vec::with_capacity(length);
    while bytes.len() + LONGEST <= length {
        let opcode = 1 + random.below(13) as u8;
        bytes.push(opcode);
        for _ in 0..if opcode == 12 { 2 } else { 1 } {
            put_operand(&mut random, &mut bytes);
        }
    }
    bytes.resize(length, 0);
    Box::leak(bytes.into_boxed_slice())
}

/// `length` bytes of a line program that is accepted, and zeros after the last annotation. Most annotations are 3,
/// 4, 6 and 11, about as often as clang emits them for the programs of `tests/real`. 1 and 2 are left out, since
/// offsets may not fall.
pub fn line_program(length: usize) -> &'static [u8] {
    /// Opcode 12 has two operands.
    const LONGEST: usize = 1 + 2 * 2;
    let mut random = Random::new(SEED);
    let mut bytes = Vec::with_capacity(length);
    bytes.extend_from_slice(&[3, 0]); // a record, so that 4 may follow
    while bytes.len() + LONGEST <= length {
        let opcode = opcode_of_lines(&mut random);
        bytes.push(opcode);
        for _ in 0..if opcode == 12 { 2 } else { 1 } {
            put_short_operand(&mut random, &mut bytes);
        }
    }
    bytes.resize(length, 0);
    Box::leak(bytes.into_boxed_slice())
}

fn opcode_of_lines(random: &mut Random) -> u8 {
    match random.below(100) {
        0..=26 => 3,
        27..=51 => 6,
        52..=72 => 4,
        73..=90 => 11,
        91 | 92 => 5,
        93 | 94 => 12,
        _ => random.pick(&[7, 8, 9, 10, 13]),
    }
}

/// The records that the annotations decode to, as they are written.
pub fn records(annotations: &[u8]) -> &'static [i64] {
    let mut entries = vec![0; ENTRIES_EACH * MOST_ANNOTATIONS];
    let count = trovespan::decode(annotations, &mut entries).expect("every annotation is one");
    let entries = entries.chunks_exact(ENTRIES_EACH).take(count);
    let records = entries.flat_map(|entries| &entries[..RECORD_ENTRIES]);
    Box::leak(records.copied().collect())
}

/// One byte, or two, so that the offsets of all records fit 32 bits.
fn put_short_operand(random: &mut Random, bytes: &mut Vec<u8>) {
    let value = random.next() as u16;
    match random.below(10) {
        0..=8 => bytes.push(value as u8 & 0x7f),
        _ => bytes.extend_from_slice(&(0x8000 | value & 0x3fff).to_be_bytes()),
    }
}

fn put_operand(random: &mut Random, bytes: &mut Vec<u8>) {
    let value = random.next() as u32;
    match random.below(10) {
        0..=6 => bytes.push(value as u8 & 0x7f),
        7 | 8 => bytes.extend_from_slice(&(0x8000 | value as u16 & 0x3fff).to_be_bytes()),
        _ => bytes.extend_from_slice(&(0xc000_0000 | value & 0x1fff_ffff).to_be_bytes()),
    }
}

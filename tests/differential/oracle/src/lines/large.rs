//! Programs too long for a list of questions, whose indices, places and counts take more than 16 and 24 bits. They are
//! asked about through the crate alone.

use super::list::Question;
use super::questions::around_needed;
use super::reckoning::ENTRIES_EACH;

/// The first numbers that take 17 and 25 bits.
const BITS_17: usize = 1 << 16;
const BITS_25: usize = 1 << 24;

/// What may follow many records: nothing, a length, an end, a falling offset, and what a decoder refuses.
const TAILS: [&[u8]; 7] = [
    &[],
    &[0x04, 0x05],
    &[0x00, 0x04, 0x05],
    &[0x01, 0x00, 0x03, 0x00],
    &[0x03],
    &[0x03, 0xe0, 0x00, 0x00, 0x00],
    &[0xdf, 0xff, 0xff, 0xff],
];

/// The longest annotation that emits: an opcode and two operands of four bytes. It leaves the code offset.
const LONGEST_ANNOTATION: [u8; 12] = [
    0xc0, 0x00, 0x00, 0x0c, 0xdf, 0xff, 0xff, 0xff, 0xc0, 0x00, 0x00, 0x00,
];

pub fn large() -> impl Iterator<Item = Question> {
    many_records()
        .chain(no_records())
        .chain(many_entries())
        .chain(over_24_bits())
}

/// Over 65,536 records, each on a line of its own, with each tail.
fn many_records() -> impl Iterator<Item = Question> {
    let program = [0x0b, 0x21].repeat(BITS_17 + 5);
    TAILS
        .iter()
        .map(move |tail| around_needed([&program, *tail].concat()))
}

/// Over 65,536 annotations, and over 2^24, before the first record, or before a length that is due to none.
fn no_records() -> impl Iterator<Item = Question> {
    let ends: [(usize, &[u8]); 4] = [
        (BITS_17, &[0x03, 0x05]),
        (BITS_17, &[0x04, 0x05]),
        (BITS_17, &[0x0a, 0x02]),
        (BITS_25, &[0x04, 0x05]),
    ];
    ends.to_vec().into_iter().map(|(count, end)| {
        let program = [0x06, 0x02].repeat(count + 5);
        around_needed([&program, end].concat())
    })
}

/// Records that need more than 2^24 entries, in a store of none.
fn many_entries() -> impl Iterator<Item = Question> {
    let count = BITS_25 / ENTRIES_EACH + 1;
    Some(in_no_room([0x03, 0x01].repeat(count))).into_iter()
}

/// A program over 16 MiB, with each tail, in a store of none.
fn over_24_bits() -> impl Iterator<Item = Question> {
    TAILS.iter().map(|tail| {
        let count = BITS_25 / LONGEST_ANNOTATION.len() + 10;
        in_no_room([&LONGEST_ANNOTATION.repeat(count), *tail].concat())
    })
}

fn in_no_room(bytes: Vec<u8>) -> Question {
    Question {
        bytes,
        low: 0,
        high: 0,
    }
}

//! Strings too long for a list, whose places, counts and entries take more than 16, 24 and 32 bits.
//! They are asked about through the crate alone.

use super::answers::ENTRIES_EACH;
use super::list::Question;
use super::pdb::needed;
use super::programs;
use crate::random::Random;

const SEED: u64 = 0x6c61_7267;

/// What may follow a sound program: nothing, the largest opcode, an invalid number as an opcode and as
/// an operand, a number that is cut short, and an end.
const TAILS: [&[u8]; 6] = [
    &[],
    &[0xdf, 0xff, 0xff, 0xff],
    &[0xe0, 0x00, 0x00, 0x00, 0x03],
    &[0x03, 0xff, 0x00, 0x00, 0x00],
    &[0x0c, 0x05, 0xc0, 0x00],
    &[0x00, 0x03, 0x05],
];

/// The longest annotation: an opcode and two operands of four bytes.
const LONGEST_ANNOTATION: [u8; 12] = [
    0xc0, 0x00, 0x00, 0x0c, 0xdf, 0xff, 0xff, 0xff, 0xc1, 0x23, 0x45, 0x67,
];

/// The first numbers that take 17, 25 and 33 bits.
const BITS_17: usize = 1 << 16;
const BITS_25: usize = 1 << 24;
const BITS_33: usize = 1 << 32;

pub fn large() -> impl Iterator<Item = Question> {
    let mut random = Random::new(SEED);
    let program = programs::sound(&mut random, BITS_17 + 100);
    over_16_bits(program.clone())
        .chain(many_annotations())
        .chain(over_24_bits())
        .chain(over_32_bits(program))
}

/// A program over 65,536 bytes, with each tail: the steps from its start and from places around its
/// end, and places far past it.
fn over_16_bits(program: Vec<u8>) -> impl Iterator<Item = Question> {
    TAILS.iter().flat_map(move |tail| {
        let bytes = [&program, *tail].concat();
        let ends = vec![BITS_17 - 1, BITS_17, BITS_17 + 1, program.len()];
        let past = vec![bytes.len(), bytes.len() + 1, BITS_33, BITS_33 + BITS_17];
        let places = [vec![0], ends, past, vec![usize::MAX]].concat();
        let needed = needed(&bytes);
        places.into_iter().map(move |at| Question {
            bytes: bytes.clone(),
            at,
            low: needed - 1,
            high: needed + 1,
            sweep: false,
        })
    })
}

/// Over 65,536 annotations, in stores of one entry too few, just enough, one more, and none.
fn many_annotations() -> impl Iterator<Item = Question> {
    let count = BITS_17 + 5;
    let needed = ENTRIES_EACH * count;
    let rooms = vec![(needed - 1, needed + 1), (0, 0)];
    rooms.into_iter().map(move |(low, high)| Question {
        bytes: vec![1; 2 * count],
        at: 2 * BITS_17,
        low,
        high,
        sweep: false,
    })
}

/// A program over 16 MiB, with each tail. The store is empty, so a complete answer is refused with the room needed.
fn over_24_bits() -> impl Iterator<Item = Question> {
    TAILS.iter().map(|tail| {
        let annotations = BITS_25 / LONGEST_ANNOTATION.len() + 10;
        let bytes = [&LONGEST_ANNOTATION.repeat(annotations), *tail].concat();
        Question {
            at: bytes.len() - tail.len() - 10 * LONGEST_ANNOTATION.len(),
            bytes,
            low: 0,
            high: 0,
            sweep: false,
        }
    })
}

/// Over 4 GiB: an annotation, zeros, and across 4 GiB a program with each tail, asked about from its
/// start on. Its first number ends past 4 GiB. Zeros that nothing touches take no memory.
fn over_32_bits(program: Vec<u8>) -> impl Iterator<Item = Question> {
    TAILS.iter().map(move |tail| {
        let program = [&LONGEST_ANNOTATION, &program[program.len() - 1000..], *tail].concat();
        let at = BITS_33 - 2;
        let mut bytes = vec![0; at + program.len()];
        bytes[..2].copy_from_slice(&[0x03, 0x05]);
        bytes[at..].copy_from_slice(&program);
        Question {
            bytes,
            at,
            low: ENTRIES_EACH - 1,
            high: ENTRIES_EACH,
            sweep: false,
        }
    })
}

//! Byte strings to ask about: annotation programs, damaged ones, or random bytes.

use super::forms;
use crate::random::Random;

/// The ends of each form's range, of the parts of opcode 11's operand, and around them.
const BOUNDARIES: [u32; 20] = [
    0, 1, 2, 3, 15, 16, 17, 31, 32, 0x7e, 0x7f, 0x80, 0xff, 0x100, 0x3ffe, 0x3fff, 0x4000, 0x10000,
    0x1ffffffe, 0x1fffffff,
];

/// A program of at least `length` bytes unless it is cut off: annotations with operands of every
/// form, then zeros or none.
pub fn structured(random: &mut Random, length: usize) -> Vec<u8> {
    let mut program = Vec::new();
    while program.len() < length {
        annotation(random, &mut program);
    }
    for _ in 0..random.below(4) {
        program.push(0);
    }
    program
}

/// A program of at least `length` bytes: annotations with operands of every form, and no end.
pub fn sound(random: &mut Random, length: usize) -> Vec<u8> {
    let mut program = Vec::new();
    while program.len() < length {
        let opcode = 1 + random.below(13) as u32;
        in_a_form(random, opcode, 16, &mut program);
        for _ in 0..operands(opcode) {
            let value = operand(random);
            in_a_form(random, value, 3, &mut program);
        }
    }
    program
}

/// A damaged copy.
pub fn mutated(random: &mut Random, program: &[u8]) -> Vec<u8> {
    let mut damaged = program.to_vec();
    for _ in 0..=random.below(3) {
        mutate(random, &mut damaged);
    }
    damaged
}

/// Random bytes, fewer than `end`.
pub fn uniform(random: &mut Random, end: usize) -> Vec<u8> {
    (0..random.below(end)).map(|_| random.byte()).collect()
}

fn annotation(random: &mut Random, program: &mut Vec<u8>) {
    let opcode = if random.one_in(32) {
        random.below(16) as u32
    } else {
        1 + random.below(13) as u32
    };
    // An opcode is a number too, so it has long forms.
    number(random, opcode, 16, program);
    for _ in 0..operands(opcode) {
        let value = operand(random);
        number(random, value, 3, program);
    }
}

/// The number of operands of an annotation.
fn operands(opcode: u32) -> usize {
    if opcode == 12 {
        2
    } else {
        1
    }
}

fn operand(random: &mut Random) -> u32 {
    match random.below(4) {
        0 => random.pick(&BOUNDARIES),
        1 => random.below(0x80) as u32,
        2 => random.below(0x4000) as u32,
        _ => random.below(0x2000_0000) as u32,
    }
}

/// Writes a number in one of its forms, or sometimes an invalid first byte instead.
fn number(random: &mut Random, value: u32, long: usize, program: &mut Vec<u8>) {
    if random.one_in(200) {
        program.push(0xe0 + random.below(32) as u8);
    } else {
        in_a_form(random, value, long, program);
    }
}

/// Writes a number in its shortest form, or once in `long` times in a longer one.
fn in_a_form(random: &mut Random, value: u32, long: usize, program: &mut Vec<u8>) {
    let mut lengths = forms::holding(value);
    let shortest = lengths.next().expect("every number here is below 2^29");
    let longer: Vec<usize> = lengths.collect();
    let length = if !longer.is_empty() && random.one_in(long) {
        random.pick(&longer)
    } else {
        shortest
    };
    program.extend_from_slice(&forms::bytes(value, length));
}

/// Flips a bit, drops a byte, inserts one, or cuts the end off.
fn mutate(random: &mut Random, bytes: &mut Vec<u8>) {
    let at = random.below(bytes.len() + 1);
    match random.below(4) {
        0 if at < bytes.len() => bytes[at] ^= 1 << random.below(8),
        1 if at < bytes.len() => {
            bytes.remove(at);
        }
        2 => bytes.truncate(at),
        _ => bytes.insert(at, random.byte()),
    }
}

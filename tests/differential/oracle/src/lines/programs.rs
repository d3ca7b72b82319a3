//! Line programs to ask about.

use crate::annotations::{forms, programs};
use crate::random::Random;

/// The largest operand.
pub const LARGEST: u32 = 0x1fff_ffff;

/// An annotation as its numbers: the opcode, and the operands as they stand in the bytes.
pub type Annotation = Vec<u32>;

/// Code deltas that keep the offsets of a program low.
const SMALL: [u32; 8] = [0, 1, 2, 3, 5, 8, 15, 16];

/// The opcodes of a program that is accepted, as often as they shall occur. 1 and 2 are left out: they may make the
/// offset fall.
const CALM: [u32; 20] = [
    3, 3, 3, 3, 11, 11, 11, 11, 12, 12, 4, 5, 6, 6, 7, 8, 9, 10, 10, 13,
];

/// What may follow a program: nothing, ends with annotations after them that do not exist, and what a decoder
/// refuses.
const TAILS: [&[u8]; 10] = [
    &[],
    &[],
    &[],
    &[0x00],
    &[0x00, 0x00, 0x00],
    &[0x00, 0x04, 0x01, 0x0e],
    &[0x80, 0x00, 0xe0],
    &[0x03],
    &[0x0e, 0x03, 0x01],
    &[0x03, 0xe0, 0x00, 0x00, 0x00],
];

/// The operand of a signed number: twice its distance from 0, and one more if it is negative.
pub fn signed(z: i32) -> u32 {
    2 * z.unsigned_abs() + u32::from(z < 0)
}

/// The operand of 11.
pub fn both(code: u32, line: i32) -> u32 {
    code + 16 * signed(line)
}

/// The bytes of annotations, each number in its shortest form.
pub fn bytes(annotations: &[Annotation]) -> Vec<u8> {
    let numbers = annotations.iter().flatten();
    numbers
        .flat_map(|&n| forms::bytes(n, shortest(n)))
        .collect()
}

fn shortest(n: u32) -> usize {
    let length = forms::holding(n).next();
    length.expect("every number here is below 2^29")
}

/// Annotations that set a base and bring the emitted offset to `to`: 1 as far as it can, and 3 from there on.
pub fn climb(base: u32, to: u64) -> Vec<Annotation> {
    let mut left = to - u64::from(base);
    let mut part = || {
        let part = left.min(u64::from(LARGEST));
        left -= part;
        part as u32
    };
    let mut annotations = vec![vec![2, base], vec![1, part()]];
    loop {
        match part() {
            0 => return annotations,
            delta => annotations.push(vec![3, delta]),
        }
    }
}

/// A program of about `count` annotations, three in four undamaged.
pub fn random(random: &mut Random, count: usize) -> Vec<u8> {
    let program = match random.below(8) {
        0..=2 => calm(random, count),
        3 | 4 => jumping(random, count),
        5 | 6 => high(random, count),
        _ => return programs::structured(random, 2 * count),
    };
    let mut bytes = in_forms(random, &program);
    bytes.extend_from_slice(random.pick(&TAILS));
    if random.one_in(4) {
        programs::mutated(random, &bytes)
    } else {
        bytes
    }
}

/// A program that is accepted, with many records. It may begin with an offset and a base.
fn calm(random: &mut Random, count: usize) -> Vec<Annotation> {
    let mut program = Vec::new();
    for &opcode in &[1, 2] {
        if random.one_in(3) {
            program.push(vec![opcode, operand(random)]);
        }
    }
    while program.len() < count {
        let opcode = random.pick(&CALM);
        if opcode != 4 || emitted(&program) {
            program.push(annotation(random, opcode));
        }
    }
    program
}

/// A program that sets offset and base again and again: up and down, most of the time where no length is due.
fn jumping(random: &mut Random, count: usize) -> Vec<Annotation> {
    let mut program = Vec::new();
    for annotation in calm(random, count) {
        program.push(annotation);
        if random.one_in(8) {
            if emitted(&program) && !random.one_in(5) {
                program.push(vec![4, operand(random)]);
            }
            program.push(vec![1 + random.below(2) as u32, operand(random)]);
        }
        if random.one_in(256) {
            program.insert(0, vec![4, 1]);
        }
    }
    program
}

/// A program whose offsets come near to 2^32 early, and may pass it.
fn high(random: &mut Random, count: usize) -> Vec<Annotation> {
    let base = random.pick(&[0, 1, 64, LARGEST]);
    let below = random.below(4 * count + 2) as u64;
    let mut program = climb(base, 0x1_0000_0000 - below);
    program.extend(calm(random, count).into_iter().filter(|a| a[0] > 2));
    program
}

/// Whether a program has an annotation that emits.
fn emitted(program: &[Annotation]) -> bool {
    program.iter().any(|a| matches!(a[0], 3 | 11 | 12))
}

/// An annotation with operands that are small if they change the code offset, else any.
fn annotation(random: &mut Random, opcode: u32) -> Annotation {
    match opcode {
        3 => vec![3, random.pick(&SMALL)],
        11 => {
            let line = random.below(9) as i32 - 4;
            vec![11, both(random.below(16) as u32, line)]
        }
        12 => vec![12, operand(random), random.pick(&SMALL)],
        _ => vec![opcode, operand(random)],
    }
}

fn operand(random: &mut Random) -> u32 {
    match random.below(8) {
        0 => LARGEST - random.below(2) as u32,
        1 => random.below(0x2000_0000) as u32,
        2 | 3 => random.below(0x4000) as u32,
        _ => random.below(0x80) as u32,
    }
}

/// The bytes of annotations, a number now and then in a longer form.
fn in_forms(random: &mut Random, annotations: &[Annotation]) -> Vec<u8> {
    let mut bytes = Vec::new();
    for &number in annotations.iter().flatten() {
        let lengths: Vec<usize> = forms::holding(number).collect();
        let length = if random.one_in(16) {
            random.pick(&lengths)
        } else {
            lengths[0]
        };
        bytes.extend_from_slice(&forms::bytes(number, length));
    }
    bytes
}

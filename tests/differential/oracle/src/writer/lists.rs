//! Lists to ask about: sound ones, and damaged ones.

use super::reckoning::{ranges, Range};
use crate::random::Random;

/// The ends of the ranges and one past them; the ends of the forms, as plain, signed and half operands; and numbers
/// that would be in a range if they were cut to 32 bits.
pub const EDGES: [i64; 45] = [
    i64::MIN,
    i64::MIN + 1,
    -(1 << 32) - 5,
    5 - (1 << 32),
    -536_870_912,
    -536_870_911,
    -268_435_456,
    -268_435_455,
    -16_777_216,
    -16_777_215,
    -8192,
    -8191,
    -512,
    -511,
    -64,
    -63,
    -4,
    -3,
    -1,
    0,
    1,
    3,
    4,
    15,
    16,
    63,
    64,
    127,
    128,
    511,
    512,
    8191,
    8192,
    16_383,
    16_384,
    16_777_215,
    16_777_216,
    268_435_455,
    268_435_456,
    536_870_911,
    536_870_912,
    1 << 32,
    (1 << 32) + 5,
    i64::MAX - 1,
    i64::MAX,
];

/// Opcodes that there are not. Some would be one if they were cut to 8, 16 or 32 bits, or were negated.
pub const NO_OPCODES: [i64; 14] = [
    i64::MIN,
    i64::MIN + 1,
    1 - (1 << 32),
    -13,
    -1,
    0,
    14,
    128,
    (1 << 8) + 1,
    (1 << 16) + 6,
    1 << 32,
    (1 << 32) + 11,
    (1 << 32) + 12,
    i64::MAX,
];

/// A list of `count` sound records.
pub fn sound(random: &mut Random, count: usize) -> Vec<i64> {
    let mut list = Vec::new();
    for _ in 0..count {
        let opcode = 1 + random.below(13) as i64;
        let [first, second] = ranges(opcode).expect("this is an opcode");
        list.extend_from_slice(&[opcode, within(random, &first), within(random, &second)]);
    }
    list
}

/// A damaged copy. By chance it may be sound.
pub fn damaged(random: &mut Random, list: &[i64]) -> Vec<i64> {
    let mut damaged = list.to_vec();
    for _ in 0..=random.below(3) {
        damage(random, &mut damaged);
    }
    damaged
}

/// A number of a range: an edge, a number of a short form, or any.
fn within(random: &mut Random, range: &Range) -> i64 {
    match random.below(4) {
        0 => {
            let edges: Vec<i64> = EDGES
                .iter()
                .copied()
                .filter(|z| range.contains(z))
                .collect();
            random.pick(&edges)
        }
        1 => near_zero(random, range, 0x80),
        2 => near_zero(random, range, 0x4000),
        _ => range.start() + random.below((range.end() - range.start() + 1) as usize) as i64,
    }
}

/// A number of a range whose distance from 0 is below `end`. Every range has 0.
fn near_zero(random: &mut Random, range: &Range, end: i64) -> i64 {
    let distance = random.below(end.min(range.end() + 1) as usize) as i64;
    if range.contains(&-distance) && random.one_in(2) {
        -distance
    } else {
        distance
    }
}

/// Replaces a number, most of the time. Otherwise cuts the end off, drops a number or inserts one.
fn damage(random: &mut Random, list: &mut Vec<i64>) {
    let at = random.below(list.len() + 1);
    match random.below(8) {
        0 => list.truncate(at),
        1 if at < list.len() => {
            list.remove(at);
        }
        2 => list.insert(at, random.pick(&EDGES)),
        3 if at < list.len() => list[at] = random.next() as i64,
        4 if at < list.len() => list[at] = random.pick(&NO_OPCODES),
        _ if at < list.len() => list[at] = random.pick(&EDGES),
        _ => {}
    }
}

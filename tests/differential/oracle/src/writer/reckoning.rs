//! What a writer must answer, reckoned from the text of requests 2026-01 and 2026-06. pdb has no writer to be
//! asked, but it has a reader: it must read the bytes of each accepted list as that list, to the last byte, and
//! every number must have its shortest form.

use std::ops::RangeInclusive;

use super::answers::Writer;
use super::list::RECORD_ENTRIES;
use crate::annotations::{read_whole, Refusal};

const NO_ROOM: u64 = 10;
const BAD_RECORD: u64 = 20;
const RAGGED_LIST: u64 = 21;

/// What an operand can be.
pub type Range = RangeInclusive<i64>;

const PLAIN: Range = 0..=536_870_911;
const SIGNED: Range = -268_435_455..=268_435_455;
const NONE: Range = 0..=0;

pub struct Reckoning;

impl Writer for Reckoning {
    fn write(list: &[i64], store: &mut [u8]) -> Result<usize, Refusal> {
        let bytes = bytes(list)?;
        match store.get_mut(..bytes.len()) {
            None => Err((NO_ROOM, bytes.len() as u64)),
            Some(front) => {
                front.copy_from_slice(&bytes);
                Ok(bytes.len())
            }
        }
    }
}

/// The bytes of a list, or its refusal. Stops unless pdb reads the bytes as that list.
fn bytes(list: &[i64]) -> Result<Vec<u8>, Refusal> {
    if !list.chunks_exact(RECORD_ENTRIES).remainder().is_empty() {
        return Err((RAGGED_LIST, 0));
    }
    let (bytes, sound) = sound_front(list);
    if sound < list.len() / RECORD_ENTRIES {
        return Err((BAD_RECORD, sound as u64));
    }
    if read_whole(&bytes) != Some(decoded(list)) {
        crate::stop(&format!("pdb does not read {:02x?} as {:?}", bytes, list));
    }
    Ok(bytes)
}

/// What decoding the bytes of a list gives: its records, each with a fourth entry 1.
pub fn decoded(list: &[i64]) -> Vec<i64> {
    list.chunks(RECORD_ENTRIES)
        .flat_map(|record| [record, &[1]].concat())
        .collect()
}

/// The bytes of the records before the first bad one, and how many records that are.
pub fn sound_front(list: &[i64]) -> (Vec<u8>, usize) {
    let mut bytes = Vec::new();
    let mut sound = 0;
    for record in list.chunks_exact(RECORD_ENTRIES) {
        match numbers(record[0], record[1], record[2]) {
            None => break,
            Some(numbers) => bytes.extend(numbers.into_iter().flat_map(shortest)),
        }
        sound += 1;
    }
    (bytes, sound)
}

/// What the two operands of an opcode can be, if there is such an opcode.
pub fn ranges(opcode: i64) -> Option<[Range; 2]> {
    match opcode {
        6 | 10 => Some([SIGNED, NONE]),
        11 => Some([0..=15, -16_777_215..=16_777_215]),
        12 => Some([PLAIN, PLAIN]),
        1..=13 => Some([PLAIN, NONE]),
        _ => None,
    }
}

/// The numbers that a record is written as, none if it is bad.
fn numbers(opcode: i64, first: i64, second: i64) -> Option<Vec<i64>> {
    let [firsts, seconds] = ranges(opcode)?;
    if !firsts.contains(&first) || !seconds.contains(&second) {
        return None;
    }
    Some(match opcode {
        6 | 10 => vec![opcode, signed(first)],
        11 => vec![opcode, first + 16 * signed(second)],
        12 => vec![opcode, first, second],
        _ => vec![opcode, first],
    })
}

/// The operand of a signed number: twice its distance from 0, and one more if it is negative.
fn signed(z: i64) -> i64 {
    2 * z.abs() + i64::from(z < 0)
}

/// The shortest form of a number.
fn shortest(n: i64) -> Vec<u8> {
    let big_endian = |n: i64, length: usize| n.to_be_bytes()[8 - length..].to_vec();
    match n {
        0..=0x7f => big_endian(n, 1),
        0x80..=0x3fff => big_endian(0x8000 + n, 2),
        _ => big_endian(0xc000_0000 + n, 4),
    }
}

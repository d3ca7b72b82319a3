//! Annotations written as bytes: accepted, and refused with every refusal, with `out` after it. What is written is
//! decoded again.

use std::ops::RangeInclusive;
use trovespan::{annotations, decode, write_annotations, Refusal, ENTRIES_EACH, RECORD_ENTRIES};

/// What `out` holds before a call.
const BEFORE: u8 = 0x5e;

/// A record takes no more bytes.
const LONGEST: usize = 9;

/// The largest number of four bytes.
const LARGEST: i64 = 536_870_911;

/// For lists whose answer does not depend on the room.
const ROOMS: [usize; 3] = [0, 1, 200];

const RAGGED_LIST: Refusal = Refusal { number: 21, value: 0 };

fn bad_record(index: u64) -> Refusal {
    Refusal { number: 20, value: index }
}

fn no_room(needed: usize) -> Refusal {
    Refusal { number: 10, value: needed as u64 }
}

/// Writes into `room` bytes, and checks that no byte past the answer changed.
fn written(records: &[i64], room: usize) -> Result<Vec<u8>, Refusal> {
    let mut out = vec![BEFORE; room];
    let answer = write_annotations(records, &mut out);
    let length = answer.unwrap_or(0);
    assert!(out[length..].iter().all(|byte| *byte == BEFORE));
    answer?;
    out.truncate(length);
    Ok(out)
}

fn decoded(bytes: &[u8]) -> Vec<i64> {
    let mut store = vec![0; bytes.len() / 2 * ENTRIES_EACH];
    let count = decode(bytes, &mut store).unwrap();
    store.truncate(ENTRIES_EACH * count);
    store
}

/// The records that bytes decode to, in whatever forms their numbers are.
fn records_in(bytes: &[u8]) -> Vec<i64> {
    decoded(bytes).chunks(ENTRIES_EACH).flat_map(|entries| &entries[..RECORD_ENTRIES]).copied().collect()
}

/// What records decode to once they are written: each with a fourth entry 1.
fn in_shortest_forms(records: &[i64]) -> Vec<i64> {
    records.chunks(RECORD_ENTRIES).flat_map(|record| [record, &[1]].concat()).collect()
}

/// Writes one record, which decodes to itself.
fn record(opcode: i64, first: i64, second: i64) -> Vec<u8> {
    let bytes = written(&[opcode, first, second], LONGEST).unwrap();
    assert_eq!(decoded(&bytes), [opcode, first, second, 1]);
    bytes
}

/// What the two operands of an opcode may be. An operand that it does not have is 0.
fn operands(opcode: i64) -> [RangeInclusive<i64>; 2] {
    match opcode {
        6 | 10 => [-268_435_455..=268_435_455, 0..=0],
        11 => [0..=15, -16_777_215..=16_777_215],
        12 => [0..=LARGEST, 0..=LARGEST],
        _ => [0..=LARGEST, 0..=0],
    }
}

/// Writes one record, and compares whether it is accepted with `operands`.
fn judge(opcode: i64, first: i64, second: i64) {
    let [firsts, seconds] = operands(opcode);
    if firsts.contains(&first) && seconds.contains(&second) {
        record(opcode, first, second);
    } else {
        assert_eq!(written(&[opcode, first, second], LONGEST), Err(bad_record(0)), "{opcode} {first} {second}");
    }
}

/// Zero, and the numbers next to each power of two, on both sides of zero. All ends of ranges are among them.
fn next_to_powers() -> Vec<i64> {
    let above = (0..63).map(|shift| 1 << shift).flat_map(|power: i64| [power - 1, power, power + 1]);
    above.chain([i64::MAX]).flat_map(|number| [number, -number]).chain([i64::MIN]).collect()
}

#[test]
fn writes_each_annotation() {
    for opcode in 1..=13u8 {
        let (first, second, wanted): (i64, i64, &[u8]) = match opcode {
            6 | 10 => (-7, 0, &[15]),
            11 => (2, -3, &[0x72]),
            12 => (15, 16, &[15, 16]),
            _ => (15, 0, &[15]),
        };
        assert_eq!(record(opcode.into(), first, second), [&[opcode], wanted].concat());
    }
}

#[test]
fn writes_the_shortest_form() {
    let numbers: [(i64, &[u8]); 12] = [
        (0, &[0]),
        (1, &[1]),
        (127, &[0x7f]),
        (128, &[0x80, 0x80]),
        (255, &[0x80, 0xff]),
        (256, &[0x81, 0]),
        (16_383, &[0xbf, 0xff]),
        (16_384, &[0xc0, 0, 0x40, 0]),
        (65_536, &[0xc0, 1, 0, 0]),
        (0x123_4567, &[0xc1, 0x23, 0x45, 0x67]),
        (LARGEST - 1, &[0xdf, 0xff, 0xff, 0xfe]),
        (LARGEST, &[0xdf, 0xff, 0xff, 0xff]),
    ];
    for (number, wanted) in numbers {
        for opcode in [1, 2, 3, 4, 5, 7, 8, 9, 13] {
            assert_eq!(record(opcode.into(), number, 0), [&[opcode], wanted].concat());
        }
        for (other, wanted_other) in numbers {
            assert_eq!(record(12, number, other), [&[12], wanted, wanted_other].concat());
        }
    }
}

#[test]
fn writes_signed_operands() {
    let numbers: [(i64, &[u8]); 13] = [
        (0, &[0]),
        (1, &[2]),
        (-1, &[3]),
        (63, &[0x7e]),
        (-63, &[0x7f]),
        (64, &[0x80, 0x80]),
        (-64, &[0x80, 0x81]),
        (8_191, &[0xbf, 0xfe]),
        (-8_191, &[0xbf, 0xff]),
        (8_192, &[0xc0, 0, 0x40, 0]),
        (-8_192, &[0xc0, 0, 0x40, 1]),
        (268_435_455, &[0xdf, 0xff, 0xff, 0xfe]),
        (-268_435_455, &[0xdf, 0xff, 0xff, 0xff]),
    ];
    for (number, wanted) in numbers {
        for opcode in [6, 10] {
            assert_eq!(record(opcode.into(), number, 0), [&[opcode], wanted].concat());
        }
    }
}

#[test]
fn writes_two_operands_as_one_number() {
    let numbers: [(i64, i64, &[u8]); 12] = [
        (0, 0, &[0]),
        (15, 0, &[0x0f]),
        (0, 1, &[0x20]),
        (0, -1, &[0x30]),
        (15, -3, &[0x7f]),
        (0, 4, &[0x80, 0x80]),
        (15, -511, &[0xbf, 0xff]),
        (0, 512, &[0xc0, 0, 0x40, 0]),
        (0, 16_777_215, &[0xdf, 0xff, 0xff, 0xe0]),
        (15, 16_777_215, &[0xdf, 0xff, 0xff, 0xef]),
        (0, -16_777_215, &[0xdf, 0xff, 0xff, 0xf0]),
        (15, -16_777_215, &[0xdf, 0xff, 0xff, 0xff]),
    ];
    for (first, second, wanted) in numbers {
        assert_eq!(record(11, first, second), [&[11], wanted].concat());
    }
}

#[test]
fn judges_the_ends_of_operands() {
    // Both ends, the numbers just outside, and the numbers farthest from them.
    let ends = |range: RangeInclusive<i64>| {
        [i64::MIN, range.start() - 1, *range.start(), *range.end(), range.end() + 1, i64::MAX]
    };
    for opcode in 1..=13 {
        let [firsts, seconds] = operands(opcode).map(ends);
        for first in firsts {
            for second in seconds {
                judge(opcode, first, second);
            }
        }
    }
}

/// Numbers that would fit if some of their bits were dropped, or if doubling them did.
#[test]
fn judges_all_bits_of_operands() {
    for opcode in 1..=13 {
        for number in next_to_powers() {
            judge(opcode, number, 0);
            judge(opcode, 0, number);
            judge(opcode, number, number);
        }
    }
}

#[test]
fn refuses_unknown_opcodes() {
    for opcode in
        [0, 14, 15, 127, 128, 256 + 3, -1, -3, (1 << 32) + 1, -(1 << 32) + 1, i64::MIN, i64::MIN + 3, i64::MAX]
    {
        for room in ROOMS {
            assert_eq!(written(&[opcode, 0, 0], room), Err(bad_record(0)));
        }
    }
}

#[test]
fn refuses_the_first_bad_record() {
    for index in [0, 1, 2, 10] {
        for bad in [[14, 0, 0], [3, -1, 0], [3, 5, 1], [11, 16, 0]] {
            // A worse record after it does not matter, nor does the room: 10 is for complete answers.
            let records = [[12, 1, 2].repeat(index), bad.to_vec(), vec![0, -1, -1], vec![3, 5, 0]].concat();
            for room in ROOMS {
                assert_eq!(written(&records, room), Err(bad_record(index as u64)));
            }
        }
    }
}

#[test]
fn refuses_ragged_lists() {
    for records in [[3, 5, 0, 6, -7, 0, 3, 5], [14, 0, 0, 3, 5, 1, 0, 0], [i64::MIN; 8]] {
        for length in [1, 2, 4, 5, 7, 8] {
            for room in ROOMS {
                assert_eq!(written(&records[..length], room), Err(RAGGED_LIST));
            }
        }
    }
}

#[test]
fn refuses_to_write_into_too_little() {
    let records = [3, 5, 0, 12, LARGEST, 128, 6, -7, 0];
    let wanted = [3, 5, 12, 0xdf, 0xff, 0xff, 0xff, 0x80, 0x80, 6, 15];
    for room in 0..wanted.len() {
        assert_eq!(written(&records, room), Err(no_room(wanted.len())));
    }
    for room in [wanted.len(), wanted.len() + 1, 200] {
        assert_eq!(written(&records, room), Ok(wanted.to_vec()));
    }
}

#[test]
fn writes_nothing() {
    for room in ROOMS {
        assert_eq!(written(&[], room), Ok(vec![]));
    }
}

#[test]
fn writes_long_lists() {
    let numbers = (0..20_000).step_by(9);
    let records: Vec<i64> = numbers.flat_map(|n| [3, n, 0, 6, -n, 0, 11, n % 16, n, 12, LARGEST, n]).collect();
    let bytes = written(&records, LONGEST * records.len() / RECORD_ENTRIES).unwrap();
    assert_eq!(decoded(&bytes), in_shortest_forms(&records));
    assert_eq!(written(&records, bytes.len()), Ok(bytes.clone()));
    assert_eq!(written(&records, bytes.len() - 1), Err(no_room(bytes.len())));
}

/// The two strings that pdb tests its iterator with are in shortest form, up to their closing opcodes.
#[test]
fn writes_what_was_read() {
    let strings: [&[u8]; 2] = [
        b"\x0b\x03\x06\n\x03\x08\x06\x06\x03-\x06\x08\x03\x07\x0br\x06\x06\x0c\x03\x07\x06\x0f\x0c\x06\x05",
        b"\x03P\x06\x0e\x03\x0c\x06\x04\x032\x06\x06\x03T\x0b#\x0b\\\x0bC\x0b/\x06\x04\x0c-\t\x03;\x06\x1d\x0c\x05\x06",
    ];
    for string in strings {
        let closed = [string, &[0, 0]].concat();
        let triples: Vec<i64> = annotations(&closed).flat_map(|item| item.unwrap().annotation.triple()).collect();
        assert_eq!(decoded(&closed), in_shortest_forms(&triples));
        assert_eq!(written(&triples, string.len()), Ok(string.to_vec()));
    }
}

#[test]
fn writes_longer_forms_shorter() {
    let long = [0x80, 3, 0xc0, 0, 0, 5, 6, 1, 0xc0, 0, 0, 11, 0x80, 0x1f, 0, 9];
    assert_eq!(decoded(&long), [3, 5, 0, 0, 6, 0, 0, 1, 11, 15, 0, 0]);
    assert_eq!(written(&records_in(&long), 6), Ok(vec![3, 5, 6, 0, 11, 15]));
}

/// All four entries of an annotation are no record: what is written of one is not about the forms of its numbers.
#[test]
fn takes_no_fourth_entry() {
    for entries in [[3, 5, 0, 1], [3, 5, 0, 0]] {
        for room in ROOMS {
            assert_eq!(written(&entries, room), Err(RAGGED_LIST));
            assert_eq!(written(&entries.repeat(3), room), Err(bad_record(1)));
        }
    }
}

//! Line programs: what each annotation does, each refusal with its value and place, the store after it, and the line
//! records that are read from a store.
//!
//! The line and the end column leave 64 bits only after 2^35 annotations, more than a test can lend.

use trovespan::{line_records, run_lines, DecodeRefusal, LineRecord, Refusal, LINE_ENTRIES};

/// The eight entries of a record.
type Entries = [i64; LINE_ENTRIES];

/// What a store holds before a call.
const BEFORE: i64 = -0x5eed_5eed_5eed_5eed;

/// The length of a record that has none.
const NONE: i64 = -1;

/// The largest operand, in the form that holds it.
const LARGEST: i64 = 536_870_911;
const LARGEST_BYTES: [u8; 4] = [0xdf, 0xff, 0xff, 0xff];

/// Runs a program into a store of `room` entries, and checks that no entry past the answer changed.
fn ran_in(bytes: &[u8], room: usize) -> Result<Vec<Entries>, DecodeRefusal> {
    let mut store = vec![BEFORE; room];
    let answer = run_lines(bytes, &mut store);
    let written = answer.map_or(0, |records| LINE_ENTRIES * records);
    assert!(store[written..].iter().all(|entry| *entry == BEFORE));
    answer?;
    Ok(store[..written].chunks(LINE_ENTRIES).map(|record| record.try_into().unwrap()).collect())
}

/// Runs a program into a store that has room for a record of each byte, more than there are.
fn ran(bytes: &[u8]) -> Result<Vec<Entries>, DecodeRefusal> {
    ran_in(bytes, LINE_ENTRIES * bytes.len())
}

/// The record that `3 0` emits at the end of a program. It closes the records before it.
fn last_after(bytes: &[u8]) -> Option<Entries> {
    ran(&[bytes, &[3, 0]].concat()).unwrap().pop()
}

/// A record that has what holds at the start, but for the offset and the length.
fn plain(offset: i64, length: i64) -> Entries {
    [offset, length, 0, 0, 1, 1, 0, 0]
}

/// A refusal that has a place.
fn placed(number: u32, value: u64, place: usize) -> DecodeRefusal {
    DecodeRefusal { refusal: Refusal { number, value }, place: Some(place) }
}

fn bad_line(index: u64) -> DecodeRefusal {
    DecodeRefusal { refusal: Refusal { number: 25, value: index }, place: None }
}

fn no_room(needed: u64) -> DecodeRefusal {
    DecodeRefusal { refusal: Refusal { number: 10, value: needed }, place: None }
}

#[test]
fn runs_nothing() {
    for bytes in [&[][..], &[0], &[0, 14], &[1, 5, 2, 6, 5, 7, 6, 8, 7, 9, 8, 0, 9, 3, 10, 4, 13, 5]] {
        for room in [0, 1, 8] {
            assert_eq!(ran_in(bytes, room), Ok(vec![]));
        }
    }
}

/// What holds at the start.
#[test]
fn starts() {
    assert_eq!(ran(&[3, 0]), Ok(vec![plain(0, NONE)]));
}

/// Each annotation that emits nothing, but for 4, changes one entry of the record after it.
#[test]
fn sets_and_advances() {
    let changed: [(&[u8], Entries); 12] = [
        (&[1, 40], [40, NONE, 0, 0, 1, 1, 0, 0]),
        (&[2, 41], [41, NONE, 0, 0, 1, 1, 0, 0]),
        (&[5, 42], [0, NONE, 42, 0, 1, 1, 0, 0]),
        (&[6, 43], [0, NONE, 0, -21, 1, 1, 0, 0]),
        (&[6, 44], [0, NONE, 0, 22, 1, 1, 0, 0]),
        (&[7, 45], [0, NONE, 0, 0, 45, 1, 0, 0]),
        (&[8, 0], [0, NONE, 0, 0, 1, 0, 0, 0]),
        (&[8, 46], [0, NONE, 0, 0, 1, 46, 0, 0]),
        (&[9, 47], [0, NONE, 0, 0, 1, 1, 47, 0]),
        (&[10, 48], [0, NONE, 0, 0, 1, 1, 0, 24]),
        (&[10, 49], [0, NONE, 0, 0, 1, 1, 0, -24]),
        (&[13, 50], [0, NONE, 0, 0, 1, 1, 0, 50]),
    ];
    for (bytes, wanted) in changed {
        assert_eq!(last_after(bytes), Some(wanted));
    }
}

/// 1, 2, 5, 7, 8, 9 and 13 forget what was there. 6 and 10 go on from it, and 10 also from what 13 set.
#[test]
fn sets_and_advances_again() {
    for (opcode, entry) in [(1, 0), (2, 0), (5, 2), (7, 4), (8, 5), (9, 6), (13, 7)] {
        assert_eq!(last_after(&[opcode, 40, opcode, 7]).unwrap()[entry], 7);
        assert_eq!(last_after(&[opcode, 40, opcode, 0]).unwrap()[entry], 0);
    }
    assert_eq!(last_after(&[6, 40, 6, 7]), Some([0, NONE, 0, 17, 1, 1, 0, 0]));
    assert_eq!(last_after(&[10, 40, 10, 7]), Some([0, NONE, 0, 0, 1, 1, 0, 17]));
    assert_eq!(last_after(&[10, 40, 13, 30, 10, 7]), Some([0, NONE, 0, 0, 1, 1, 0, 27]));
}

/// Operands at both ends of their range.
#[test]
fn takes_the_largest_operands() {
    for (opcode, entry) in [(1, 0), (2, 0), (5, 2), (7, 4), (8, 5), (9, 6), (13, 7)] {
        let bytes = [&[opcode][..], &LARGEST_BYTES].concat();
        assert_eq!(last_after(&bytes).unwrap()[entry], LARGEST);
    }
    for (opcode, entry) in [(6, 3), (10, 7)] {
        for (operand, value) in [([0xdf, 0xff, 0xff, 0xff], -268_435_455), ([0xdf, 0xff, 0xff, 0xfe], 268_435_455)] {
            let bytes = [&[opcode][..], &operand].concat();
            assert_eq!(last_after(&bytes).unwrap()[entry], value);
            assert_eq!(last_after(&bytes.repeat(20)).unwrap()[entry], 20 * value);
        }
    }
}

/// 3, 11 and 12 advance the code offset, 11 the line too, and emit. They add to the base and to what was there.
#[test]
fn emits() {
    let state = [2, 100, 1, 10, 6, 40];
    let emitted: [(&[u8], Entries); 4] = [
        (&[3, 7], [117, NONE, 0, 20, 1, 1, 0, 0]),
        (&[11, 0x72], [112, NONE, 0, 17, 1, 1, 0, 0]),
        (&[11, 0x6f], [125, NONE, 0, 23, 1, 1, 0, 0]),
        (&[12, 5, 7], [117, 5, 0, 20, 1, 1, 0, 0]),
    ];
    for (bytes, wanted) in emitted {
        assert_eq!(ran(&[&state, bytes].concat()), Ok(vec![wanted]));
    }
    // Each goes on where the one before it was.
    let program = [&state[..], &[3, 7, 11, 0x72, 12, 5, 7]].concat();
    let wanted = vec![[117, 2, 0, 20, 1, 1, 0, 0], [119, 7, 0, 17, 1, 1, 0, 0], [126, 5, 0, 17, 1, 1, 0, 0]];
    assert_eq!(ran(&program), Ok(wanted));
}

/// A record has what holds when it is emitted. What changes later is for the records after it.
#[test]
fn keeps_what_was_emitted() {
    let set = [5, 1, 6, 4, 7, 3, 8, 0, 9, 5, 13, 6];
    let later = [2, 60, 5, 11, 6, 24, 7, 13, 8, 10, 9, 15, 10, 20];
    let bytes = [&set[..], &[3, 0], &later, &[3, 0]].concat();
    let wanted = vec![[0, 60, 1, 2, 3, 0, 5, 6], [60, NONE, 11, 14, 13, 10, 15, 16]];
    assert_eq!(ran(&bytes), Ok(wanted));
    assert_eq!(ran(&[&bytes[..], &later].concat()), ran(&bytes));
}

/// An emission closes the record before it with the difference of offsets, whatever made them differ, and whatever the
/// kinds are.
#[test]
fn closes() {
    let closed: [(&[u8], i64); 12] = [
        (&[3, 4, 3, 6], 6),
        (&[3, 4, 3, 0], 0),
        (&[3, 4, 11, 6], 6),
        (&[3, 4, 12, 50, 6], 6),
        (&[11, 4, 3, 6], 6),
        (&[3, 4, 1, 10, 3, 0], 6),
        (&[3, 4, 2, 6, 3, 0], 6),
        (&[3, 4, 2, 10, 1, 0, 3, 0], 6),
        (&[8, 0, 3, 4, 3, 6], 6),
        (&[8, 0, 3, 4, 8, 1, 3, 6], 6),
        (&[8, 1, 3, 4, 8, 0, 3, 6], 6),
        (&[8, 7, 3, 4, 8, 8, 3, 6], 6),
    ];
    for (bytes, length) in closed {
        let records = ran(bytes).unwrap();
        assert_eq!((records.len(), records[0][1]), (2, length), "{bytes:?}");
    }
    assert_eq!(ran(&[3, 1, 3, 2, 3, 3]), Ok(vec![plain(1, 2), plain(3, 3), plain(6, NONE)]));
}

/// 4 sets the length of the record before it, also where one is set, and the code offset stays.
#[test]
fn sets_lengths() {
    assert_eq!(ran(&[3, 4, 4, 50]), Ok(vec![plain(4, 50)]));
    assert_eq!(ran(&[3, 4, 4, 0]), Ok(vec![plain(4, 0)]));
    assert_eq!(ran(&[3, 4, 4, 50, 4, 51]), Ok(vec![plain(4, 51)]));
    assert_eq!(ran(&[12, 9, 4, 4, 50]), Ok(vec![plain(4, 50)]));
    assert_eq!(ran(&[3, 4, 4, 50, 3, 6, 4, 1]), Ok(vec![plain(4, 50), plain(10, 1)]));
    assert_eq!(ran(&[3, 4, 3, 6, 4, 50]), Ok(vec![plain(4, 6), plain(10, 50)]));
    let largest = [&[3, 4, 4][..], &LARGEST_BYTES].concat();
    assert_eq!(ran(&largest), Ok(vec![plain(4, LARGEST)]));
}

/// Where a record has a length, the next may have any offset.
#[test]
fn falls_where_no_length_is_due() {
    assert_eq!(ran(&[1, 100, 12, 5, 0, 1, 0, 3, 0]), Ok(vec![plain(100, 5), plain(0, NONE)]));
    assert_eq!(ran(&[3, 100, 4, 7, 1, 0, 3, 1]), Ok(vec![plain(100, 7), plain(1, NONE)]));
    assert_eq!(ran(&[3, 100, 4, 0, 1, 0, 3, 1]), Ok(vec![plain(100, 0), plain(1, NONE)]));
    // A record without a length, after which the offset falls, is the last.
    assert_eq!(ran(&[3, 100, 1, 0]), Ok(vec![plain(100, NONE)]));
    assert_eq!(ran(&[3, 100, 1, 0, 4, 2, 3, 1]), Ok(vec![plain(100, 2), plain(1, NONE)]));
}

#[test]
fn refuses_offsets_that_fall() {
    for emission in [&[3, 0][..], &[11, 0], &[12, 9, 0]] {
        for fall in [&[1, 99][..], &[1, 0], &[2, 0, 1, 99]] {
            let bytes = [&[1, 100, 3, 0], fall, emission].concat();
            let index = 2 + fall.len() as u64 / 2;
            assert_eq!(ran(&bytes), Err(bad_line(index)), "{bytes:?}");
        }
    }
    // The base falls, and the code offset makes up for it, or not.
    assert_eq!(ran(&[2, 50, 3, 50, 2, 0, 3, 50]), Ok(vec![plain(100, 0), plain(100, NONE)]));
    assert_eq!(ran(&[2, 50, 3, 50, 2, 0, 3, 49]), Err(bad_line(3)));
    // Only the record before counts.
    assert_eq!(ran(&[3, 100, 4, 9, 1, 0, 3, 5, 3, 1]), Ok(vec![plain(100, 9), plain(5, 1), plain(6, NONE)]));
}

#[test]
fn refuses_a_length_before_any_record() {
    assert_eq!(ran(&[4, 0]), Err(bad_line(0)));
    assert_eq!(ran(&[1, 5, 5, 6, 4, 7, 3, 8]), Err(bad_line(2)));
    assert_eq!(ran(&[3, 8, 4, 7]), Ok(vec![plain(8, 7)]));
}

/// Where eight advances by the largest operand lead, 7 below the largest offset.
const FAR: i64 = 8 * LARGEST;

/// The last record of a program that begins with these eight advances, each of which emits a record.
fn last_after_far(end: &[u8]) -> Result<Option<Entries>, DecodeRefusal> {
    let advances = [&[3][..], &LARGEST_BYTES].concat().repeat(8);
    ran(&[&advances, end].concat()).map(|mut records| records.pop())
}

#[test]
fn offsets_of_32_bits() {
    assert_eq!(FAR + 7, 0xffff_ffff);
    assert_eq!(last_after_far(&[]), Ok(Some(plain(FAR, NONE))));
    for (emission, length) in [(&[3, 7][..], NONE), (&[11, 7], NONE), (&[12, 0, 7], 0)] {
        assert_eq!(last_after_far(emission), Ok(Some(plain(0xffff_ffff, length))));
    }
    for emission in [&[3, 8][..], &[11, 8], &[12, 0, 8], &[3, 0xdf, 0xff, 0xff, 0xff]] {
        assert_eq!(last_after_far(emission), Err(bad_line(8)));
    }
}

/// The base and the code offset are judged together, and only when a record is emitted.
#[test]
fn offsets_of_32_bits_over_a_base() {
    assert_eq!(last_after_far(&[2, 7, 3, 0]), Ok(Some(plain(0xffff_ffff, NONE))));
    assert_eq!(last_after_far(&[2, 8, 3, 0]), Err(bad_line(9)));
    assert_eq!(last_after_far(&[2, 8, 2, 7, 3, 0]), Ok(Some(plain(0xffff_ffff, NONE))));
    assert_eq!(last_after_far(&[3, 7, 2, 8, 4, 2]), Ok(Some(plain(0xffff_ffff, 2))));
    assert_eq!(last_after_far(&[3, 7, 2, 8, 4, 2, 1, 9, 3, 0]), Ok(Some(plain(17, NONE))));
}

/// The longest length that a difference of offsets can have: a new base, a new code offset, and an advance.
#[test]
fn the_longest_difference() {
    let [two, one, three] = [2, 1, 3].map(|opcode| [&[opcode][..], &LARGEST_BYTES].concat());
    let bytes = [vec![3, 0], two, one, three].concat();
    assert_eq!(ran(&bytes), Ok(vec![plain(0, 3 * LARGEST), plain(3 * LARGEST, NONE)]));
}

/// Opcode 0 ends the program, and nothing after it is judged.
#[test]
fn ends_at_opcode_0() {
    for after in [&[][..], &[14], &[3], &[0xe0, 0, 0, 0], &[4, 1], &[3, 5]] {
        assert_eq!(ran(&[&[3, 5, 0], after].concat()), Ok(vec![plain(5, NONE)]));
        assert_eq!(ran(&[&[0], after].concat()), Ok(vec![]));
    }
}

/// The forms of numbers do not matter.
#[test]
fn runs_longer_forms() {
    let bytes = [0x80, 5, 0x80, 8, 11, 0xc0, 0, 0, 0x26, 0xc0, 0, 0, 11, 0x43, 4, 0x80, 5];
    let wanted = vec![[6, 3, 8, 1, 1, 1, 0, 0], [9, 5, 8, 3, 1, 1, 0, 0]];
    assert_eq!(ran(&bytes), Ok(wanted));
}

/// Refusals of a step have the place after them.
#[test]
fn refuses_what_a_step_refuses() {
    let refused: [(&[u8], DecodeRefusal); 9] = [
        (&[3], placed(7, 0, 1)),
        (&[3, 5, 12, 1], placed(7, 0, 4)),
        (&[3, 5, 6, 0x80], placed(7, 0, 4)),
        (&[3, 5, 0xe0, 0, 0, 0, 3], placed(8, 0, 6)),
        (&[3, 0xe0, 0, 0, 0], placed(8, 0, 5)),
        (&[12, 1, 0xff, 0, 0, 0, 3], placed(8, 0, 6)),
        (&[14], placed(9, 14, 1)),
        (&[3, 5, 14, 5], placed(9, 14, 3)),
        (&[3, 5, 0xdf, 0xff, 0xff, 0xff, 5], placed(9, 536_870_911, 6)),
    ];
    for (bytes, why) in refused {
        assert_eq!(ran(bytes), Err(why));
    }
}

/// Of several refusals the one that comes first in the bytes wins.
#[test]
fn the_first_refusal_wins() {
    let unknown = placed(9, 14, 1);
    let no_form = placed(8, 0, 5);
    let refused: [(&[u8], DecodeRefusal); 8] = [
        // An annotation that cannot be run, then a step that is refused, or another that cannot be run.
        (&[4, 1, 14], bad_line(0)),
        (&[4, 1, 3, 0xe0, 0, 0, 0], bad_line(0)),
        (&[4, 1, 3], bad_line(0)),
        (&[3, 100, 1, 0, 3, 0, 14], bad_line(2)),
        (&[3, 100, 1, 0, 3, 0, 3, 0], bad_line(2)),
        // The other order.
        (&[14, 4, 1], unknown),
        (&[3, 0xe0, 0, 0, 0, 4, 1], no_form),
        // The same annotation: it cannot be read, so it is not run.
        (&[4, 0xe0, 0, 0, 0], no_form),
    ];
    for (bytes, why) in refused {
        assert_eq!(ran(bytes), Err(why), "{bytes:?}");
    }
    assert_eq!(ran(&[4]), Err(placed(7, 0, 1)));
}

/// A store with room for the records, and not an entry more, is filled.
#[test]
fn fills_a_store() {
    let bytes = [5, 8, 11, 0x26, 11, 0x43, 4, 5];
    let wanted = vec![[6, 3, 8, 1, 1, 1, 0, 0], [9, 5, 8, 3, 1, 1, 0, 0]];
    for room in [16, 17, 23, 24, 100] {
        assert_eq!(ran_in(&bytes, room), Ok(wanted.clone()));
    }
}

#[test]
fn refuses_to_run_into_too_little() {
    for room in 0..8 {
        assert_eq!(ran_in(&[3, 5], room), Err(no_room(8)));
    }
    for room in [0, 1, 8, 14, 15] {
        assert_eq!(ran_in(&[3, 5, 3, 6], room), Err(no_room(16)));
    }
    for room in [0, 16, 22, 23] {
        assert_eq!(ran_in(&[3, 5, 12, 1, 6, 11, 7], room), Err(no_room(24)));
    }
}

/// 10 is for complete answers, so it comes after every other refusal.
#[test]
fn the_room_comes_last() {
    for room in [0, 7, 8, 15, 16, 100] {
        assert_eq!(ran_in(&[3, 5, 3, 6, 14], room), Err(placed(9, 14, 5)));
        assert_eq!(ran_in(&[3, 5, 3, 6, 3], room), Err(placed(7, 0, 5)));
        assert_eq!(ran_in(&[3, 5, 3, 0xe0, 0, 0, 0], room), Err(placed(8, 0, 7)));
        assert_eq!(ran_in(&[3, 5, 3, 6, 1, 0, 3, 0], room), Err(bad_line(3)));
    }
}

/// A record with each field different from the others.
const ENTRIES: Entries = [1, 2, 3, 4, 5, 6, 7, 8];
const RECORD: LineRecord =
    LineRecord { offset: 1, length: Some(2), file: 3, line: 4, line_count: 5, kind: 6, start_column: 7, end_column: 8 };

fn with(entry: usize, value: i64) -> Entries {
    let mut entries = ENTRIES;
    entries[entry] = value;
    entries
}

#[test]
fn a_record_has_its_entries_by_name() {
    let read = |entry, value| LineRecord::from_entries(&with(entry, value));
    let largest = 0xffff_ffff;
    assert_eq!(LineRecord::from_entries(&ENTRIES), Some(RECORD));
    assert_eq!(read(0, largest), Some(LineRecord { offset: u32::MAX, ..RECORD }));
    assert_eq!(read(1, largest), Some(LineRecord { length: Some(u32::MAX), ..RECORD }));
    assert_eq!(read(1, 0), Some(LineRecord { length: Some(0), ..RECORD }));
    assert_eq!(read(1, NONE), Some(LineRecord { length: None, ..RECORD }));
    assert_eq!(read(2, largest), Some(LineRecord { file: u32::MAX, ..RECORD }));
    assert_eq!(read(4, largest), Some(LineRecord { line_count: u32::MAX, ..RECORD }));
    assert_eq!(read(5, largest), Some(LineRecord { kind: u32::MAX, ..RECORD }));
    assert_eq!(read(6, largest), Some(LineRecord { start_column: u32::MAX, ..RECORD }));
    for value in [i64::MIN, -1, 0, 0x1_0000_0000, i64::MAX] {
        assert_eq!(read(3, value), Some(LineRecord { line: value, ..RECORD }));
        assert_eq!(read(7, value), Some(LineRecord { end_column: value, ..RECORD }));
    }
}

/// Entries that are never written: each is above 32 bits or below zero, and a length below -1.
#[test]
fn other_entries_are_no_record() {
    for value in [i64::MIN, -0xffff_ffff, -2, 0x1_0000_0000, 0x1_0000_0001, i64::MAX] {
        for entry in [0, 1, 2, 4, 5, 6] {
            assert_eq!(LineRecord::from_entries(&with(entry, value)), None);
        }
    }
    for entry in [0, 2, 4, 5, 6] {
        assert_eq!(LineRecord::from_entries(&with(entry, -1)), None);
    }
}

/// Every record of a program is read, whatever its entries are.
#[test]
fn reads_what_was_written() {
    let bytes = [1, 100, 6, 41, 10, 43, 12, 5, 0, 1, 0, 5, 9, 8, 2, 3, 0];
    let mut store = [BEFORE; 16];
    assert_eq!(run_lines(&bytes, &mut store), Ok(2));
    let first = LineRecord {
        offset: 100,
        length: Some(5),
        file: 0,
        line: -20,
        line_count: 1,
        kind: 1,
        start_column: 0,
        end_column: -21,
    };
    let second = LineRecord { offset: 0, length: None, file: 9, kind: 2, ..first };
    assert!(line_records(&store).eq([Some(first), Some(second)]));
}

/// Only whole records are read. One that is none is `None`, and the next is read all the same.
#[test]
fn reads_a_store_of_any_contents() {
    let store = [ENTRIES, with(0, BEFORE), ENTRIES].concat();
    for (length, whole) in [(0, 0), (1, 0), (7, 0), (8, 1), (9, 1), (15, 1), (16, 2), (23, 2), (24, 3)] {
        let wanted = &[Some(RECORD), None, Some(RECORD)][..whole];
        let records = line_records(&store[..length]);
        assert_eq!(records.len(), whole);
        assert_eq!(records.clone().collect::<Vec<_>>(), wanted);
        assert!(records.rev().eq(wanted.iter().rev().copied()));
    }
    assert!(line_records(&[BEFORE; 24]).eq([None; 3]));
    assert_eq!(line_records(&store).flatten().count(), 2);
    assert_eq!(line_records(&store).nth(2), Some(Some(RECORD)));
    assert_eq!(line_records(&store).nth(3), None);
}

/// After the end comes the end, from both sides.
#[test]
fn reading_stays_at_the_end() {
    let store = [ENTRIES, with(4, -1)].concat();
    let mut records = line_records(&store);
    assert_eq!(records.next_back(), Some(None));
    assert_eq!(records.size_hint(), (1, Some(1)));
    assert_eq!(records.next(), Some(Some(RECORD)));
    for _ in 0..3 {
        assert_eq!((records.next(), records.next_back(), records.len()), (None, None, 0));
    }
}

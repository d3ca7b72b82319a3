//! The functions on binary annotations: accepted, and refused with every refusal they can give, with the store after
//! it.

mod fields;

use fields::{stepped, Found};
use trovespan::{decode, number, DecodeRefusal, Number, Refusal, ENTRIES_EACH};

/// What a store holds before a call.
const BEFORE: i64 = -0x5eed_5eed_5eed_5eed;

const SHORT_DATA: Refusal = Refusal { number: 7, value: 0 };
const INVALID_NUMBER: Refusal = Refusal { number: 8, value: 0 };

fn unknown_opcode(opcode: u64) -> Refusal {
    Refusal { number: 9, value: opcode }
}

#[test]
fn reads_numbers() {
    let numbers: [(&[u8], u32, bool); 17] = [
        (&[0], 0, true),
        (&[0x7f], 127, true),
        (&[0x80, 0], 0, false),
        (&[0x80, 0x7f], 127, false),
        (&[0x80, 0x80], 128, true),
        (&[0x81, 0x02], 0x102, true),
        (&[0xbf, 0xff], 16_383, true),
        (&[0xc0, 0, 0, 0], 0, false),
        (&[0xc0, 0, 0, 0x7f], 127, false),
        (&[0xc0, 0, 0, 0x80], 128, false),
        (&[0xc0, 0, 0x3f, 0xff], 16_383, false),
        (&[0xc0, 0, 0x40, 0], 16_384, true),
        (&[0xc0, 1, 0, 0], 65_536, true),
        (&[0xc1, 0x23, 0x45, 0x67], 0x123_4567, true),
        (&[0xdf, 0, 0, 0], 0x1f00_0000, true),
        (&[0xdf, 0xff, 0xff, 0xfe], 536_870_910, true),
        (&[0xdf, 0xff, 0xff, 0xff], 536_870_911, true),
    ];
    for (bytes, value, shortest) in numbers {
        let taken = bytes.len();
        let read = Number { value, taken, shortest };
        assert_eq!(number(bytes, 0), (Ok(read), taken));
        let within = [&[1, 2, 3], bytes, &[4, 5, 6]].concat();
        assert_eq!(number(&within, 3), (Ok(read), 3 + taken));
    }
}

/// A number of `taken` bytes, in big-endian order behind the mark of its form.
fn in_form(value: u32, taken: usize) -> Vec<u8> {
    let mark = [0, 0, 0x8000, 0, 0xc000_0000][taken];
    (mark | value).to_be_bytes()[4 - taken..].to_vec()
}

/// Every number below 0x8000 in each form that holds it: it is shortest in the first of them alone.
#[test]
fn knows_the_shortest_form_of_small_numbers() {
    for value in 0..0x8000 {
        let forms = [(1, 0x80), (2, 0x4000), (4, 0x2000_0000)].iter().filter(|form| value < form.1);
        for (longer, form) in forms.enumerate() {
            let taken = form.0;
            let read = Number { value, taken, shortest: longer == 0 };
            assert_eq!(number(&in_form(value, taken), 0), (Ok(read), taken));
        }
    }
}

#[test]
fn refuses_numbers_that_are_cut_short() {
    let short: [&[u8]; 9] =
        [&[], &[0x80], &[0xbf], &[0xc0], &[0xc0, 0], &[0xc0, 0, 0], &[0xdf, 0xff, 0xff], &[0xe0], &[0xff, 0, 0]];
    for bytes in short {
        assert_eq!(number(bytes, 0), (Err(SHORT_DATA), bytes.len()));
    }
}

#[test]
fn refuses_numbers_of_no_form() {
    for first in 0xe0..=0xff {
        assert_eq!(number(&[first, 0, 0, 0], 0), (Err(INVALID_NUMBER), 4));
        assert_eq!(number(&[7, first, 1, 2, 3, 4], 1), (Err(INVALID_NUMBER), 5));
    }
}

#[test]
fn reads_numbers_at_any_place() {
    let bytes = [5, 0x81, 0x02];
    assert_eq!(number(&bytes, 0), (Ok(Number { value: 5, taken: 1, shortest: true }), 1));
    assert_eq!(number(&bytes, 1), (Ok(Number { value: 0x102, taken: 2, shortest: true }), 3));
    assert_eq!(number(&bytes, 2), (Ok(Number { value: 2, taken: 1, shortest: true }), 3));
    for at in [3, 4, usize::MAX - 1, usize::MAX] {
        assert_eq!(number(&bytes, at), (Err(SHORT_DATA), 3));
        assert_eq!(number(&[], at), (Err(SHORT_DATA), 0));
    }
}

#[test]
fn steps_over_each_annotation() {
    for opcode in 1..=13u8 {
        let wanted = match opcode {
            6 | 10 => Found::Annotation(opcode.into(), -7, 0, true),
            11 => Found::Annotation(11, 15, 0, true),
            12 => Found::Annotation(12, 15, 16, true),
            _ => Found::Annotation(opcode.into(), 15, 0, true),
        };
        let length = if opcode == 12 { 3 } else { 2 };
        assert_eq!(stepped(&[opcode, 15, 16], 0), (wanted, length));
    }
}

#[test]
fn reads_signed_operands() {
    for (operand, value) in [(0, 0), (1, 0), (2, 1), (3, -1), (14, 7), (15, -7)] {
        assert_eq!(stepped(&[6, operand], 0), (Found::Annotation(6, value, 0, true), 2));
        assert_eq!(stepped(&[10, operand], 0), (Found::Annotation(10, value, 0, true), 2));
    }
    let largest = [6, 0xdf, 0xff, 0xff, 0xff];
    assert_eq!(stepped(&largest, 0), (Found::Annotation(6, -268_435_455, 0, true), 5));
    assert_eq!(stepped(&[11, 0x72], 0), (Found::Annotation(11, 2, -3, true), 2));
}

/// Each annotation with its opcode or an operand in each form. All of these numbers fit one byte.
#[test]
fn steps_over_longer_forms() {
    for opcode in 1..=13 {
        let numbers = &[opcode, 15, 16][..if opcode == 12 { 3 } else { 2 }];
        for (varied, taken) in (0..numbers.len()).flat_map(|varied| [1, 2, 4].map(|taken| (varied, taken))) {
            let form = |(i, number): (usize, &u32)| in_form(*number, if i == varied { taken } else { 1 });
            let bytes: Vec<u8> = numbers.iter().enumerate().flat_map(form).collect();
            let shortest = taken == 1;
            let wanted = match opcode {
                6 | 10 => Found::Annotation(opcode, -7, 0, shortest),
                12 => Found::Annotation(12, 15, 16, shortest),
                _ => Found::Annotation(opcode, 15, 0, shortest),
            };
            assert_eq!(stepped(&bytes, 0), (wanted, bytes.len()));
        }
    }
}

#[test]
fn steps_to_the_end() {
    assert_eq!(stepped(&[], 0), (Found::End, 0));
    assert_eq!(stepped(&[0, 3, 5], 0), (Found::End, 3));
    for at in [2, 3, usize::MAX - 1, usize::MAX] {
        assert_eq!(stepped(&[3, 5], at), (Found::End, 2));
        assert_eq!(stepped(&[], at), (Found::End, 0));
    }
}

#[test]
fn refuses_steps() {
    let refused: [(&[u8], Refusal, usize); 8] = [
        (&[3], SHORT_DATA, 1),
        (&[12, 1], SHORT_DATA, 2),
        (&[0xe0, 0, 0], SHORT_DATA, 3),
        (&[0xe0, 0, 0, 0, 3], INVALID_NUMBER, 4),
        (&[3, 0xe0, 0, 0, 0, 3], INVALID_NUMBER, 5),
        (&[12, 1, 0xff, 0, 0, 0], INVALID_NUMBER, 6),
        (&[14, 5], unknown_opcode(14), 1),
        (&[0xdf, 0xff, 0xff, 0xff, 5], unknown_opcode(536_870_911), 4),
    ];
    for (bytes, why, next) in refused {
        assert_eq!(stepped(bytes, 0), (Found::Refused(why), next));
    }
}

#[test]
fn goes_on_after_each_step() {
    let bytes = [3, 5, 14, 12, 1, 2, 0, 9];
    let mut at = 0;
    let mut steps = vec![];
    while at < bytes.len() {
        let (found, next) = stepped(&bytes, at);
        steps.push((found, next));
        at = next;
    }
    let wanted = [
        (Found::Annotation(3, 5, 0, true), 2),
        (Found::Refused(unknown_opcode(14)), 3),
        (Found::Annotation(12, 1, 2, true), 6),
        (Found::End, 8),
    ];
    assert_eq!(steps, wanted);
}

/// Decodes into a store of `room` entries, and checks that no entry past the answer changed.
fn decoded(bytes: &[u8], room: usize) -> Result<Vec<i64>, DecodeRefusal> {
    let mut store = vec![BEFORE; room];
    let answer = decode(bytes, &mut store);
    let written = answer.map_or(0, |annotations| ENTRIES_EACH * annotations);
    assert!(store[written..].iter().all(|entry| *entry == BEFORE));
    answer?;
    store.truncate(written);
    Ok(store)
}

fn no_room(needed: u64) -> DecodeRefusal {
    DecodeRefusal { refusal: Refusal { number: 10, value: needed }, place: None }
}

#[test]
fn decodes() {
    for room in [8, 9, 11, 12, 100] {
        assert_eq!(decoded(&[11, 0x72, 12, 1, 2], room), Ok(vec![11, 2, -3, 1, 12, 1, 2, 1]));
        assert_eq!(decoded(&[3, 5, 6, 15, 0, 14], room), Ok(vec![3, 5, 0, 1, 6, -7, 0, 1]));
    }
}

/// The fourth entry of each annotation is about its own numbers.
#[test]
fn decodes_longer_forms() {
    let bytes = [3, 0x80, 5, 3, 5, 0x80, 3, 5, 12, 1, 2, 12, 1, 0xc0, 0, 0, 2];
    let wanted = [[3, 5, 0, 0], [3, 5, 0, 1], [3, 5, 0, 0], [12, 1, 2, 1], [12, 1, 2, 0]];
    assert_eq!(decoded(&bytes, 20), Ok(wanted.concat()));
}

#[test]
fn decodes_nothing() {
    for bytes in [&[][..], &[0], &[0, 14]] {
        for room in [0, 1, 4] {
            assert_eq!(decoded(bytes, room), Ok(vec![]));
        }
    }
}

#[test]
fn refuses_to_decode_into_too_little() {
    for room in [0, 1, 2, 3] {
        assert_eq!(decoded(&[3, 5], room), Err(no_room(4)));
    }
    assert_eq!(decoded(&[3, 5], 4), Ok(vec![3, 5, 0, 1]));
    for room in [0, 4, 6, 7] {
        assert_eq!(decoded(&[3, 5, 6, 15], room), Err(no_room(8)));
    }
}

#[test]
fn refuses_to_decode_what_a_step_refuses() {
    let refused: [(&[u8], Refusal, usize); 6] = [
        (&[3], SHORT_DATA, 1),
        (&[3, 5, 12, 1], SHORT_DATA, 4),
        (&[3, 5, 0xe0, 0, 0, 0, 3], INVALID_NUMBER, 6),
        (&[3, 0xe0, 0, 0, 0], INVALID_NUMBER, 5),
        (&[14], unknown_opcode(14), 1),
        (&[3, 5, 14, 5], unknown_opcode(14), 3),
    ];
    for (bytes, refusal, place) in refused {
        // The room does not matter: 10 is for complete answers.
        for room in [0, 3, 4, 100] {
            assert_eq!(decoded(bytes, room), Err(DecodeRefusal { refusal, place: Some(place) }));
        }
    }
}

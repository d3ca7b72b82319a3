//! Annotations by name, and the iterator over them.

use trovespan::BinaryAnnotation::*;
use trovespan::{annotations, step, BinaryAnnotation, FileIndex, Refusal, Step};

/// All annotations, up to the first refusal.
fn named(bytes: &[u8]) -> Result<Vec<BinaryAnnotation>, Refusal> {
    annotations(bytes).map(|item| Ok(item?.annotation)).collect()
}

/// An item: what is found, and whether its numbers have their shortest form; where it begins, and the place after it.
type Item = (Result<(BinaryAnnotation, bool), Refusal>, usize, usize);

fn items(bytes: &[u8]) -> Vec<Item> {
    let item = |item| match item {
        Ok(trovespan::PlacedAnnotation { annotation, shortest, at, next, .. }) => {
            (Ok((annotation, shortest)), at, next)
        }
        Err(trovespan::PlacedRefusal { refusal, at, next, .. }) => (Err(refusal), at, next),
    };
    annotations(bytes).map(item).collect()
}

/// The same, by steps.
fn items_by_steps(bytes: &[u8]) -> Vec<Item> {
    let mut items = vec![];
    let mut at = 0;
    loop {
        let (found, next) = step(bytes, at);
        match found {
            Step::Annotation { opcode, first, second, shortest, .. } => {
                items.push((Ok((BinaryAnnotation::new(opcode, first, second).unwrap(), shortest)), at, next));
            }
            Step::End => return items,
            Step::Refused(why) => items.push((Err(why), at, next)),
        }
        at = next;
    }
}

fn refusal(number: u32, value: u64) -> Refusal {
    Refusal { number, value }
}

/// The two strings that pdb tests its iterator with.
#[test]
fn the_strings_of_pdb() {
    let first =
        b"\x0b\x03\x06\n\x03\x08\x06\x06\x03-\x06\x08\x03\x07\x0br\x06\x06\x0c\x03\x07\x06\x0f\x0c\x06\x05\x00\x00";
    let wanted = vec![
        ChangeCodeOffsetAndLineOffset(3, 0),
        ChangeLineOffset(5),
        ChangeCodeOffset(8),
        ChangeLineOffset(3),
        ChangeCodeOffset(45),
        ChangeLineOffset(4),
        ChangeCodeOffset(7),
        ChangeCodeOffsetAndLineOffset(2, -3),
        ChangeLineOffset(3),
        ChangeCodeLengthAndCodeOffset(3, 7),
        ChangeLineOffset(-7),
        ChangeCodeLengthAndCodeOffset(6, 5),
    ];
    assert_eq!(named(first), Ok(wanted));

    let second = b"\x03P\x06\x0e\x03\x0c\x06\x04\x032\x06\x06\x03T\x0b#\x0b\\\x0bC\x0b/\x06\x04\x0c-\t\x03;\x06\x1d\x0c\x05\x06\x00\x00";
    let wanted = vec![
        ChangeCodeOffset(80),
        ChangeLineOffset(7),
        ChangeCodeOffset(12),
        ChangeLineOffset(2),
        ChangeCodeOffset(50),
        ChangeLineOffset(3),
        ChangeCodeOffset(84),
        ChangeCodeOffsetAndLineOffset(3, 1),
        ChangeCodeOffsetAndLineOffset(12, -2),
        ChangeCodeOffsetAndLineOffset(3, 2),
        ChangeCodeOffsetAndLineOffset(15, 1),
        ChangeLineOffset(2),
        ChangeCodeLengthAndCodeOffset(45, 9),
        ChangeCodeOffset(59),
        ChangeLineOffset(-14),
        ChangeCodeLengthAndCodeOffset(5, 6),
    ];
    assert_eq!(named(second), Ok(wanted));
}

#[test]
fn each_opcode_has_its_name() {
    let wanted = [
        (CodeOffset(15), false),
        (ChangeCodeOffsetBase(15), false),
        (ChangeCodeOffset(15), true),
        (ChangeCodeLength(15), false),
        (ChangeFile(FileIndex(15)), false),
        (ChangeLineOffset(-7), false),
        (ChangeLineEndDelta(15), false),
        (ChangeRangeKind(15), false),
        (ChangeColumnStart(15), false),
        (ChangeColumnEndDelta(-7), false),
        (ChangeCodeOffsetAndLineOffset(15, 0), true),
        (ChangeCodeLengthAndCodeOffset(15, 15), true),
        (ChangeColumnEnd(15), false),
    ];
    for (opcode, (annotation, emits)) in (1..).zip(wanted) {
        let operands = if opcode == 12 { 2 } else { 1 };
        assert_eq!(named(&[opcode, 15, 15][..1 + operands]), Ok(vec![annotation]));
        assert_eq!(annotation.emits_line_info(), emits);
    }
}

#[test]
fn largest_operands() {
    const LARGEST: [u8; 4] = [0xdf, 0xff, 0xff, 0xff];
    let after = |opcode: u8| named(&[&[opcode][..], &LARGEST, &LARGEST].concat()[..if opcode == 12 { 9 } else { 5 }]);
    assert_eq!(after(5), Ok(vec![ChangeFile(FileIndex(536_870_911))]));
    assert_eq!(after(6), Ok(vec![ChangeLineOffset(-268_435_455)]));
    assert_eq!(after(11), Ok(vec![ChangeCodeOffsetAndLineOffset(15, -16_777_215)]));
    assert_eq!(after(12), Ok(vec![ChangeCodeLengthAndCodeOffset(536_870_911, 536_870_911)]));
}

#[test]
fn a_triple_is_what_a_step_gives() {
    for opcode in 1..=13 {
        for operands in [&[2, 17][..], &[0xdf, 0xff, 0xff, 0xff, 0xc1, 0x23, 0x45, 0x67]] {
            let bytes = [&[opcode], operands].concat();
            let triple = annotations(&bytes).next().unwrap().unwrap().annotation.triple();
            match step(&bytes, 0).0 {
                Step::Annotation { opcode, first, second, .. } => assert_eq!(triple, [opcode.into(), first, second]),
                other => panic!("{other:?}"),
            }
        }
    }
    // Operands that no bytes carry.
    assert_eq!(ChangeColumnEnd(u32::MAX).triple(), [13, 4_294_967_295, 0]);
    assert_eq!(ChangeColumnEndDelta(i32::MIN).triple(), [10, -2_147_483_648, 0]);
}

#[test]
fn what_is_no_annotation() {
    for opcode in [0, 14, u32::MAX] {
        assert_eq!(BinaryAnnotation::new(opcode, 0, 0), None);
    }
    for opcode in 1..=13 {
        for operand in [i64::MIN, i64::from(i32::MIN) - 1, i64::from(u32::MAX) + 1, i64::MAX] {
            assert_eq!(BinaryAnnotation::new(opcode, operand, 0), None);
        }
    }
    assert_eq!(BinaryAnnotation::new(3, -1, 0), None);
    assert_eq!(BinaryAnnotation::new(11, 0, i64::from(i32::MAX) + 1), None);
    assert_eq!(BinaryAnnotation::new(12, 0, -1), None);
}

#[test]
fn goes_on_after_refusals() {
    let invalid = [3, 0xe0, 0, 0, 0, 3, 7];
    assert_eq!(items(&invalid), [(Err(refusal(8, 0)), 0, 5), (Ok((ChangeCodeOffset(7), true)), 5, 7)]);
    let unknown = [14, 3, 7];
    assert_eq!(items(&unknown), [(Err(refusal(9, 14)), 0, 1), (Ok((ChangeCodeOffset(7), true)), 1, 3)]);
    let short = [3, 7, 12, 1];
    assert_eq!(items(&short), [(Ok((ChangeCodeOffset(7), true)), 0, 2), (Err(refusal(7, 0)), 2, 4)]);
    assert_eq!(named(&unknown), Err(refusal(9, 14)));
}

#[test]
fn says_which_forms_are_the_shortest() {
    let bytes = [3, 7, 3, 0x80, 7, 0x80, 3, 7, 12, 1, 2, 12, 1, 0x80, 2];
    let wanted = [
        (Ok((ChangeCodeOffset(7), true)), 0, 2),
        (Ok((ChangeCodeOffset(7), false)), 2, 5),
        (Ok((ChangeCodeOffset(7), false)), 5, 8),
        (Ok((ChangeCodeLengthAndCodeOffset(1, 2), true)), 8, 11),
        (Ok((ChangeCodeLengthAndCodeOffset(1, 2), false)), 11, 15),
    ];
    assert_eq!(items(&bytes), wanted);
}

#[test]
fn ends_once() {
    for bytes in [&[][..], &[0], &[0, 3, 5], &[3, 5], &[3]] {
        let mut iter = annotations(bytes);
        assert_eq!(iter.place(), 0);
        while iter.next().is_some() {}
        assert_eq!(iter.place(), bytes.len());
        assert_eq!((iter.next(), iter.next()), (None, None));
    }
}

/// Every string of two bytes between other bytes.
#[test]
fn the_items_are_the_steps() {
    for word in 0..=u16::MAX {
        let [a, b] = word.to_le_bytes();
        for bytes in [&[a, b][..], &[12, a, b, 6], &[a, 3, b, 5, 11, 0x72]] {
            assert_eq!(items(bytes), items_by_steps(bytes), "{bytes:?}");
        }
    }
}

#[test]
fn a_refusal_in_words() {
    let why = annotations(&[3, 5, 14]).nth(1).unwrap().unwrap_err();
    assert_eq!(why.to_string(), "refused 9: there is no annotation of opcode 14 (at place 2)");
    assert_eq!(Refusal::from(why), why.refusal);
}

#[test]
#[cfg(feature = "std")]
fn the_source_of_a_refusal() {
    use std::error::Error;

    let why = annotations(&[14]).next().unwrap().unwrap_err();
    assert_eq!(why.source().unwrap().to_string(), why.refusal.to_string());
}

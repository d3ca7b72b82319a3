//! Refusals: names and words.

use trovespan::{DecodeRefusal, Kind, Refusal};

/// Each number and its name. 12 stands for those that have none.
const NAMES: [(u32, &str); 18] = [
    (1, "UnrecognizedFileFormat"),
    (2, "UnimplementedFeature"),
    (3, "InvalidPageSize"),
    (4, "PageReferenceOutOfRange"),
    (5, "StreamNotFound"),
    (6, "FileEnds"),
    (7, "ShortData"),
    (8, "InvalidCompressedAnnotation"),
    (9, "UnknownBinaryAnnotation"),
    (10, "NoRoom"),
    (11, "OverLimit"),
    (12, "Other(12)"),
    (20, "BadRecord"),
    (21, "RaggedList"),
    (22, "SizesDiffer"),
    (23, "DirectoryTooLarge"),
    (24, "Over32Bits"),
    (25, "BadLine"),
];

fn said(number: u32) -> String {
    Refusal { number, value: 77 }.to_string()
}

#[test]
fn each_number_has_one_line_of_its_own() {
    let mut words = vec![];
    for (number, _) in NAMES {
        let line = said(number);
        assert!(!line.contains('\n'), "{line}");
        let (start, rest) = line.split_once(": ").unwrap();
        assert_eq!(start, format!("refused {number}"));
        words.push(rest.to_string());
    }
    words.sort();
    words.dedup();
    assert_eq!(words.len(), NAMES.len());
}

#[test]
fn a_line_has_the_value_where_the_number_has_one() {
    for (number, _) in NAMES {
        assert_eq!(said(number).contains("77"), [3, 4, 5, 9, 10, 11, 12, 20, 25].contains(&number), "{}", said(number));
    }
}

#[test]
fn each_number_has_its_name() {
    for (number, name) in NAMES {
        assert_eq!(format!("{:?}", Refusal { number, value: 0 }.kind()), name);
    }
    for number in [0, 12, 19, 26, u32::MAX] {
        assert_eq!(Refusal { number, value: 0 }.kind(), Kind::Other(number));
    }
}

#[test]
fn decoding_adds_the_place() {
    let refusal = Refusal { number: 9, value: 14 };
    let with = |place| DecodeRefusal { refusal, place }.to_string();
    assert_eq!(with(None), "refused 9: there is no annotation of opcode 14");
    assert_eq!(with(Some(1)), "refused 9: there is no annotation of opcode 14 (the place after it is 1)");
}
#[test]
fn a_refusal_of_decoding_has_a_refusal() {
    let refusal = Refusal { number: 9, value: 14 };
    assert_eq!(Refusal::from(DecodeRefusal { refusal, place: Some(1) }), refusal);
}

#[test]
#[cfg(feature = "std")]
fn the_source_of_a_refusal_of_decoding() {
    use std::error::Error;

    let refusal = Refusal { number: 9, value: 14 };
    let decoding = DecodeRefusal { refusal, place: Some(1) };
    assert_eq!(decoding.source().unwrap().to_string(), refusal.to_string());
    assert!(refusal.source().is_none());
}

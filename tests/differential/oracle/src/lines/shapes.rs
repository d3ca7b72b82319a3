//! Programs that are made one by one, for the fixed list.

use super::programs::{both, bytes, climb, signed, Annotation, LARGEST};
use crate::annotations::forms;

/// The largest offset that can be emitted.
const LAST_OFFSET: u64 = 0xffff_ffff;

/// What stands behind a program, or in front of it: what a decoder refuses, and ends.
const TAILS: [&[u8]; 15] = [
    &[],
    &[0x03],
    &[0x03, 0x80],
    &[0x0c, 0x05],
    &[0x03, 0xe0, 0x00, 0x00],
    &[0xe0, 0x00, 0x00, 0x00],
    &[0x03, 0xff, 0x00, 0x00, 0x00],
    &[0x0c, 0x05, 0xe0, 0x00, 0x00, 0x00],
    &[0x0e],
    &[0x80, 0x0e],
    &[0xdf, 0xff, 0xff, 0xff],
    &[0x00],
    &[0x00, 0x0e],
    &[0x80, 0x00, 0x03],
    &[0xc0, 0x00, 0x00, 0x00, 0xe0, 0x00, 0x00, 0x00],
];

/// Programs that are accepted, and programs that are refused as 25.
const FRONTS: [&[u8]; 8] = [
    &[],
    &[0x03, 0x05],
    &[0x06, 0x08, 0x0b, 0x42, 0x0c, 0x03, 0x07],
    &[0x04, 0x05],
    &[0x06, 0x08, 0x04, 0x05, 0x03, 0x05],
    &[0x03, 0x05, 0x01, 0x04, 0x03, 0x00],
    &[0x02, 0x05, 0x03, 0x00, 0x02, 0x04, 0x0b, 0x00, 0x04, 0x01],
    &[
        0x03, 0x05, 0x04, 0x01, 0x01, 0x04, 0x03, 0x00, 0x01, 0x03, 0x0c, 0x00, 0x00,
    ],
];

/// A program as its annotations.
type Program = Vec<Annotation>;

/// Programs that are asked about in every room.
pub fn programs() -> Vec<Vec<u8>> {
    let annotations = [short(), framed(), falling(), highest(), farthest()].concat();
    let mut programs: Vec<Vec<u8>> = annotations.iter().map(|program| bytes(program)).collect();
    programs.extend(in_every_form());
    programs.extend(with_tails());
    programs
}

/// Annotations of every opcode. Hardly a number occurs twice.
fn samples() -> Vec<Program> {
    let samples = vec![
        vec![1, 0],
        vec![1, 100],
        vec![2, 0],
        vec![2, 30],
        vec![3, 0],
        vec![3, 5],
        vec![4, 3],
        vec![5, 7],
        vec![6, signed(4)],
        vec![6, signed(-9)],
        vec![7, 10],
        vec![8, 0],
        vec![8, 2],
        vec![9, 6],
        vec![10, signed(11)],
        vec![10, signed(-12)],
        vec![11, both(13, 14)],
        vec![11, both(1, -15)],
        vec![12, 16, 17],
        vec![13, 18],
    ];
    samples.into_iter().map(|sample| vec![sample]).collect()
}

/// The annotations that emit, with a code delta that 11 can carry.
fn emissions(delta: u32) -> Vec<Program> {
    vec![
        vec![vec![3, delta]],
        vec![vec![11, both(delta, -2)]],
        vec![vec![12, 9, delta]],
    ]
}

/// Each front followed by each back.
fn joined<T: Clone>(fronts: &[Vec<T>], backs: &[Vec<T>]) -> Vec<Vec<T>> {
    let join = |front: &Vec<T>| {
        let front = front.clone();
        let with = move |back: &Vec<T>| [front.as_slice(), back].concat();
        backs.iter().map(with).collect::<Vec<_>>()
    };
    fronts.iter().flat_map(join).collect()
}

/// Every program of up to three of the samples.
fn short() -> Vec<Program> {
    let one = samples();
    let two = joined(&one, &one);
    let three = joined(&two, &one);
    [vec![Vec::new()], one, two, three].concat()
}

/// A sample between two emissions, in a state in which no two numbers are equal; and two samples between two
/// emissions.
fn framed() -> Vec<Program> {
    let state = vec![
        vec![2, 1000],
        vec![1, 100],
        vec![5, 20],
        vec![6, signed(21)],
        vec![7, 22],
        vec![8, 23],
        vec![9, 24],
        vec![13, 25],
    ];
    let first = joined(&[state], &emissions(1));
    let one = joined(&joined(&first, &samples()), &emissions(2));
    let two = joined(&[vec![vec![3, 40]]], &joined(&samples(), &samples()));
    [one, joined(&two, &[vec![vec![3, 200]]])].concat()
}

/// Each emission, then 1 or 2, with or without 4 before it, then each emission: its offset is one more than the first,
/// equal, one less, or far less.
fn falling() -> Vec<Program> {
    let mut programs = Vec::new();
    for &opcode in &[1, 2] {
        for &set in &[48, 47, 46, 1] {
            let start = vec![vec![vec![2, 50], vec![1, 50]]];
            let first = joined(&start, &emissions(0));
            let changes = vec![
                vec![vec![opcode, set]],
                vec![vec![4, 5], vec![opcode, set]],
                vec![vec![opcode, set], vec![4, 5], vec![4, 6]],
            ];
            let second = joined(&joined(&first, &changes), &emissions(3));
            programs.extend(second.clone());
            programs.extend(joined(&second, &[vec![vec![3, 1]]]));
        }
    }
    programs
}

/// Offsets around the largest, reached by each emission from different bases, with and without a length for the record
/// before; and reached by a base.
fn highest() -> Vec<Program> {
    let mut programs = Vec::new();
    for to in LAST_OFFSET - 1..=LAST_OFFSET + 2 {
        for &base in &[0, 1, 15, LARGEST] {
            for &delta in &[0, 1, 15] {
                let climb = vec![climb(base, to - u64::from(delta))];
                let with_length = joined(&climb, &[vec![vec![4, 1]]]);
                programs.extend(joined(&climb, &emissions(delta)));
                programs.extend(joined(&with_length, &emissions(delta)));
            }
        }
        for &delta in &[16, LARGEST] {
            let climb = climb(7, to - u64::from(delta));
            let ends = [vec![vec![3, delta]], vec![vec![12, 0, delta]]];
            programs.extend(joined(&[climb], &ends));
        }
        for &base in &[1, LARGEST] {
            let raised = vec![[climb(0, to - u64::from(base)), vec![vec![2, base]]].concat()];
            programs.extend(joined(&raised, &emissions(0)));
            programs.extend(raised);
        }
    }
    programs
}

/// Base and code offset that sum to more than 32 bits, where nothing is emitted; and the largest distance that closes a
/// record.
fn farthest() -> Vec<Program> {
    let raised = [climb(0, LAST_OFFSET), vec![vec![2, LARGEST]]].concat();
    let lowered = vec![
        vec![vec![2, 0], vec![3, 0]],
        vec![vec![4, 1], vec![1, LARGEST], vec![3, LARGEST]],
        vec![vec![1, 0], vec![3, 0]],
    ];
    let far = vec![
        vec![3, 0],
        vec![1, LARGEST],
        vec![2, LARGEST],
        vec![3, LARGEST],
    ];
    let long = vec![vec![12, LARGEST, 0], vec![4, LARGEST], vec![3, 1]];
    let mut programs = joined(&[raised], &lowered);
    programs.extend(vec![far, long]);
    programs
}

/// Lines and end columns that take more than 32 bits, on both sides of zero, with a record at every step.
pub fn wide() -> Vec<Vec<u8>> {
    let farthest = (LARGEST / 2) as i32;
    let steps = |opcode, z| bytes(&[vec![opcode, signed(z)], vec![3, 1]]).repeat(20);
    let by_11 = |z| bytes(&[vec![11, both(1, z)]]).repeat(300);
    vec![
        steps(6, farthest),
        steps(6, -farthest),
        steps(10, farthest),
        steps(10, -farthest),
        [bytes(&[vec![13, LARGEST]]), steps(10, farthest)].concat(),
        by_11(farthest / 16),
        by_11(-(farthest / 16)),
    ]
}

/// The samples between two emissions, each number in every form that holds it.
fn in_every_form() -> Vec<Vec<u8>> {
    let one = |sample: &Program| {
        let mut programs = vec![vec![0x03, 0x28]];
        for &number in sample.iter().flatten() {
            let each = forms::holding(number).map(|length| forms::bytes(number, length));
            programs = joined(&programs, &each.collect::<Vec<_>>());
        }
        joined(&programs, &[vec![0x03, 0x40]])
    };
    samples().iter().flat_map(one).collect()
}

/// Each front with each tail behind it, and with each in front of it.
fn with_tails() -> Vec<Vec<u8>> {
    let lists = |strings: &[&[u8]]| strings.iter().map(|s| s.to_vec()).collect::<Vec<_>>();
    let (fronts, tails) = (lists(&FRONTS), lists(&TAILS));
    [joined(&fronts, &tails), joined(&tails, &fronts)].concat()
}

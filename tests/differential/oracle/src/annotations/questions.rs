//! The questions of the fixed list, and of a live list of any seed and length.

use super::answers::ENTRIES_EACH;
use super::list::{Question, LARGEST_ROOM, LONGEST};
use super::pdb::needed;
use super::{forms, programs, rules};
use crate::random::Random;

/// The two byte strings that pdb's own test decodes.
const PDB_TEST: [&[u8]; 2] = [
    &[
        0x0b, 0x03, 0x06, 0x0a, 0x03, 0x08, 0x06, 0x06, 0x03, 0x2d, 0x06, 0x08, 0x03, 0x07, 0x0b,
        0x72, 0x06, 0x06, 0x0c, 0x03, 0x07, 0x06, 0x0f, 0x0c, 0x06, 0x05, 0x00, 0x00,
    ],
    &[
        0x03, 0x50, 0x06, 0x0e, 0x03, 0x0c, 0x06, 0x04, 0x03, 0x32, 0x06, 0x06, 0x03, 0x54, 0x0b,
        0x23, 0x0b, 0x5c, 0x0b, 0x43, 0x0b, 0x2f, 0x06, 0x04, 0x0c, 0x2d, 0x09, 0x03, 0x3b, 0x06,
        0x1d, 0x0c, 0x05, 0x06, 0x00, 0x00,
    ],
];

/// The cases that the project's rules name.
const NAMED: [&[u8]; 12] = [
    &[0x7f],
    &[0x80, 0x7f],
    &[0xbf, 0xff],
    &[0xc0, 0x00, 0x40, 0x00],
    &[0xdf, 0xff, 0xff, 0xff],
    &[0xe0, 0x00, 0x00, 0x00],
    &[0xe0, 0x00, 0x00],
    &[0x0b, 0x72],
    &[0x06, 0x0f],
    &[0x06, 0x01],
    &[0x0e],
    &[0x00, 0x03, 0x05],
];

/// First bytes at the ends of each form's range, and opcodes of each kind.
const BOUNDARY: [u8; 14] = [
    0x00, 0x01, 0x06, 0x0b, 0x0c, 0x0d, 0x0e, 0x7f, 0x80, 0xbf, 0xc0, 0xdf, 0xe0, 0xff,
];

/// Operands at the ends of each form's range.
const OPERANDS: [u32; 7] = [0, 1, 0x7f, 0x80, 0x3fff, 0x4000, 0x1fff_ffff];

/// One entry more than two annotations take: four bytes hold no more.
const SMALL_ROOMS: usize = 2 * ENTRIES_EACH + 1;

const FIXED_SEED: u64 = 0x7472_6f76;
const FIXED_PROGRAMS: usize = 4000;
const FIXED_LONG: usize = 12;

/// The fixed list.
pub fn fixed() -> Vec<Question> {
    let mut questions = rules::questions();
    for &bytes in PDB_TEST.iter().chain(&NAMED) {
        ask_everywhere(bytes, &mut questions);
    }
    ask_short(&mut questions);
    ask_swept(&boundary_strings(2), &[0, 1], &mut questions);
    ask_swept(&boundary_strings(3), &[0], &mut questions);
    ask_forms(&mut questions);
    let mut random = Random::new(FIXED_SEED);
    for _ in 0..FIXED_PROGRAMS {
        let bytes = short(&mut random);
        ask(bytes, &mut random, &mut questions);
    }
    for _ in 0..FIXED_LONG {
        let bytes = long(&mut random);
        ask(bytes, &mut random, &mut questions);
    }
    ask_longest(&mut random, &mut questions);
    questions
}

/// Questions about `count` random strings, made one at a time, so that a list can be long.
pub fn live(seed: u64, count: u64) -> impl Iterator<Item = Question> {
    let mut random = Random::new(seed);
    (0..count).flat_map(move |_| {
        let bytes = if random.one_in(512) {
            long(&mut random)
        } else {
            short(&mut random)
        };
        let mut questions = Vec::new();
        ask(bytes, &mut random, &mut questions);
        questions
    })
}

/// A string at every place, from the first byte to one past the end.
fn ask_everywhere(bytes: &[u8], questions: &mut Vec<Question>) {
    for at in 0..=bytes.len() + 1 {
        questions.push(around_needed(bytes.to_vec(), at));
        questions.push(Question {
            bytes: bytes.to_vec(),
            at,
            low: 0,
            high: SMALL_ROOMS,
            sweep: false,
        });
    }
}

/// Every string of 0, 1 and 2 bytes.
fn ask_short(questions: &mut Vec<Question>) {
    for at in 0..=1 {
        questions.push(Question {
            bytes: Vec::new(),
            at,
            low: 0,
            high: SMALL_ROOMS,
            sweep: false,
        });
    }
    ask_swept(&[Vec::new()], &[0, 1, 2], questions);
    let single: Vec<Vec<u8>> = (0..=255).map(|b| vec![b]).collect();
    ask_swept(&single, &[0, 1], questions);
}

/// Each prefix, followed by every last byte.
fn ask_swept(prefixes: &[Vec<u8>], places: &[usize], questions: &mut Vec<Question>) {
    for prefix in prefixes {
        for &at in places {
            questions.push(Question {
                bytes: [prefix.as_slice(), &[0]].concat(),
                at,
                low: 0,
                high: SMALL_ROOMS,
                sweep: true,
            });
        }
    }
}

/// The strings of `length` boundary bytes.
fn boundary_strings(length: usize) -> Vec<Vec<u8>> {
    let bytes: Vec<Vec<u8>> = BOUNDARY.iter().map(|&b| vec![b]).collect();
    (0..length).fold(vec![Vec::new()], |strings, _| followed(&strings, &bytes))
}

/// Each front followed by each back.
fn followed(fronts: &[Vec<u8>], backs: &[Vec<u8>]) -> Vec<Vec<u8>> {
    fronts
        .iter()
        .flat_map(|front| {
            backs
                .iter()
                .map(move |back| [front.as_slice(), back].concat())
        })
        .collect()
}

/// Each operand alone, and each annotation with these operands, each number in every form that holds it. So
/// a longer form stands in every position, among shortest and longer ones.
fn ask_forms(questions: &mut Vec<Question>) {
    let operands = in_every_form(&OPERANDS);
    for operand in &operands {
        questions.push(around_needed(operand.clone(), 0));
    }
    for opcode in 1..=13 {
        let mut annotations = followed(&in_every_form(&[opcode]), &operands);
        if opcode == 12 {
            annotations = followed(&annotations, &operands);
        }
        questions.extend(annotations.into_iter().map(|bytes| around_needed(bytes, 0)));
    }
}

/// The numbers, each in every form that holds it.
fn in_every_form(numbers: &[u32]) -> Vec<Vec<u8>> {
    let each = |&n: &u32| forms::holding(n).map(move |length| forms::bytes(n, length));
    numbers.iter().flat_map(each).collect()
}

/// Strings of the largest length: as many annotations as possible, and none.
fn ask_longest(random: &mut Random, questions: &mut Vec<Question>) {
    for &byte in &[0x01, 0x00, 0xff] {
        ask(vec![byte; LONGEST], random, questions);
    }
}

/// A string at a random place, with the rooms around what it needs and with an empty store.
fn ask(bytes: Vec<u8>, random: &mut Random, questions: &mut Vec<Question>) {
    let at = random.below(bytes.len() + 2);
    let question = around_needed(bytes, at);
    if question.low > 0 {
        questions.push(Question {
            at: 0,
            low: 0,
            high: 0,
            ..question.clone()
        });
    }
    questions.push(question);
}

/// Rooms one entry too small, just enough, and one entry larger.
fn around_needed(bytes: Vec<u8>, at: usize) -> Question {
    let needed = needed(&bytes);
    Question {
        bytes,
        at,
        low: needed.saturating_sub(1),
        high: (needed + 1).min(LARGEST_ROOM),
        sweep: false,
    }
}

/// A string of up to about sixty bytes: a program, a damaged one, or random bytes.
fn short(random: &mut Random) -> Vec<u8> {
    let length = random.below(56);
    match random.below(4) {
        0 => programs::uniform(random, 16),
        1 => programs::structured(random, length),
        _ => {
            let program = programs::structured(random, length);
            programs::mutated(random, &program)
        }
    }
}

/// A program of up to the largest length, damaged or not.
fn long(random: &mut Random) -> Vec<u8> {
    let length = 64 + random.below(LONGEST - 64);
    let mut program = programs::structured(random, length);
    if random.one_in(2) {
        program = programs::mutated(random, &program);
    }
    program.truncate(LONGEST);
    program
}

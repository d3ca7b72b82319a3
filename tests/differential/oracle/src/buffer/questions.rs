//! The questions of the fixed list, and of a live list of any seed and length.

use super::list::{Question, LONGEST, MOST};
use super::rules;
use crate::random::Random;

const BOUNDARY: [u8; 5] = [0x00, 0x01, 0x7f, 0x80, 0xff];

/// One byte more than a number has.
const LONGEST_BOUNDARY: usize = 5;

const FIXED_SEED: u64 = 0x7461_6b65;
const FIXED_SHORT: usize = 300;
const FIXED_LONG: usize = 6;

/// The fixed list.
pub fn fixed() -> impl Iterator<Item = Question> {
    let mut questions = rules::questions();
    let mut strings = vec![Vec::new()];
    for _ in 0..=LONGEST_BOUNDARY {
        questions.extend(strings.iter().cloned().map(everywhere));
        strings = longer(&strings);
    }
    let mut random = Random::new(FIXED_SEED);
    for _ in 0..FIXED_SHORT {
        questions.push(short(&mut random));
    }
    for _ in 0..FIXED_LONG {
        questions.push(long(&mut random));
    }
    questions.push(Question {
        bytes: vec![0xff; LONGEST],
        first: 0,
        last: 0,
        fewest: LONGEST - 1,
        most: LONGEST + 1,
    });
    questions.into_iter()
}

/// Questions about `count` random strings, made one at a time, so that a list can be long.
pub fn live(seed: u64, count: u64) -> impl Iterator<Item = Question> {
    let mut random = Random::new(seed);
    (0..count).map(move |_| {
        if random.one_in(512) {
            long(&mut random)
        } else {
            short(&mut random)
        }
    })
}

/// Each string with each boundary byte after it.
fn longer(strings: &[Vec<u8>]) -> Vec<Vec<u8>> {
    strings
        .iter()
        .flat_map(|s| BOUNDARY.iter().map(move |&b| [s.as_slice(), &[b]].concat()))
        .collect()
}

/// A string of up to 48 bytes: a short one at every place, or any at a few places.
fn short(random: &mut Random) -> Question {
    if random.one_in(8) {
        let bytes = string(random, 10);
        everywhere(bytes)
    } else {
        let bytes = string(random, 49);
        around(bytes, random)
    }
}

fn long(random: &mut Random) -> Question {
    let bytes = string(random, LONGEST + 1);
    around(bytes, random)
}

/// Random bytes, fewer than `end`.
fn string(random: &mut Random, end: usize) -> Vec<u8> {
    (0..random.below(end)).map(|_| random.byte()).collect()
}

/// A string at every place, with every count up to one too many.
fn everywhere(bytes: Vec<u8>) -> Question {
    Question {
        first: 0,
        last: bytes.len(),
        fewest: 0,
        most: bytes.len() + 1,
        bytes,
    }
}

/// A string at up to three places, with counts around what is left there, or any counts. One place
/// in four is near the end, where a number is cut short.
fn around(bytes: Vec<u8>, random: &mut Random) -> Question {
    let length = bytes.len();
    let first = if random.one_in(4) {
        length.saturating_sub(random.below(6))
    } else {
        random.below(length + 1)
    };
    let fewest = if random.one_in(4) {
        random.below(MOST - 3)
    } else {
        (length - first).saturating_sub(random.below(4))
    };
    Question {
        first,
        last: (first + random.below(3)).min(length),
        fewest,
        most: fewest + random.below(4),
        bytes,
    }
}

//! The questions of the fixed list, and of a live list of any seed and length.

use super::list::{Question, LARGEST_ROOM, LONGEST};
use super::reckoning::{emitted, ENTRIES_EACH};
use super::{programs, rules, shapes};
use crate::random::Random;

/// A random program with so many records or fewer is asked about in every room.
const FEW_RECORDS: usize = 3;

/// The most annotations of a short program.
const SHORT: usize = 40;

const FIXED_SEED: u64 = 0x6c69_6e65;
const FIXED_SHORT: usize = 1500;
const FIXED_LONG: usize = 6;

/// The fixed list.
pub fn fixed() -> impl Iterator<Item = Question> {
    let mut questions = rules::questions();
    questions.extend(shapes::programs().into_iter().map(in_every_room));
    let mut random = Random::new(FIXED_SEED);
    for _ in 0..FIXED_SHORT {
        let bytes = short(&mut random);
        ask(bytes, &mut random, &mut questions);
    }
    for _ in 0..FIXED_LONG {
        let bytes = long(&mut random);
        ask(bytes, &mut random, &mut questions);
    }
    let long = [shapes::wide(), longest()].concat();
    questions.extend(long.into_iter().map(around_needed));
    questions.into_iter()
}

/// Questions about `count` random programs, made one at a time, so that a list can be long.
pub fn live(seed: u64, count: u64) -> impl Iterator<Item = Question> {
    let mut random = Random::new(seed);
    (0..count).flat_map(move |_| {
        let bytes = if random.one_in(512) {
            long(&mut random)
        } else {
            short(&mut random)
        };
        let mut questions = Vec::new();
        ask(bytes, &mut random, &mut questions);
        questions
    })
}

/// A program in every room if it has few records; else in the rooms around what it needs, and at times in none.
fn ask(bytes: Vec<u8>, random: &mut Random, questions: &mut Vec<Question>) {
    let question = in_every_room(bytes);
    if question.high <= FEW_RECORDS * ENTRIES_EACH + 1 {
        questions.push(question);
        return;
    }
    if random.one_in(8) {
        questions.push(Question {
            high: 0,
            ..question.clone()
        });
    }
    questions.push(around_needed(question.bytes));
}

/// Rooms one entry too small, just enough, and one entry larger.
pub fn around_needed(bytes: Vec<u8>) -> Question {
    let needed = emitted(&bytes);
    Question {
        bytes,
        low: needed.saturating_sub(1),
        high: needed + 1,
    }
}

/// Rooms from none to one entry more than is needed.
pub fn in_every_room(bytes: Vec<u8>) -> Question {
    Question {
        low: 0,
        ..around_needed(bytes)
    }
}

fn short(random: &mut Random) -> Vec<u8> {
    let count = random.below(SHORT + 1);
    programs::random(random, count)
}

/// A program of up to the largest length.
fn long(random: &mut Random) -> Vec<u8> {
    let count = SHORT + random.below(LONGEST / 4);
    let mut bytes = programs::random(random, count);
    bytes.truncate(LONGEST);
    bytes
}

/// Programs of the largest length: with as many records as possible; with one fewer, and then a number that is cut
/// short, a length for the last record, and a falling offset.
fn longest() -> Vec<Vec<u8>> {
    let with = |end: &[u8]| [&[0x03, 0x01].repeat((LONGEST - end.len()) / 2), end].concat();
    let longest = vec![
        with(&[]),
        with(&[0x03]),
        with(&[0x04, 0x05]),
        with(&[0x01, 0x00, 0x03, 0x00]),
    ];
    assert!(longest.iter().all(|bytes| emitted(bytes) < LARGEST_ROOM));
    longest
}

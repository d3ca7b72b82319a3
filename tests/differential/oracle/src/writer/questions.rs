//! The questions of the fixed list, and of a live list of any seed and length.

use super::list::{Question, LONGEST, RECORD_ENTRIES};
use super::lists::{self, EDGES, NO_OPCODES};
use super::reckoning::sound_front;
use super::rules;
use crate::random::Random;

/// The opcodes whose second number need not be 0.
const WITH_SECOND: [i64; 2] = [11, 12];

/// First operands that are paired with every second one.
const FIRSTS: [i64; 12] = [
    i64::MIN,
    -1,
    0,
    15,
    16,
    127,
    128,
    16_383,
    16_384,
    536_870_911,
    536_870_912,
    i64::MAX,
];

/// Sound records of each kind and of different lengths.
const SOUND: [[i64; 3]; 5] = [
    [1, 5, 0],
    [6, -300, 0],
    [11, 15, -512],
    [12, 16_384, 127],
    [13, 536_870_911, 0],
];

/// The most records of a short list.
const SHORT: usize = 32;

const FIXED_SEED: u64 = 0x7772_6974;
const FIXED_SHORT: usize = 300;
const FIXED_LONG: usize = 2;

/// The fixed list.
pub fn fixed() -> impl Iterator<Item = Question> {
    let mut questions = rules::questions();
    ask_edges(&mut questions);
    ask_lengths(&mut questions);
    ask_bad(&mut questions);
    let mut random = Random::new(FIXED_SEED);
    for _ in 0..FIXED_SHORT {
        let list = short(&mut random);
        ask(list, &mut random, &mut questions);
    }
    for _ in 0..FIXED_LONG {
        let list = long(&mut random);
        ask(list, &mut random, &mut questions);
    }
    questions.push(around_needed([12, 16_384, 536_870_911].repeat(LONGEST)));
    questions.into_iter()
}

/// Questions about `count` random lists, made one at a time, so that a list can be long.
pub fn live(seed: u64, count: u64) -> impl Iterator<Item = Question> {
    let mut random = Random::new(seed);
    (0..count).flat_map(move |_| {
        let list = if random.one_in(512) {
            long(&mut random)
        } else {
            short(&mut random)
        };
        let mut questions = Vec::new();
        ask(list, &mut random, &mut questions);
        questions
    })
}

/// Single records: every edge as each operand of each opcode, and opcodes that there are not.
fn ask_edges(questions: &mut Vec<Question>) {
    let mut records = Vec::new();
    for &edge in &EDGES {
        records.extend((1..=13).map(|opcode| [opcode, edge, 0]));
        records.extend((1..=13).map(|opcode| [opcode, 0, edge]));
        for &opcode in &WITH_SECOND {
            records.extend(FIRSTS.iter().map(|&first| [opcode, first, edge]));
        }
    }
    records.extend(NO_OPCODES.iter().map(|&opcode| [opcode, 5, 0]));
    questions.extend(records.iter().map(|record| in_every_room(record.to_vec())));
}

/// Lists of every length up to fifteen numbers, sound except for their length, and with a bad record in front.
fn ask_lengths(questions: &mut Vec<Question>) {
    let sound = SOUND.concat();
    let mut bad = sound.clone();
    bad[0] = 14;
    for length in 0..=sound.len() {
        questions.push(in_every_room(sound[..length].to_vec()));
        questions.push(in_every_room(bad[..length].to_vec()));
    }
}

/// A list with one bad number, at each place, or with two.
fn ask_bad(questions: &mut Vec<Question>) {
    let sound = SOUND.concat();
    for first in 0..sound.len() {
        for second in first..sound.len() {
            let mut list = sound.clone();
            list[first] = i64::MAX;
            list[second] = i64::MIN;
            questions.push(in_every_room(list));
        }
    }
}

/// A list in the rooms around what it needs, and at times in none.
fn ask(list: Vec<i64>, random: &mut Random, questions: &mut Vec<Question>) {
    let question = around_needed(list);
    if random.one_in(8) {
        questions.push(Question {
            low: 0,
            high: 0,
            ..question.clone()
        });
    }
    questions.push(question);
}

/// Rooms one byte too small, just enough, and one and two bytes larger.
pub fn around_needed(list: Vec<i64>) -> Question {
    let needed = needed(&list);
    Question {
        list,
        low: needed.saturating_sub(1),
        high: needed + 2,
    }
}

/// Rooms from none to two bytes more than are needed.
fn in_every_room(list: Vec<i64>) -> Question {
    Question {
        low: 0,
        ..around_needed(list)
    }
}

/// The bytes that a list needs, or the records before its first bad one: a writer that does not judge first
/// would write these.
fn needed(list: &[i64]) -> usize {
    sound_front(list).0.len()
}

/// A list of up to 32 records, one in four damaged.
fn short(random: &mut Random) -> Vec<i64> {
    let count = random.below(SHORT + 1);
    let list = lists::sound(random, count);
    if random.one_in(4) {
        lists::damaged(random, &list)
    } else {
        list
    }
}

/// A list of up to the largest length, damaged or not.
fn long(random: &mut Random) -> Vec<i64> {
    let count = SHORT + random.below(LONGEST - SHORT);
    let mut list = lists::sound(random, count);
    if random.one_in(2) {
        list = lists::damaged(random, &list);
    }
    list.truncate(LONGEST * RECORD_ENTRIES);
    list
}

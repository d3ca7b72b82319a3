//! Lists too long for a list of questions, whose indices and lengths take more than 16 and 24 bits. They
//! are asked about through the crate alone.

use super::list::{Question, RECORD_ENTRIES};
use super::lists;
use super::questions::around_needed;
use crate::random::Random;

const SEED: u64 = 0x6c61_7277;

/// The first numbers that take 17 and 25 bits.
const BITS_17: usize = 1 << 16;
const BITS_25: usize = 1 << 24;

/// The record with the most bytes.
const LONGEST_RECORD: [i64; RECORD_ENTRIES] = [12, 536_870_911, 16_384];
const LONGEST_BYTES: usize = 9;

pub fn large() -> impl Iterator<Item = Question> {
    let sound = lists::sound(&mut Random::new(SEED), BITS_17 + 5);
    let ragged = sound[..sound.len() - 1].to_vec();
    let mut bad = sound.clone();
    bad[RECORD_ENTRIES * (BITS_17 + 1)] = 0;
    let over_24_bits = LONGEST_RECORD.repeat(BITS_25 / LONGEST_BYTES + 1);
    vec![
        in_no_room(sound.clone()),
        around_needed(sound),
        around_needed(ragged),
        around_needed(bad),
        in_no_room(over_24_bits),
    ]
    .into_iter()
}

fn in_no_room(list: Vec<i64>) -> Question {
    Question {
        list,
        low: 0,
        high: 0,
    }
}

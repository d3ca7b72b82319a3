//! Containers too large for a list of questions, whose sizes, counts and lengths take more than 16, 24 and 32 bits. They
//! are asked about through the crate alone.

use super::containers;
use super::question::Question;
use super::questions::in_no_room;
use crate::container::ABSENT;
use crate::random::Random;

const SEED: u64 = 0x6c61_7270;
const RANDOM: usize = 40;

/// The most bytes of a random container's streams.
const LARGEST: usize = 1 << 20;

/// The first numbers that take 17 and 25 bits.
const BITS_17: usize = 1 << 16;
const BITS_25: u32 = 1 << 24;

pub fn large() -> impl Iterator<Item = Question> {
    let mut questions = Vec::new();
    ask_large_pages(&mut questions);
    ask_map_pages(&mut questions);
    ask_directories(&mut questions);
    let mut random = Random::new(SEED);
    questions.extend((0..RANDOM).map(|_| just_enough(containers::random(&mut random, LARGEST))));
    questions.into_iter()
}

/// Pages of 32 KiB and more, written. The last file takes more than 4 GiB, so it is only asked for.
fn ask_large_pages(questions: &mut Vec<Question>) {
    for &p in &[0x8000, 0x1_0000, 0x2_0000, 0x10_0000, 0x80_0000] {
        questions.push(just_enough(Question::new(p, vec![1, ABSENT, p + 1, 0])));
    }
    questions.push(in_no_room(Question::new(0x80_0000, vec![1; 600])));
}

/// Streams, directories and location pages around map pages, and past the pages from which on the bits are in another
/// page: the 2,048th of 256 bytes, the 4,096th of 512 bytes. The last two streams have more than 2^24 bytes.
fn ask_map_pages(questions: &mut Vec<Question>) {
    for &(p, map) in &[
        (0x100, 0x200),
        (0x100, 0x800),
        (0x200, 0x200),
        (0x400, 0x400),
    ] {
        for pages in map - 16..map {
            questions.push(just_enough(Question::new(p, vec![5, pages * p])));
        }
    }
    for &(p, pages) in &[(0x100, 2_100), (0x200, 4_200), (0x400, 8_300)] {
        questions.push(just_enough(Question::new(p, vec![pages * p, 5])));
    }
    for &size in &[BITS_25 + 5, BITS_25 + 0x5000] {
        let sizes = vec![3, ABSENT, size, 0x1001];
        questions.push(just_enough(Question::new(0x1000, sizes)));
    }
}

/// More than 65,536 streams, and the largest directories that one location page of 1,024 and of 4,096 bytes can list,
/// with and without one number more.
fn ask_directories(questions: &mut Vec<Question>) {
    let mut sizes = vec![0; BITS_17 + 5];
    sizes[BITS_17 + 2] = 0x1001;
    sizes[BITS_17 + 3] = ABSENT;
    questions.push(just_enough(Question::new(0x1000, sizes)));
    for &(p, numbers) in &[(0x400, BITS_17), (0x1000, 1 << 20)] {
        questions.push(just_enough(Question::new(p, vec![0; numbers - 1])));
        questions.push(in_no_room(Question::new(p, vec![0; numbers])));
    }
}

/// In just as many bytes as are needed, or in none if it is refused.
fn just_enough(question: Question) -> Question {
    let room = question.needed().unwrap_or(0);
    question.in_rooms(room, room)
}

//! The questions of the fixed list, and of a live list of any seed and length.

use super::containers::{self, NO_PAGE_SIZES};
use super::list::LARGEST_ROOM;
use super::question::Question;
use super::rules;
use crate::container::ABSENT;
use crate::random::Random;

/// More bytes than the smallest file has.
const SOME_ROOM: usize = 5_000;

/// The most bytes of a random container's streams.
const LARGEST: usize = 100_000;

const FIXED_SEED: u64 = 0x7061_636b;
const FIXED_RANDOM: usize = 100;

/// The fixed list.
pub fn fixed() -> impl Iterator<Item = Question> {
    let mut questions = rules::questions();
    ask_around_a_page(&mut questions);
    ask_pages(&mut questions);
    ask_map_pages(&mut questions);
    ask_directories(&mut questions);
    ask_refused(&mut questions);
    ask_large_pages(&mut questions);
    let mut random = Random::new(FIXED_SEED);
    for _ in 0..FIXED_RANDOM {
        questions.extend(ask(&mut random));
    }
    questions.into_iter()
}

/// Questions about `count` random containers, made one at a time, so that a list can be long.
pub fn live(seed: u64, count: u64) -> impl Iterator<Item = Question> {
    let mut random = Random::new(seed);
    (0..count).flat_map(move |_| ask(&mut random))
}

/// A random container in the rooms around what it needs, at times in no room or in one that is too small.
fn ask(random: &mut Random) -> Vec<Question> {
    let question = containers::random(random, LARGEST);
    let mut questions = Vec::new();
    if random.one_in(8) {
        questions.push(in_no_room(question.clone()));
    }
    if random.one_in(8) {
        let room = random.below(question.needed().unwrap_or(SOME_ROOM).min(LARGEST_ROOM));
        questions.push(question.clone().in_rooms(room, room));
    }
    questions.push(around_needed(question));
    questions
}

/// Sizes around a page, alone and in pairs; in small pages, three of them too.
fn ask_around_a_page(questions: &mut Vec<Question>) {
    for shift in 8..=16 {
        let p: u32 = 1 << shift;
        let sizes = [0, 1, p - 1, p, p + 1, ABSENT];
        let alone: Vec<Vec<u32>> = sizes.iter().map(|&size| vec![size]).collect();
        let pairs = with_each(&alone, &sizes);
        let lists = match p {
            0x100 => [with_each(&pairs, &sizes), pairs, alone].concat(),
            0x200..=0x800 => [pairs, alone].concat(),
            _ => alone,
        };
        questions.extend(
            lists
                .into_iter()
                .map(|sizes| around_needed(Question::new(p, sizes))),
        );
    }
}

/// The lists, each with each size after it.
fn with_each(lists: &[Vec<u32>], sizes: &[u32]) -> Vec<Vec<u32>> {
    let longer = |list: &Vec<u32>| {
        let list = list.clone();
        sizes.iter().map(move |&size| [&list[..], &[size]].concat())
    };
    lists.iter().flat_map(longer).collect()
}

/// One stream of each number of pages, until long after there is no padding.
fn ask_pages(questions: &mut Vec<Question>) {
    for &(p, most) in &[(0x100, 24), (0x200, 10), (0x400, 4)] {
        for pages in 1..=most {
            for &less in &[0, 1, p - 1] {
                questions.push(around_needed(Question::new(p, vec![pages * p - less])));
            }
        }
    }
}

/// Files whose streams, directory or location page lie around map pages: pages 257 and 258, if pages have 256 bytes.
fn ask_map_pages(questions: &mut Vec<Question>) {
    for pages in 247..=258 {
        let lists = [
            vec![pages * 0x100 - 7],
            vec![100, ABSENT, (pages - 3) * 0x100, 0, 0x101],
            // A directory of one page more.
            [vec![0; 40], vec![pages * 0x100], vec![0; 20]].concat(),
        ];
        for sizes in &lists {
            questions.push(around_needed(Question::new(0x100, sizes.clone())));
        }
    }
}

/// Directories around whole pages, and around the largest that one location page can list.
fn ask_directories(questions: &mut Vec<Question>) {
    for &(p, most) in &[(0x100, 64), (0x200, 128)] {
        for pages in vec![1, 2, 3, most - 1, most] {
            let held = pages * p / 4 - 1;
            for count in held - 1..=held + 1 {
                for &size in &[0, ABSENT] {
                    questions.push(around_needed(Question::new(p as u32, vec![size; count])));
                }
                // One of them has a page: one number more.
                let mut sizes = vec![0; count - 1];
                sizes[count / 2] = 1;
                questions.push(around_needed(Question::new(p as u32, sizes)));
            }
        }
    }
    for &count in &[4_097, 5_000, 16_384, 16_400] {
        questions.push(in_some_room(Question::new(0x100, vec![0; count])));
    }
}

/// Every page size that is none, and sums that are wrong, each with and without room.
fn ask_refused(questions: &mut Vec<Question>) {
    let mut refused = Vec::new();
    for &page_size in &NO_PAGE_SIZES {
        refused.push(Question::new(page_size, vec![]));
        refused.push(Question::new(page_size, vec![1, ABSENT]));
    }
    let sums: [(&[u32], usize); 12] = [
        (&[], 300),
        (&[0, 0], 1),
        (&[ABSENT, ABSENT], 1),
        (&[256, 1], 256),
        (&[256, 1], 258),
        (&[256, ABSENT, 1], 255),
        (&[ABSENT - 1], 0),
        (&[ABSENT - 1, 2], 0),
        (&[1, ABSENT - 1, 2], 1),
        (&[0x8000_0000, 0x8000_0000], 0),
        (&[0x8000_0000, 5, 0x8000_0000], 5),
        (&[ABSENT - 1; 1_000], 1_000),
    ];
    for &(sizes, length) in &sums {
        let question = Question {
            length,
            ..Question::new(0x100, sizes.to_vec())
        };
        refused.push(question);
    }
    for question in refused {
        questions.push(in_no_room(question.clone()));
        questions.push(in_some_room(question));
    }
}

/// Pages too large for a list: the bytes needed, some of them more than 32 bits hold.
fn ask_large_pages(questions: &mut Vec<Question>) {
    for shift in 17..=23 {
        let p: u32 = 1 << shift;
        let lists = vec![
            vec![],
            vec![0, ABSENT],
            vec![p / 256, 1, p / 256 + 1],
            vec![1; 600],
        ];
        for sizes in lists {
            let question = Question::new(p, sizes);
            questions.push(in_no_room(question.clone()));
            questions.push(in_some_room(question));
        }
    }
}

/// Rooms one byte too small, just enough, and one byte larger; if it is refused, or too large, some room.
pub fn around_needed(question: Question) -> Question {
    match question.needed() {
        Some(needed) if needed < LARGEST_ROOM => question.in_rooms(needed - 1, needed + 1),
        _ => in_some_room(question),
    }
}

pub fn in_no_room(question: Question) -> Question {
    question.in_rooms(0, 0)
}

pub fn in_some_room(question: Question) -> Question {
    question.in_rooms(SOME_ROOM, SOME_ROOM)
}

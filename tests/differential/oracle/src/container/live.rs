//! Random containers, sound and damaged, and questions about them.

use super::answers::Stage;
use super::ask::{rooms, About};
use super::damage;
use super::files::{need, stream, Container, Stream, ABSENT, HEADER_BLOCK};
use super::list::{Record, LONGEST_FILE};
use super::question::{Question, Rooms, Start, STAGES};
use super::stages;
use crate::random::Random;

/// Half of them are about the container, half about damaged copies of it.
const QUESTIONS: usize = 8;
/// So many more are about what mapping reads before it comes to the stream, and nothing else.
const STAGE_QUESTIONS: usize = 2;
/// And so many about a file whose location list and directory have many pages, or a damaged copy of it.
const LISTED_QUESTIONS: usize = 4;

/// Questions about `count` containers, made one at a time, so that a list can be long.
pub fn live(seed: u64, count: u64) -> impl Iterator<Item = Record> {
    let mut random = Random::new(seed);
    (0..count).flat_map(move |_| {
        let page_size = match random.below(16) {
            0..=7 => 0x100,
            8 | 9 => 0x200,
            10 | 11 => 0x400,
            12 => 0x800,
            13 => 0x1000,
            14 => 0x2000,
            _ => random.pick(&[0x4000, 0x8000]),
        };
        let sizes = match random.below(64) {
            0 => many_sizes(&mut random),
            1..=4 => sizes(&mut random, page_size, 100),
            _ => sizes(&mut random, page_size, 12),
        };
        let mut records = about(&mut random, page_size, sizes);
        records.extend(about_listed(&mut random));
        records
    })
}

/// The same with small pages and few streams, for the recorded list.
pub fn small(seed: u64, count: u64) -> impl Iterator<Item = Record> {
    let mut random = Random::new(seed);
    (0..count).flat_map(move |_| {
        let sizes = sizes(&mut random, 0x100, 5);
        about(&mut random, 0x100, sizes)
    })
}

fn about(random: &mut Random, page_size: usize, sizes: Vec<u32>) -> Vec<Record> {
    let container = container(random, page_size, sizes);
    let mut about = About::new(container.file(random));
    for i in 0..QUESTIONS {
        let damaged = i >= QUESTIONS / 2;
        let mut question = question(random, &container, &about, damaged);
        // The listing of the sound file once, and of each damaged one.
        if i == 0 || damaged {
            question = and_listing(random, &about, question);
        }
        about.ask(question);
    }
    for i in 0..STAGE_QUESTIONS {
        let question = question(random, &container, &about, i >= STAGE_QUESTIONS / 2);
        about.ask(Question {
            operations: STAGES,
            rooms: stage_rooms(random, &about, &question),
            ..question
        });
    }
    about.records
}

/// A file whose words are page numbers: its location list and its directory are wherever the header says.
fn about_listed(random: &mut Random) -> Vec<Record> {
    let page_size = random.pick(&[0x100, 0x100, 0x200, 0x400]);
    let pages = need(HEADER_BLOCK, page_size) + 8 + random.below(60);
    let mut about = About::new(stages::listed(random, page_size, pages));
    for _ in 0..LISTED_QUESTIONS {
        let edits = stages::edits(random, page_size, pages);
        let mut question = Question {
            stream: random.below(40) as u32,
            ..about.edited(&edits)
        };
        if random.one_in(4) {
            question.length -= random.below(question.length - HEADER_BLOCK);
            let end = question.length;
            question.edits.retain(|run| run.at + run.bytes.len() <= end);
        }
        question.rooms = stage_rooms(random, &about, &question);
        about.ask(question);
    }
    about.records
}

/// Rooms about what one of the stages needs.
fn stage_rooms(random: &mut Random, about: &About, question: &Question) -> Rooms {
    let stage = random.pick(&[Stage::LocationList, Stage::Directory]);
    let slices = about.needed_at(question, stage).unwrap_or(1);
    let mut room = || match random.below(8) {
        0 => random.below(slices + 1),
        1 | 2 => slices.saturating_sub(1),
        3..=5 => slices,
        _ => slices + random.below(3),
    };
    rooms(room(), room(), 60)
}

/// The listing too, most often from the head. Its store is that of the stream's bytes, which is mostly
/// large enough; in one question of four the room is about what the listing needs.
fn and_listing(random: &mut Random, about: &About, question: Question) -> Question {
    let mut question = question.and_listing();
    question.from = match random.below(16) {
        0 => Start::End,
        1..=3 => Start::Stream,
        _ => Start::Head,
    };
    if random.one_in(4) {
        let needed = about.listed(&question).unwrap_or(0);
        question.rooms.bytes = match random.below(4) {
            0 => random.below(needed + 1),
            _ => (needed + random.below(4)).saturating_sub(2),
        };
    }
    question
}

/// The sizes of at most `most` streams.
fn sizes(random: &mut Random, page_size: usize, most: usize) -> Vec<u32> {
    (0..random.below(most + 1))
        .map(|_| size(random, page_size))
        .collect()
}

fn size(random: &mut Random, page_size: usize) -> u32 {
    match random.below(10) {
        0 => ABSENT,
        1 => 0,
        2 => (1 + random.below(5)) as u32 * page_size as u32,
        3 => (random.below(5) * page_size + 1) as u32,
        4 => ((1 + random.below(5)) * page_size - 1) as u32,
        _ => random.below(4 * page_size) as u32,
    }
}

/// Enough streams for a location list of several small pages. Most are empty.
fn many_sizes(random: &mut Random) -> Vec<u32> {
    (0..3000 + random.below(3000))
        .map(|_| match random.below(64) {
            0 => random.below(0x200) as u32,
            1..=3 => ABSENT,
            _ => 0,
        })
        .collect()
}

/// A container: every page has one use, and the file is as long as its pages. It is sound, except that
/// pages_used leaves out the last page in one of four. Streams at the end are left out if the file would be
/// too long.
fn container(random: &mut Random, page_size: usize, mut sizes: Vec<u32>) -> Container {
    let first = need(HEADER_BLOCK, page_size);
    while first + Parts::of(&sizes, page_size).pages() > LONGEST_FILE / page_size {
        sizes.pop();
    }
    let parts = Parts::of(&sizes, page_size);
    let spare = random
        .below(3)
        .min(LONGEST_FILE / page_size - first - parts.pages());
    let count = parts.pages() + spare;
    let mut free = shuffled(random, first as u32, count).into_iter();
    let mut take = |pages: usize| -> Vec<u32> { free.by_ref().take(pages).collect() };
    Container {
        page_size,
        used: (first + count + random.below(4) - 1) as u32,
        length: (first + count) * page_size,
        entries: take(parts.entries),
        location: take(parts.location),
        streams: sizes
            .iter()
            .map(|&size| stream(size, &take(pages(size, page_size))))
            .collect(),
    }
}

/// The number of pages of each part of a container.
struct Parts {
    entries: usize,
    location: usize,
    streams: usize,
}

impl Parts {
    fn of(sizes: &[u32], page_size: usize) -> Self {
        let streams = sizes.iter().map(|&size| pages(size, page_size)).sum();
        let location = need(4 * (1 + sizes.len() + streams), page_size);
        Parts {
            entries: need(4 * location, page_size),
            location,
            streams,
        }
    }

    fn pages(&self) -> usize {
        self.entries + self.location + self.streams
    }
}

fn pages(size: u32, page_size: usize) -> usize {
    if size == ABSENT {
        0
    } else {
        need(size as usize, page_size)
    }
}

/// The pages from `first` on, in runs: each goes up or, rarely, down, and the runs are shuffled.
fn shuffled(random: &mut Random, first: u32, count: usize) -> Vec<u32> {
    let mut runs: Vec<Vec<u32>> = Vec::new();
    for page in first..first + count as u32 {
        if runs.is_empty() || random.one_in(3) {
            runs.push(Vec::new());
        }
        runs.last_mut().expect("one was pushed").push(page);
    }
    for i in (1..runs.len()).rev() {
        runs.swap(i, random.below(i + 1));
    }
    for run in &mut runs {
        if random.one_in(6) {
            run.reverse();
        }
    }
    runs.concat()
}

fn question(random: &mut Random, container: &Container, about: &About, damaged: bool) -> Question {
    let stream = stream_number(random, container);
    let mut question = Question {
        stream,
        limit: limit(random, container, stream),
        ..about.question()
    };
    if damaged {
        question.edits = damage::edits(random, container, &about.base);
        if random.one_in(4) {
            question.length = length(random, container);
            let end = question.length;
            question.edits.retain(|run| run.at + run.bytes.len() <= end);
        }
    }
    let (slices, bytes) = about.needed(&question).unwrap_or((2, 40));
    question.rooms = match random.below(4) {
        0 => rooms(slices, slices, bytes),
        1 => rooms(
            slices + random.below(3),
            slices + random.below(3),
            bytes + random.below(9),
        ),
        2 => rooms(
            slices.saturating_sub(random.below(2)),
            slices,
            bytes.saturating_sub(1),
        ),
        _ => rooms(slices, slices.saturating_sub(1), bytes.min(300)),
    };
    question
}

fn stream_number(random: &mut Random, container: &Container) -> u32 {
    match random.below(16) {
        0 => random.next() as u32,
        1 => (container.streams.len() + random.below(2)) as u32,
        _ => random.below(container.streams.len().max(1)) as u32,
    }
}

fn limit(random: &mut Random, container: &Container, stream: u32) -> Option<u64> {
    let size = container
        .streams
        .get(stream as usize)
        .filter(|stream| stream.size != ABSENT)
        .map_or(0, |stream: &Stream| stream.size as usize);
    match random.below(8) {
        0..=2 => None,
        3 => Some(0),
        4 => Some(random.next() >> random.below(64)),
        5 => Some((random.below(4) * container.page_size) as u64),
        6 => Some((size + random.below(3)).saturating_sub(1) as u64),
        _ => Some(random.below(size + 1) as u64),
    }
}

/// A length that cuts the file, most often near a page's end, or extends it.
fn length(random: &mut Random, container: &Container) -> usize {
    let pages = container.length / container.page_size;
    let end = (random.below(pages) + 1) * container.page_size;
    let length = match random.below(4) {
        0 => random.below(container.length),
        1 => container.length + random.below(container.page_size),
        _ => (end + random.below(3)).saturating_sub(1),
    };
    length.min(LONGEST_FILE)
}

//! The project's file F: the cases that its rules name, every value of each byte of its control data,
//! and F with words replaced.

use super::ask::About;
use super::files::{
    word, Container, BIG_MAGIC, DIRECTORY_SIZE, ENTRIES, PAGES_USED, PAGE_SIZE, SMALL_MAGIC,
};
use super::question::{Question, Run, EXTRACT, MAP};
use crate::random::Random;

const ALL_STREAMS: [u32; 4] = [0, 1, 2, 3];

const LIMITS: [u64; 22] = [
    0,
    1,
    255,
    256,
    257,
    299,
    300,
    301,
    511,
    512,
    513,
    599,
    600,
    601,
    700,
    767,
    768,
    769,
    0xffff_ffff,
    0x1_0000_0000,
    0x1_0000_0001,
    u64::MAX,
];

/// Words at the ends of ranges, and words that overflow a sum or a product that is too narrow.
pub const BOUNDARIES: [u32; 14] = [
    0,
    1,
    2,
    255,
    256,
    257,
    0x00ff_ffff,
    0x0100_0000,
    0x3fff_ffff,
    0x4000_0000,
    0x7fff_ffff,
    0x8000_0000,
    0xffff_fffe,
    0xffff_ffff,
];

// The directory's words in F: a count, three sizes and five pages.
const COUNT_WORD: usize = 0;
const SIZE_WORDS: std::ops::Range<usize> = 1..4;
const PAGE_WORDS: std::ops::Range<usize> = 4..9;

/// F unchanged: every stream at every limit that matters, with every room.
pub fn whole(random: &mut Random) -> About {
    let mut about = noisy(random);
    for &stream in &[0, 1, 2, 3, 4, 0x7fff_ffff, 0xffff_ffff] {
        about.ask_rooms(Question {
            stream,
            ..about.question()
        });
    }
    for &limit in &LIMITS {
        for &stream in &ALL_STREAMS {
            about.ask_rooms(Question {
                stream,
                limit: Some(limit),
                operations: MAP | EXTRACT,
                ..about.question()
            });
        }
    }
    about
}

/// Every value of each byte of the header, its first location entry, the location list and the
/// directory.
pub fn swept(random: &mut Random) -> About {
    let f = Container::f();
    let mut about = noisy(random);
    let directory = f.directory_word(0);
    let places = (PAGE_SIZE..ENTRIES + 4)
        .chain(f.location_word(0)..f.location_word(1))
        .chain(directory..directory + 4 * f.directory().len());
    for at in places {
        about.ask_swept(at, about.question().and_listing(), &ALL_STREAMS);
    }
    about
}

/// F with words replaced, one or two at a time.
pub fn damaged(random: &mut Random) -> About {
    let mut about = noisy(random);
    page_sizes(&mut about);
    page_numbers(&mut about);
    later_pages(&mut about);
    directory_sizes(&mut about);
    counts_and_sizes(&mut about);
    empty_streams(&mut about);
    about
}

/// Each power of two, with its neighbours, and a size of two bits.
fn page_sizes(about: &mut About) {
    let powers = (0..32).map(|bits| 1u32 << bits);
    let sizes = powers.flat_map(|power| vec![power, power + 1, power - 1]);
    for size in sizes.chain(Some(0x180)) {
        about.ask_streams(
            about.edited(&[word(PAGE_SIZE, size)]).and_listing(),
            &ALL_STREAMS,
        );
    }
}

/// Page numbers at the ends of the legal range, in each place that has a page number.
fn page_numbers(about: &mut About) {
    let f = Container::f();
    let pages = PAGE_WORDS.map(|i| f.directory_word(i));
    for place in pages.chain(vec![ENTRIES, f.location_word(0)]) {
        for &page in &[0, 1, 3, 4, 23, 24, 25, 26, 0x0100_0000, 0xffff_ffff] {
            about.ask_streams(about.edited(&[word(place, page)]), &ALL_STREAMS);
        }
        for &used in &[0, 1, 2, 20, 21, 22, 0xffff_ffff] {
            let edits = [word(place, 24), word(PAGES_USED, used)];
            about.ask_streams(about.edited(&edits).and_listing(), &ALL_STREAMS);
        }
    }
}

/// Later page numbers are checked whatever the limit.
fn later_pages(about: &mut About) {
    let last = Container::f().directory_word(PAGE_WORDS.end - 1);
    for &page in &[0, 24, 25] {
        for &limit in &[0, 1, 256, 512] {
            about.ask(Question {
                stream: 2,
                limit: Some(limit),
                ..about.edited(&[word(last, page)])
            });
        }
    }
}

/// Directories that end at each byte, and some that go on into more pages.
fn directory_sizes(about: &mut About) {
    let larger = vec![255, 256, 257, 512, 513, 0x4000, 0x4001, 0xffff_ffff];
    for size in (0..=40).chain(larger) {
        about.ask_streams(
            about.edited(&[word(DIRECTORY_SIZE, size)]).and_listing(),
            &ALL_STREAMS,
        );
    }
}

/// Counts and sizes that the directory holds, or cannot hold.
fn counts_and_sizes(about: &mut About) {
    let f = Container::f();
    for &count in [3, 4, 5, 7, 8, 9, 10].iter().chain(&BOUNDARIES) {
        let streams = [0, 1, 2, 3, count.wrapping_sub(1), count];
        let edits = [word(f.directory_word(COUNT_WORD), count)];
        about.ask_streams(about.edited(&edits).and_listing(), &streams);
    }
    for i in SIZE_WORDS {
        for &size in [299, 512, 513, 768, 769, 1280, 1281]
            .iter()
            .chain(&BOUNDARIES)
        {
            let edits = [word(f.directory_word(i), size)];
            about.ask_streams(about.edited(&edits).and_listing(), &ALL_STREAMS);
        }
    }
}

/// Empty streams, in directories that do or do not reach the place where their pages would begin.
fn empty_streams(about: &mut About) {
    let f = Container::f();
    let at = |i: usize| f.directory_word(i);
    for i in SIZE_WORDS {
        let stream = i as u32 - 1;
        for size in vec![16, 20, 24, 28, 32, 35, 36, 37] {
            let edits = [word(at(i), 0), word(DIRECTORY_SIZE, size)];
            about.ask_streams(about.edited(&edits).and_listing(), &[stream]);
        }
        for &count in [4, 5, 6, 7, 8, 9, 10].iter().chain(&BOUNDARIES) {
            let edits = [word(at(i), 0), word(at(COUNT_WORD), count)];
            about.ask_streams(about.edited(&edits).and_listing(), &[stream]);
        }
        for &size in [300, 1024, 1280, 1281, 1536].iter().chain(&BOUNDARIES) {
            let edits = [word(at(i), 0), word(at(1), size)];
            about.ask_streams(about.edited(&edits).and_listing(), &[stream]);
        }
    }
}

/// Both magics, with each byte wrong, and over short files.
pub fn magics(random: &mut Random) -> About {
    let mut about = noisy(random);
    let small = Run {
        at: 0,
        bytes: SMALL_MAGIC.to_vec(),
    };
    for at in 0..BIG_MAGIC.len() {
        about.ask_swept(at, about.question(), &[2]);
    }
    for at in 0..SMALL_MAGIC.len() {
        about.ask_swept(at, about.edited(&[small.clone()]), &[2]);
    }
    for &length in &[SMALL_MAGIC.len(), 4095, 4096, 4097] {
        about.ask(Question {
            length,
            ..about.edited(&[small.clone()])
        });
    }
    // A page size in the middle of the small magic; and no magic at all.
    about.ask(about.edited(&[small, word(PAGE_SIZE, 0x100)]));
    about.ask(about.edited(&[Run {
        at: 0,
        bytes: vec![0; 32],
    }]));
    about
}

/// F, with random bytes in all places that it leaves free.
fn noisy(random: &mut Random) -> About {
    About::new(Container::f().file_of_noise(random))
}

//! Files whose offsets, counts, sizes and values take more than 16 and 32 bits. They are asked about
//! through the crate alone, since a list has no room for them.

use super::ask::About;
use super::files::{
    stream, word, Container, ABSENT, DIRECTORY_SIZE, ENTRIES, ENTRIES_HELD, PAGES_USED, PAGE_SIZE,
};
use super::list::Record;
use super::question::{Question, Rooms, Run, DIRECTORY, EXTRACT, LOCATION_LIST, MAP, STAGES};
use crate::random::Random;

const SEED: u64 = 0x6d73_6601;

/// The first numbers that take 17 and 33 bits.
const BITS_17: usize = 1 << 16;
const BITS_33: usize = 1 << 32;

const LARGEST_PAGE: usize = 0x80_0000;
/// The page of that size that begins at 4 GiB.
const FAR: u32 = (BITS_33 / LARGEST_PAGE) as u32;

const SUBJECTS: [fn(&mut Random) -> About; 6] = [
    far_file,
    far_pages,
    many_slices,
    many_parts,
    long_parts,
    values_of_32_bits,
];

pub fn large() -> impl Iterator<Item = Record> {
    let mut random = Random::new(SEED);
    SUBJECTS
        .iter()
        .flat_map(move |subject| subject(&mut random).records)
}

/// A file over 4 GiB: its location list, its directory and its streams lie past that.
fn far_file(random: &mut Random) -> About {
    const SIZE: u32 = 2 * LARGEST_PAGE as u32 + 1;
    let container = Container {
        page_size: LARGEST_PAGE,
        used: 0xffff_ffff,
        length: 4096,
        entries: vec![FAR],
        location: vec![FAR + 1],
        streams: vec![
            stream(300, &[FAR + 2]),
            stream(ABSENT, &[]),
            stream(SIZE, &[FAR + 2, FAR + 3, 0xffff_fffe]),
        ],
    };
    let mut about = About::new(container.file(random));
    let own = Run {
        at: (FAR as usize + 2) * LARGEST_PAGE,
        bytes: (0..300).map(|_| random.byte()).collect(),
    };
    let whole = Question {
        length: own.at + 300,
        edits: [laid_out(&container), vec![own]].concat(),
        ..about.question()
    };
    for &stream in &[0, 1, 2, 3] {
        for &limit in &[None, Some(300), Some(1 << 32)] {
            about.ask(Question {
                stream,
                limit,
                ..whole.clone()
            });
        }
    }
    // Without the last byte of stream 0.
    let mut cut = whole;
    cut.length -= 1;
    cut.edits.last_mut().map(|own| own.bytes.pop());
    about.ask(cut);
    about
}

/// A file of 16 MiB that names pages at 4 GiB, and the largest page number that passes.
fn far_pages(random: &mut Random) -> About {
    const PAGES: [u32; 6] = [FAR - 1, FAR, 600, 0x8000_0000, 0xffff_fffd, 0xffff_fffe];
    let container = Container {
        page_size: LARGEST_PAGE,
        used: 0xffff_ffff,
        length: 4096,
        entries: vec![1],
        // The directory is in the same page: this word is its count too.
        location: vec![1],
        streams: vec![stream((PAGES.len() * LARGEST_PAGE) as u32 - 5, &PAGES)],
    };
    let mut about = About::new(container.file(random));
    let whole = Question {
        length: 2 * LARGEST_PAGE,
        ..about.edited(&laid_out(&container))
    };
    let pages = (0..=PAGES.len() as u64).map(|page| Some(page * LARGEST_PAGE as u64));
    let others = vec![None, Some(1 << 16), Some(1 << 32), Some(1 << 40), Some(!0)];
    for limit in pages.chain(others) {
        about.ask(Question {
            limit,
            ..whole.clone()
        });
    }
    let mut refused = whole;
    refused.edits.push(word(PAGES_USED, 0xffff_fffe));
    about.ask(refused);
    about
}

/// A stream of over 65,536 slices, all of the same page: mapped whole, and as many bytes extracted, into
/// stores that are just enough, one too small, larger and empty.
fn many_slices(random: &mut Random) -> About {
    const COUNT: usize = BITS_17 + 5;
    let container = Container {
        used: 1201,
        length: 1201 * 0x100,
        entries: (16..34).collect(),
        location: (34..1100).collect(),
        streams: vec![stream(0x100 * COUNT as u32 - 7, &[8; COUNT])],
        ..Container::f()
    };
    let mut about = About::new(container.file(random));
    let rooms = [
        (COUNT, COUNT),
        (COUNT + 1, COUNT),
        (COUNT - 1, COUNT),
        (COUNT, COUNT - 1),
        (0, 0),
    ];
    for &(offsets, sizes) in &rooms {
        about.ask(Question {
            operations: MAP,
            rooms: Rooms {
                offsets,
                sizes,
                bytes: 0,
            },
            ..about.question()
        });
        about.ask(Question {
            operations: EXTRACT,
            limit: Some(COUNT as u64),
            rooms: Rooms {
                offsets: 0,
                sizes: 0,
                bytes: offsets,
            },
            ..about.question()
        });
    }
    about
}

/// A directory that names one page over and over, in a file of 24 KiB: over 65,536 slices, and as many as the
/// location entries can name, which is over 2^20. So does its location list, of up to 1,011 slices.
fn many_parts(random: &mut Random) -> About {
    const PAGE: usize = 0x1000;
    const MOST: usize = ENTRIES_HELD * PAGE / 4;
    let container = Container {
        page_size: PAGE,
        used: 6,
        length: 6 * PAGE,
        entries: vec![2; ENTRIES_HELD],
        location: vec![3; PAGE / 4],
        streams: Vec::new(),
    };
    let mut about = About::new(container.file(random));
    for &pages in &[BITS_17 - 1, BITS_17, BITS_17 + 5, MOST] {
        let size = (pages * PAGE - 7) as u32;
        let entries = (pages * 4 + PAGE - 1) / PAGE;
        for &(operations, slices) in &[(LOCATION_LIST, entries), (DIRECTORY, pages)] {
            for &(offsets, sizes) in &[
                (slices, slices),
                (slices + 1, slices),
                (slices - 1, slices),
                (slices, slices - 1),
                (0, 0),
            ] {
                about.ask(Question {
                    operations,
                    rooms: Rooms {
                        offsets,
                        sizes,
                        bytes: 0,
                    },
                    ..about.edited(&[word(DIRECTORY_SIZE, size)])
                });
            }
        }
    }
    about
}

/// A directory of almost 4 GiB in pages of 8 MiB, most of it past the file: one slice, whose pages come to 2^32
/// bytes before the last is cut; and two and four, where pages are out of order.
fn long_parts(random: &mut Random) -> About {
    const PAGES: usize = BITS_33 / LARGEST_PAGE;
    let container = Container {
        page_size: LARGEST_PAGE,
        used: 0xffff_ffff,
        length: 4096,
        entries: vec![1],
        location: (2..2 + PAGES as u32).collect(),
        streams: Vec::new(),
    };
    let mut about = About::new(container.file(random));
    let laid_out = laid_out(&container);
    let page = |i| container.location_word(i);
    let changes = [
        Vec::new(),
        vec![word(page(PAGES - 1), 0xffff_fffe)],
        vec![word(page(0), FAR)],
        vec![word(page(PAGES / 2), FAR), word(page(PAGES - 1), FAR)],
    ];
    for change in &changes {
        for &size in &[0xffff_ffff, 0xff80_0001, 0xff80_0000, 0x8000_0001] {
            let size = vec![word(DIRECTORY_SIZE, size)];
            about.ask(Question {
                length: 2 * LARGEST_PAGE,
                operations: STAGES,
                ..about.edited(&[laid_out[..1].to_vec(), change.clone(), size].concat())
            });
        }
    }
    about
}

/// File F with words of more than 16 bits, which become refusals' values, and counts.
fn values_of_32_bits(random: &mut Random) -> About {
    let f = Container::f();
    let mut about = About::new(f.file(random));
    let directory = [0, 1, 4, 8].iter().map(|&i| f.directory_word(i));
    let header = vec![PAGE_SIZE, PAGES_USED, ENTRIES, f.location_word(0)];
    for at in header.into_iter().chain(directory) {
        for &value in &[0x1_0000, 0x1_0100, 0x8000_0000, 0xffff_ff00, 0xffff_ffff] {
            about.ask_streams(about.edited(&[word(at, value)]), &[0, 2, value]);
        }
    }
    about
}

/// The location list and the directory of a container, as edits of a longer file.
fn laid_out(container: &Container) -> Vec<Run> {
    let run = |at, words: &[u32]| Run {
        at,
        bytes: words
            .iter()
            .flat_map(|w| w.to_le_bytes().to_vec())
            .collect(),
    };
    vec![
        run(container.location_word(0), &container.location),
        run(container.directory_word(0), &container.directory()),
    ]
}

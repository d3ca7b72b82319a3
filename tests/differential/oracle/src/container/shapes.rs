//! Files of each shape that a rule or a likely mistake is about.

use super::ask::About;
use super::file_f::BOUNDARIES;
use super::files::{
    stream, word, Container, Stream, ABSENT, DIRECTORY_SIZE, ENTRIES, ENTRIES_HELD, HEADER_BLOCK,
    PAGES_USED, PAGE_SIZE,
};
use super::question::{Question, Run, Start, COUNT, EXTRACT, LIST, MAP, OPEN, STAGES};
use crate::random::Random;

const ALL_STREAMS: [u32; 4] = [0, 1, 2, 3];

/// Location list and directory at the file's end; the file is cut at every byte that matters.
pub fn truncated(random: &mut Random) -> About {
    let container = Container {
        entries: vec![22],
        location: vec![23],
        ..Container::f()
    };
    let mut about = About::new(container.file(random));
    for length in (0..60).chain(vec![255, 256, 4094, 4095, 4096, 4097]) {
        about.ask(about.cut(length));
    }
    // The ends of all pages, and every length from the location list on.
    let near = |end: usize| vec![end - 1, end, end + 1];
    let ends = (16..=25).map(|page| page * 0x100).flat_map(near);
    for length in ends.chain((22 * 0x100)..(22 * 0x100 + 8)) {
        about.ask_streams(about.cut(length).and_listing(), &ALL_STREAMS);
    }
    for length in (23 * 0x100)..(23 * 0x100 + 40) {
        about.ask_streams(about.cut(length).and_listing(), &[2, 0]);
    }
    // Streams 0 and 2 end before their pages do.
    for length in near(20 * 0x100 + 300).into_iter().chain(4096..4104) {
        let edits = [word(ENTRIES, 12), word(12 * 0x100, 13)];
        let directory = Run {
            at: 13 * 0x100,
            bytes: about.base[23 * 0x100..23 * 0x100 + 36].to_vec(),
        };
        let edits: Vec<Run> = edits.iter().cloned().chain(Some(directory)).collect();
        about.ask_streams(
            Question {
                length,
                ..about.edited(&edits)
            },
            &ALL_STREAMS,
        );
    }
    about
}

/// Forty streams over a directory of several pages: absent ones, empty ones, ones that share pages.
pub fn spread(random: &mut Random) -> About {
    let sizes = [0, ABSENT, 1, 255, 256, 257, 600, 0, 511, 512, 513];
    let streams: Vec<Stream> = (0..40)
        .map(|i| {
            let size = sizes[i % sizes.len()];
            let pages = if size == ABSENT {
                0
            } else {
                (size as usize + 255) / 256
            };
            let pages: Vec<u32> = (0..pages).map(|_| 8 + random.below(6) as u32).collect();
            stream(size, &pages)
        })
        .collect();
    let container = Container {
        entries: vec![19],
        location: vec![22, 17, 18, 3],
        streams,
        ..Container::f()
    };
    let mut about = About::new(container.file(random));
    for stream in 0..=41 {
        about.ask_rooms(Question {
            stream,
            ..about.question()
        });
    }
    let words = container.directory().len();
    for i in 0..words {
        let edits = [word(container.directory_word(i), random.pick(&BOUNDARIES))];
        about.ask_streams(about.edited(&edits).and_listing(), &[0, 20, 39]);
    }
    // A directory that ends at every word.
    for i in 0..words {
        let edits = [word(DIRECTORY_SIZE, 4 * i as u32)];
        about.ask_streams(about.edited(&edits).and_listing(), &[0, 39]);
    }
    about
}

/// Streams so large that their page entries would take 2^32 bytes, which is 0 in 32 bits.
pub fn large_before(random: &mut Random) -> About {
    let mut streams = vec![stream(0xffff_fffe, &[]); 64];
    streams.push(stream(300, &[17, 18]));
    streams.push(stream(0, &[]));
    let container = Container {
        location: vec![19, 22],
        streams,
        ..Container::f()
    };
    let mut about = About::new(container.file(random));
    about.ask_streams(about.question().and_listing(), &[0, 1, 63, 64, 65, 66]);
    for i in 1..=64 {
        let edits = [word(container.directory_word(i), ABSENT)];
        about.ask_streams(about.edited(&edits).and_listing(), &[64, 65]);
    }
    about
}

/// Runs of pages that merge, and lists that do not, at every limit around their pages.
pub fn merging(random: &mut Random) -> About {
    let lists: [&[u32]; 14] = [
        &[8, 9, 10],
        &[8, 10, 9],
        &[10, 9, 8],
        &[8, 8, 8],
        &[8, 9, 9, 10],
        &[9, 8, 9, 10],
        &[8, 10, 11, 13],
        &[22, 23],
        &[23, 24],
        &[24, 1, 2],
        &[1, 2, 3, 4, 5],
        &[3, 4],
        &[4, 3],
        &[15, 16],
    ];
    let streams = lists
        .iter()
        .enumerate()
        .map(|(i, pages)| stream((pages.len() * 256 - i * 17) as u32, pages))
        .collect();
    let container = Container {
        streams,
        ..Container::f()
    };
    let mut about = About::new(container.file_of_noise(random));
    for (stream, pages) in lists.iter().enumerate() {
        // Page 24 is past the file. With pages_used 25 it is legal.
        let edits = if pages.contains(&24) {
            vec![word(PAGES_USED, 25)]
        } else {
            Vec::new()
        };
        let question = Question {
            stream: stream as u32,
            ..about.edited(&edits)
        };
        about.ask_rooms(question.clone());
        for page in 0..=pages.len() as u64 {
            for &limit in &[(page * 256).saturating_sub(1), page * 256, page * 256 + 1] {
                about.ask_rooms(Question {
                    limit: Some(limit),
                    operations: MAP | EXTRACT,
                    ..question.clone()
                });
            }
        }
    }
    about
}

/// One page is the location list, the directory and a stream; two streams share their pages.
pub fn aliased(random: &mut Random) -> About {
    let container = Container {
        entries: vec![3],
        location: vec![3],
        streams: vec![
            stream(300, &[3, 1]),
            stream(ABSENT, &[]),
            stream(600, &[3, 4, 3]),
        ],
        ..Container::f()
    };
    let mut about = About::new(container.file_of_noise(random));
    for &stream in &ALL_STREAMS {
        about.ask_rooms(Question {
            stream,
            ..about.question()
        });
    }
    for at in container.directory_word(0)..container.directory_word(9) {
        about.ask_swept(at, about.question(), &[0, 2]);
    }
    // The header block holds pages too: here its own entries are the location list.
    let edits = [word(ENTRIES, 1), word(0x100, 3)];
    about.ask_streams(about.edited(&edits), &ALL_STREAMS);
    about
}

/// The largest directory that the location entries can name.
const LARGEST_DIRECTORY: u32 = (ENTRIES_HELD * 64 * 256) as u32;

/// Every word from the first location entry to the end of the header block is 3. Page 3 is in that
/// block, so it is location list, directory and stream.
pub fn all_threes(random: &mut Random) -> About {
    let mut file = Container::f().file_of_noise(random);
    for at in (ENTRIES..HEADER_BLOCK).step_by(4) {
        file[at..at + 4].copy_from_slice(&3u32.to_le_bytes());
    }
    let mut about = About::new(file);
    ask_location_limit(&mut about);
    about
}

/// The same with a separate location list and directory.
pub fn location_limit(random: &mut Random) -> About {
    let container = Container {
        entries: vec![20; ENTRIES_HELD],
        location: vec![22; 64],
        streams: vec![
            stream(300, &[17, 18]),
            stream(ABSENT, &[]),
            stream(600, &[18, 19, 16]),
        ],
        ..Container::f()
    };
    let mut about = About::new(container.file(random));
    ask_location_limit(&mut about);
    // A larger page does not change the header block: it holds as many entries.
    for &size in &[0x200, 0x1000, 0x2000] {
        let words: u64 = size / 4;
        for &entries in &[ENTRIES_HELD as u64, ENTRIES_HELD as u64 + 1] {
            let bytes = (entries * words * size).min(0xffff_ffff) as u32;
            let edits = [word(PAGE_SIZE, size as u32), word(DIRECTORY_SIZE, bytes)];
            about.ask(Question {
                operations: OPEN | STAGES,
                ..about.edited(&edits)
            });
        }
    }
    about
}

fn ask_location_limit(about: &mut About) {
    let last = word(ENTRIES + 4 * (ENTRIES_HELD - 1), 25);
    for &size in &[
        LARGEST_DIRECTORY - 1,
        LARGEST_DIRECTORY,
        LARGEST_DIRECTORY + 1,
    ] {
        let edits = [word(DIRECTORY_SIZE, size), last.clone()];
        about.ask_streams(about.edited(&edits[..1]), &[2, 0]);
        about.ask_streams(about.edited(&edits), &[2]);
        about.ask_stages(about.edited(&edits[..1]));
    }
    for at in DIRECTORY_SIZE..DIRECTORY_SIZE + 4 {
        // The third byte makes directories of many MiB.
        let operations = if at < DIRECTORY_SIZE + 2 {
            OPEN | COUNT | MAP | EXTRACT | STAGES
        } else {
            OPEN | COUNT | STAGES
        };
        let question = Question {
            operations,
            ..about.question()
        };
        about.ask_swept(at, question, &[2]);
    }
}

/// A location list of three pages and a directory of 140, in no order. Most streams are empty.
pub fn location_pages(random: &mut Random) -> About {
    let container = many_streams();
    let last = container.streams.len() as u32 - 1;
    let mut about = About::new(container.file(random));
    for &stream in &[0, 5, 18, 35, 62, 63, 64, 4000, last - 1, last, last + 1] {
        about.ask_with_room(Question {
            stream,
            ..about.question()
        });
    }
    for &i in &[0, 1, 62, 63, 64, 65, 127, 128, 139] {
        for &page in &[0, 160, 161, 162] {
            let edits = [word(container.location_word(i), page)];
            about.ask_streams(about.edited(&edits), &[35]);
        }
    }
    for i in 0..3 {
        for &page in &[0, 5, 6, 7, 160, 161, 162] {
            let edits = [word(ENTRIES + 4 * i, page)];
            about.ask_streams(about.edited(&edits), &[35]);
        }
    }
    for &length in &[
        5 * 256 + 128,
        6 * 256 + 48,
        160 * 256,
        160 * 256 + 255,
        161 * 256 - 1,
    ] {
        about.ask_streams(about.cut(length), &[35]);
    }
    // A listing refuses too many streams with 11, but first with 7 if their sizes are cut short.
    about.ask_listing_around(about.question());
    for &count in &[4096, 4097, 5000] {
        let sizes = 4 + 4 * count;
        for &size in &[sizes - 1, sizes, sizes + 1] {
            let edits = [
                word(DIRECTORY_SIZE, size),
                word(container.directory_word(0), count),
            ];
            about.ask_listing(about.edited(&edits), Start::Head, 65_536);
        }
    }
    about
}

/// As many streams as a directory of 140 pages has room for.
fn many_streams() -> Container {
    let streams = (0..8300)
        .map(|i| match i % 13 {
            0 => stream(ABSENT, &[]),
            5 if i % 3 == 0 => stream(300, &[17, 18]),
            7 if i % 5 == 0 => stream(257, &[19, 17]),
            _ => stream(0, &[]),
        })
        .collect();
    let mut container = Container {
        used: 161,
        length: 161 * 256,
        entries: vec![5, 160, 6],
        location: (0..140).map(|i| 20 + (i * 37) % 140).collect(),
        streams,
        ..Container::f()
    };
    while container.directory().len() > 140 * 64 - 10 {
        container.streams.pop();
    }
    container
}

/// Page numbers up to the largest that passes, and the one above it.
pub fn high_pages(random: &mut Random) -> About {
    let container = Container {
        used: 0xffff_ffff,
        streams: vec![
            stream(700, &[0xffff_fffd, 0xffff_fffe, 1]),
            stream(256, &[0xffff_fffe]),
            stream(600, &[0x0100_0000, 0x00ff_ffff, 0x0100_0000]),
        ],
        ..Container::f()
    };
    let mut about = About::new(container.file(random));
    for &stream in &ALL_STREAMS {
        for &limit in &[None, Some(0), Some(512)] {
            about.ask_rooms(Question {
                stream,
                limit,
                ..about.question()
            });
        }
    }
    // The next page number does not pass, nor does the one after it, which is 0 in 32 bits.
    let place = container.directory_word(container.first_page_word(0) + 2);
    for &page in &[0xffff_ffff, 0] {
        about.ask(about.edited(&[word(place, page)]));
    }
    about
}

/// Both sides of the last page number that passes, in each of the three lists, of few pages and of many. Page 1
/// is location list, directory and stream.
pub fn last_pages(random: &mut Random) -> About {
    const USED: [u32; 7] = [0, 1, 2, 3, 24, 0xffff_fffe, 0xffff_ffff];
    let container = Container {
        used: 2,
        entries: vec![1],
        location: vec![1],
        streams: vec![stream(40, &[1])],
        ..Container::f()
    };
    let mut about = About::new(container.file(random));
    let own = container.directory_word(container.first_page_word(0));
    for &used in &USED {
        let pages = [used.checked_sub(1), Some(used), used.checked_add(1)];
        for page in pages.iter().flatten() {
            for &place in &[ENTRIES, container.location_word(0), own] {
                let edits = [word(PAGES_USED, used), word(place, *page)];
                about.ask_streams(about.edited(&edits).and_listing(), &[0, 1]);
            }
        }
    }
    about
}

/// The page size that most files have.
pub fn page_of_4096(random: &mut Random) -> About {
    large_page(0x1000, 24 * 1024, random)
}

pub fn page_of_8192(random: &mut Random) -> About {
    large_page(0x2000, 48 * 1024, random)
}

fn large_page(page_size: usize, length: usize, random: &mut Random) -> About {
    let size = page_size as u32;
    let container = Container {
        page_size,
        used: 6,
        length,
        entries: vec![1],
        location: vec![2],
        streams: vec![
            stream(300, &[3]),
            stream(ABSENT, &[]),
            stream(0, &[]),
            stream(size + 1, &[4, 5]),
            stream(2 * size, &[5, 3]),
            stream(40, &[6]),
        ],
    };
    // Only the ends of the streams' pages are not zero, to keep the list short.
    let mut file = container.file(random);
    for page in 3..=5 {
        let from = page * page_size;
        file[from + 16..from + page_size - 16]
            .iter_mut()
            .for_each(|b| *b = 0);
    }
    let mut about = About::new(file);
    for stream in 0..=6 {
        for &limit in &[None, Some(u64::from(size))] {
            about.ask_with_room(Question {
                stream,
                limit,
                ..about.question()
            });
        }
    }
    for page in 1..=6 {
        for &length in &[page * page_size - 1, page * page_size, page * page_size + 1] {
            if length <= about.base.len() {
                about.ask_streams(about.cut(length), &[0, 3]);
            }
        }
    }
    about
}

/// The file has one page after the header's, which is location list, directory and stream.
pub fn page_of_65536(random: &mut Random) -> About {
    let container = Container {
        page_size: 0x10000,
        used: 2,
        length: 0x20000,
        entries: vec![1],
        location: vec![1],
        streams: vec![stream(40, &[1])],
    };
    // A few random bytes are enough.
    let mut file = container.file(random);
    file[0x10040..].iter_mut().for_each(|b| *b = 0);
    let mut about = About::new(file);
    for &stream in &[0, 1] {
        about.ask_rooms(Question {
            stream,
            ..about.question()
        });
    }
    for &length in &[
        0x10000, 0x10003, 0x10004, 0x1000b, 0x1000c, 0x10027, 0x10028,
    ] {
        about.ask(about.cut(length));
    }
    about
}

/// Pages of 8 MiB: every page but page 0 is past the file's end.
pub fn largest_page(random: &mut Random) -> About {
    let container = Container {
        page_size: 0x80_0000,
        used: 0xffff_ffff,
        length: 4096,
        ..Container::f()
    };
    let mut about = About::new(container.file(random));
    for &size in &[0, 1, 4, 36, 0x80_0000, 0x80_0001, 0x4000_0000, 0xffff_ffff] {
        about.ask(about.edited(&[word(DIRECTORY_SIZE, size)]));
    }
    for &entry in &[0, 1, 0xffff_fffe, 0xffff_ffff] {
        about.ask(about.edited(&[word(ENTRIES, entry)]));
    }
    about.ask(Question {
        length: 0x20000,
        ..about.question()
    });
    about
}

/// A file of 24 KiB whose directory is far larger, since it names page 3 over and over.
pub fn over_and_over(random: &mut Random) -> About {
    const COUNT_WORD: usize = 3 * 0x1000;
    const SIZE_WORD: usize = COUNT_WORD + 4;
    const MIB: u32 = 1 << 20;
    let mut about = About::new(repeating(random));
    let edits = |directory: u32, used: u32, bytes: u32| {
        [
            word(DIRECTORY_SIZE, directory),
            word(PAGES_USED, used),
            word(COUNT_WORD, 1),
            word(SIZE_WORD, bytes),
        ]
    };
    for &directory in &[0x1000, 0x1001, 4 * MIB, 4 * MIB + 1, 16 * MIB, 64 * MIB] {
        for &bytes in &[5 * 0x1000, 64 * MIB, 0xffff_fffe] {
            for &used in &[6, 0xffff_ffff] {
                about.ask_with_room(Question {
                    limit: Some(0x3001),
                    operations: COUNT | MAP | EXTRACT | LIST | STAGES,
                    ..about.edited(&edits(directory, used, bytes))
                });
            }
        }
    }
    // A mapping of many slices.
    about.ask_rooms(Question {
        operations: MAP,
        ..about.edited(&edits(4 * MIB, 0xffff_ffff, 2 * MIB))
    });
    // pdb cannot be asked about the largest directory that the entries can name.
    for &directory in &[0x0fff_ffff, 0x4000_0001, 0xfcc0_0000, 0xfcc0_0001] {
        about.ask(Question {
            limit: Some(0x3001),
            operations: OPEN | COUNT | EXTRACT | STAGES,
            ..about.edited(&[word(DIRECTORY_SIZE, directory), word(COUNT_WORD, 1)])
        });
    }
    about
}

/// Every location entry is page 2, every word there is page 3, and most words there are pages 4 and 5.
fn repeating(random: &mut Random) -> Vec<u8> {
    const PAGE: usize = 0x1000;
    let container = Container {
        page_size: PAGE,
        used: 6,
        length: 6 * PAGE,
        entries: vec![2; ENTRIES_HELD],
        location: vec![3; PAGE / 4],
        streams: Vec::new(),
    };
    let mut file = container.file(random);
    for i in 2..PAGE / 4 {
        file[3 * PAGE + 4 * i] = 4 + (i % 7 / 6) as u8;
    }
    for at in (4 * PAGE..4 * PAGE + 32).chain(5 * PAGE..5 * PAGE + 32) {
        file[at] = random.byte();
    }
    file
}

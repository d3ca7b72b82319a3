//! Listings: file F in every room and from every place, each refusal, and files at the limits.

use super::ask::About;
use super::files::{
    put_word, stream, word, Container, ABSENT, DIRECTORY_SIZE, ENTRIES, PAGES_USED, PAGE_SIZE,
    SMALL_MAGIC,
};
use super::hostile;
use super::question::{Question, Run, Start};
use crate::random::Random;

/// The program's own room.
const PROGRAM_ROOM: usize = 65_536;

/// Rooms around the end of each line of F, and the program's.
const ROOMS: [usize; 12] = [0, 1, 9, 10, 17, 18, 26, 27, 34, 35, 36, PROGRAM_ROOM];

const LONGEST_LISTED: usize = 65_536;

/// A file that the tests of the program ask for by name.
pub fn named(name: &str) -> Vec<u8> {
    let mut random = Random::new(0);
    match name {
        "f" => Container::f().file(&mut random),
        "empty" => Vec::new(),
        "page-size" => refused_by_page_size(&mut random),
        "longest" => longest_file(&mut random, LONGEST_LISTED),
        "too-long" => longest_file(&mut random, LONGEST_LISTED + 1),
        "4096-streams" => of_streams(4096).file(&mut random),
        "4097-streams" => of_streams(4097).file(&mut random),
        "long-lines" => of_long_lines().file(&mut random),
        "hostile" => hostile::file(hostile::STREAMS[0]),
        "half-hostile" => hostile::file(hostile::STREAMS[1]),
        _ => crate::stop("there is no file of that name"),
    }
}

fn refused_by_page_size(random: &mut Random) -> Vec<u8> {
    let mut file = Container::f().file(random);
    put_word(&mut file, PAGE_SIZE, 0x180);
    file
}

/// F unchanged, in each room and from each place.
pub fn whole_f(random: &mut Random) -> About {
    let mut about = About::new(Container::f().file_of_noise(random));
    for &room in &ROOMS {
        about.ask_listing(about.question(), Start::Head, room);
        for &stream in &[0, 1, 2, 3, 4, 0xffff_ffff] {
            let question = Question {
                stream,
                ..about.question()
            };
            about.ask_listing(question, Start::Stream, room);
        }
        about.ask_listing(about.question(), Start::End, room);
    }
    about
}

/// Each cause of each refusal, for F as a whole and for its streams.
pub fn refused(random: &mut Random) -> About {
    let mut about = About::new(Container::f().file_of_noise(random));
    for length in vec![0, 1, 4095] {
        about.ask_listing_around(about.cut(length));
    }
    for edits in whole_refusals().into_iter().chain(stream_refusals()) {
        about.ask_listing_around(about.edited(&edits));
    }
    about
}

fn whole_refusals() -> Vec<Vec<Run>> {
    let f = Container::f();
    let bytes = |at, bytes: &[u8]| {
        vec![Run {
            at,
            bytes: bytes.to_vec(),
        }]
    };
    let words = |at, values: &[u32]| -> Vec<Vec<Run>> {
        values.iter().map(|&value| vec![word(at, value)]).collect()
    };
    // More location entries than the header block holds.
    let entries: Vec<u8> = std::iter::repeat(3u32.to_le_bytes().to_vec())
        .take(1011)
        .flatten()
        .collect();
    let too_many = [
        bytes(ENTRIES, &entries),
        vec![word(DIRECTORY_SIZE, 16_564_225)],
    ];
    vec![
        vec![bytes(31, &[1]), bytes(0, SMALL_MAGIC)],
        words(PAGE_SIZE, &[0, 0x80, 0x180, 0x100_0000, 0xffff_ffff]),
        // A page of the location list, and one of the directory, out of range or past the file.
        words(PAGES_USED, &[0, 1, 3, 4, 5]),
        pages(ENTRIES),
        pages(f.location_word(0)),
        // No count, or not all sizes.
        words(DIRECTORY_SIZE, &[0, 3, 4, 15, 16]),
        // All sizes take 2^32 bytes or more, which is little modulo 2^32.
        words(
            f.directory_word(0),
            &[8, 9, 0x3fff_ffff, 0x4000_0000, 0xffff_ffff],
        ),
        vec![too_many.concat()],
    ]
    .concat()
}

fn stream_refusals() -> Vec<Vec<Run>> {
    let f = Container::f();
    let mut edits = Vec::new();
    // Page numbers that are refused, and one past the file, which is listed.
    for w in 4..9 {
        edits.extend(pages(f.directory_word(w)));
    }
    // Page entries that the directory does not hold: a stream's own, or those before it.
    for size in 17..40 {
        edits.push(vec![word(DIRECTORY_SIZE, size)]);
    }
    for w in 1..4 {
        for &size in &[0, 1, 256, 257, 1280, 1281, 0xffff_fffe, ABSENT] {
            edits.push(vec![word(f.directory_word(w), size)]);
        }
    }
    edits
}

/// Page numbers at a place: out of range, 24 of 24 among them; and 24, which is past the file, with
/// pages_used 25, by which it is legal.
fn pages(at: usize) -> Vec<Vec<Run>> {
    vec![
        vec![word(at, 0)],
        vec![word(at, 24)],
        vec![word(at, 24), word(PAGES_USED, 25)],
        vec![word(at, 25)],
        vec![word(at, 0xffff_ffff)],
    ]
}

/// Files of the greatest length that is listed, and one byte longer.
pub fn longest(random: &mut Random) -> About {
    let mut about = About::new(longest_file(random, LONGEST_LISTED));
    for &length in &[LONGEST_LISTED - 1, LONGEST_LISTED, LONGEST_LISTED + 1] {
        about.ask_listing_around(about.cut(length));
        // The length is checked first.
        let no_magic = Question {
            length,
            ..about.edited(&[word(0, 0)])
        };
        about.ask_listing_around(no_magic);
    }
    about
}

/// A sound file of `length` bytes, whose last pages are streams.
fn longest_file(random: &mut Random, length: usize) -> Vec<u8> {
    let container = Container {
        used: 256,
        length,
        streams: vec![stream(300, &[254, 255]), stream(256, &[255])],
        ..Container::f()
    };
    container.file(random)
}

/// The greatest number of streams that is listed: whole, in parts, and from late places.
pub fn most_streams(random: &mut Random) -> About {
    let mut about = About::new(of_streams(4096).file(random));
    about.ask_listing_around(about.question());
    about.ask_listing(about.question(), Start::Head, PROGRAM_ROOM);
    about.ask_listing(about.question(), Start::Head, 3000);
    for &stream in &[1, 4000, 4094, 4095, 4096] {
        let question = Question {
            stream,
            ..about.question()
        };
        about.ask_listing(question, Start::Stream, 100);
    }
    about
}

/// One more stream.
pub fn too_many_streams(random: &mut Random) -> About {
    let container = of_streams(4097);
    let mut about = About::new(container.file(random));
    about.ask_listing_around(about.question());
    // 7 comes before 11.
    for &size in &[4 + 4 * 4097 - 1, 4 + 4 * 4097] {
        about.ask_listing_around(about.edited(&[word(DIRECTORY_SIZE, size)]));
    }
    about
}

/// A sound container of `count` streams, about 4,096. Most are empty.
fn of_streams(count: usize) -> Container {
    let streams = (0..count)
        .map(|i| match i % 64 {
            0 => stream(ABSENT, &[]),
            9 => stream(300, &[17, 18]),
            33 => stream(257, &[19, 17]),
            _ => stream(0, &[]),
        })
        .collect();
    Container {
        used: 100,
        length: 100 * 0x100,
        entries: vec![5, 6],
        location: (20..90).collect(),
        streams,
        ..Container::f()
    }
}

/// Lines of the greatest length, so that a listing takes more than one of the program's parts.
pub fn long_lines(random: &mut Random) -> About {
    let mut about = About::new(of_long_lines().file(random));
    about.ask_listing(about.question(), Start::Head, PROGRAM_ROOM);
    about
}

/// The directory names page 5, which has sizes, and page 9, which has entries, over and over.
fn of_long_lines() -> Container {
    let mut location = vec![4];
    location.resize(64, 5);
    location.push(8);
    location.resize(129, 9);
    Container {
        entries: vec![3, 6, 7],
        location,
        streams: vec![stream(1, &[0xffff_ffff]); 4096],
        ..Container::f()
    }
}

/// The file whose listing pdb cannot be asked for.
pub fn hostile(_: &mut Random) -> About {
    let streams = hostile::STREAMS[0];
    let mut about = About::new(hostile::file(streams));
    about.ask_listing(about.question(), Start::Head, PROGRAM_ROOM);
    let last = Question {
        stream: streams - 1,
        ..about.question()
    };
    about.ask_listing(last, Start::Stream, 16);
    about
}

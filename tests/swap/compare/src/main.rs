//! Asks pdb 0.8.0, as it is and with the swap applied, the same in one process.
//!
//! compare streams FILE...                   every stream at several limits
//! compare failing FILE...                   streams from sources that fail
//! compare contents FILE...                  modules, symbols, lines and annotations
//! compare containers SEED COUNT FILE...     streams of COUNT damaged containers
//! compare annotations SEED COUNT FILE...    COUNT damaged lists of annotations
//! compare damaged SEED COUNT FILE...        contents of COUNT files with damaged annotations and other bytes
//! compare far                               a container of which the directory is further than memory can reach
//! compare sparse FILE LENGTH OUT            writes the file, grown to LENGTH, with its directory at the end
//! compare memory original|swapped FILE N    reads the first N streams, and shows how much memory that took
//!
//! Prints how many of each kind were compared, a line for each kind. The first differences go to standard error. Exits with 1
//! if there is a difference.

mod asked;
mod container;
mod random;
mod tally;

mod original {
    use ::original as pdb;
    include!("side.rs");
}
mod swapped {
    use ::swapped as pdb;
    include!("side.rs");
}

use asked::{Failure, Question};
use random::Random;
use std::error::Error;
use std::io::{ErrorKind, Seek, SeekFrom, Write};
use std::process::ExitCode;
use std::{env, fs};
use tally::Tally;

type Answer = Result<ExitCode, Box<dyn Error>>;

fn main() -> ExitCode {
    let words: Vec<String> = env::args().skip(1).collect();
    let words: Vec<&str> = words.iter().map(String::as_str).collect();
    run(&words).unwrap_or_else(|why| {
        eprintln!("compare: {why}");
        ExitCode::from(2)
    })
}

fn run(words: &[&str]) -> Answer {
    // Panics are compared, not shown.
    std::panic::set_hook(Box::new(|_| {}));
    match words {
        ["streams", paths @ ..] => streams(paths),
        ["failing", paths @ ..] => failing(paths),
        ["contents", paths @ ..] => contents(paths),
        ["containers", seed, count, paths @ ..] => containers(Random::new(seed.parse()?), count.parse()?, paths),
        ["annotations", seed, count, paths @ ..] => annotations(Random::new(seed.parse()?), count.parse()?, paths),
        ["damaged", seed, count, paths @ ..] => damaged(Random::new(seed.parse()?), count.parse()?, paths),
        ["far"] => far(),
        ["sparse", path, length, out] => sparse(path, length.parse()?, out),
        ["memory", side, path, streams] => memory(side, path, streams.parse()?),
        _ => Err("no such command: see the head of main.rs".into()),
    }
}

/// A broken file may say that it has more streams.
const MOST_STREAMS: u32 = 1 << 16;

fn streams(paths: &[&str]) -> Answer {
    let mut tally = Tally::default();
    for path in paths {
        let file = fs::read(path)?;
        let count = trovespan::stream_count(&file).unwrap_or(0).min(MOST_STREAMS);
        let page = trovespan::open(&file).map_or(4096, |opened| opened.page_size) as usize;
        let limits = [0, 1, page - 1, page, page + 1, 5000, 1 << 20, usize::MAX].map(Some);
        let streams = (0..count).chain([count, count + 1, u32::MAX]);
        let questions: Vec<Question> =
            streams.flat_map(|stream| [None].into_iter().chain(limits).map(move |limit| (stream, limit))).collect();
        tally.add("pdbs", 1);
        tally.add("streams", count as usize);
        tally.streams(path, &file, &questions, None);
    }
    tally.verdict()
}

/// A source fails at one of its first requests.
fn failing(paths: &[&str]) -> Answer {
    let questions = [(1, None), (1, Some(5)), (0, None), (3, Some(0)), (1, None)];
    let kinds = [ErrorKind::UnexpectedEof, ErrorKind::PermissionDenied, ErrorKind::Interrupted].map(Failure::Error);
    let failures = [kinds[0], kinds[1], kinds[2], Failure::Longer];
    let mut tally = Tally::default();
    for path in paths {
        let file = fs::read(path)?;
        for (failure, request) in failures.iter().flat_map(|failure| (0..7).map(move |request| (*failure, request))) {
            tally.add("failing-sources", 1);
            tally.streams(path, &file, &questions, Some((request, failure)));
        }
    }
    tally.verdict()
}

fn contents(paths: &[&str]) -> Answer {
    let mut tally = Tally::default();
    for path in paths {
        tally.contents(path, &fs::read(path)?);
    }
    tally.verdict()
}

/// The bytes of files, but for large ones: a damaged file is a copy.
fn small_files(paths: &[&str]) -> Result<Vec<Vec<u8>>, Box<dyn Error>> {
    const MOST: u64 = 1 << 19;
    let mut files = Vec::new();
    for path in paths {
        if fs::metadata(path)?.len() <= MOST {
            files.push(fs::read(path)?);
        }
    }
    if files.is_empty() {
        return Err("no file of at most 512 KiB is given".into());
    }
    Ok(files)
}

fn containers(mut random: Random, count: usize, paths: &[&str]) -> Answer {
    let files = small_files(paths)?;
    let mut tally = Tally::default();
    for round in 0..count {
        let made = random.one_in(2);
        let mut file = if made { container::make(&mut random) } else { files[random.below(files.len())].clone() };
        let streams = trovespan::stream_count(&file)? as usize;
        // One in eight of the made containers stays sound, so that all its streams are read.
        if !(made && random.one_in(8)) {
            let places = container::places(&file);
            container::damage(&mut file, &places, &mut random);
        }
        let questions: Vec<Question> = (0..8).map(|_| question(streams, &mut random)).collect();
        tally.add("containers", 1);
        tally.streams(&format!("container {round}"), &file, &questions, failure(&mut random));
    }
    tally.verdict()
}

fn question(streams: usize, random: &mut Random) -> Question {
    let stream = match random.below(8) {
        0 => random.pick(&[streams as u32, streams as u32 + 1, u32::MAX]),
        1 | 2 => random.below(4) as u32,
        _ => random.below(streams + 1) as u32,
    };
    let limit = match random.below(6) {
        0..=2 => None,
        3 => Some(random.pick(&[0, 1, 255, 256, 257, 512, 4095, 4096, 4097, usize::MAX])),
        _ => Some(random.below(3000)),
    };
    (stream, limit)
}

fn failure(random: &mut Random) -> Option<(usize, Failure)> {
    let kinds = [ErrorKind::UnexpectedEof, ErrorKind::Other, ErrorKind::TimedOut].map(Failure::Error);
    let failures = [kinds[0], kinds[1], kinds[2], Failure::Longer];
    random.one_in(4).then(|| (random.below(6), random.pick(&failures)))
}

fn annotations(mut random: Random, count: usize, paths: &[&str]) -> Answer {
    let mut lists = Vec::new();
    for file in small_files(paths)? {
        lists.extend(sites(&file).map(|(at, length)| file[at..at + length].to_vec()));
    }
    if lists.is_empty() {
        return Err("no file has an inline site".into());
    }
    let mut tally = Tally::default();
    tally.add("lists", lists.len());
    for round in 0..count {
        let mut list = if random.one_in(8) { Vec::new() } else { lists[random.below(lists.len())].clone() };
        for _ in 0..1 + random.below(4) {
            change(&mut list, &mut random);
        }
        tally.add("damaged-lists", 1);
        tally.annotations(&format!("list {round}"), &list);
    }
    tally.verdict()
}

/// Changes, adds or removes bytes.
fn change(list: &mut Vec<u8>, random: &mut Random) {
    let at = random.below(list.len() + 1);
    match random.below(4) {
        0 => list.truncate(at),
        1 => list.insert(at, byte(random)),
        2 => list.extend([byte(random), byte(random), byte(random)]),
        _ if at < list.len() => list[at] = byte(random),
        _ => {}
    }
}

/// A byte that may begin a number of any form, or be an opcode.
fn byte(random: &mut Random) -> u8 {
    let any = random.next() as u8;
    match random.below(4) {
        0 => any % 16,
        1 => 0x80 | (any % 0x40),
        2 => 0xc0 | (any % 0x40),
        _ => any,
    }
}

fn damaged(mut random: Random, count: usize, paths: &[&str]) -> Answer {
    let files = small_files(paths)?;
    let mut tally = Tally::default();
    for round in 0..count {
        let mut file = files[random.below(files.len())].clone();
        let found: Vec<_> = sites(&file).collect();
        for (at, length) in found {
            if random.one_in(2) {
                file[at + random.below(length)] = byte(&mut random);
            }
        }
        if random.one_in(2) {
            for _ in 0..1 + random.below(100) {
                let at = random.below(file.len());
                file[at] = random.next() as u8;
            }
        }
        tally.add("damaged-files", 1);
        tally.contents(&format!("file {round}"), &file);
    }
    tally.verdict()
}

/// Where the annotations of inline sites are, as far as a record lies in one piece, and how long they are. A record is a
/// length and a kind, of two bytes each, and for S_INLINESITE three words, then the annotations.
fn sites(file: &[u8]) -> impl Iterator<Item = (usize, usize)> + '_ {
    const S_INLINESITE: usize = 0x114d;
    const BEFORE: usize = 14; // counted by the length
    let half = |at: usize| usize::from(file[at]) | usize::from(file[at + 1]) << 8;
    (0..file.len().saturating_sub(512)).step_by(4).filter_map(move |at| {
        let (length, kind) = (half(at), half(at + 2));
        (kind == S_INLINESITE && (BEFORE + 1..400).contains(&length)).then(|| (at + 2 + BEFORE, length - BEFORE))
    })
}

/// The original reads the directory wherever it is. An image would be larger than any memory: that must be an error, each
/// time.
fn far() -> Answer {
    let parts = container::far();
    let parts: Vec<(u64, &[u8])> = parts.iter().map(|(at, bytes)| (*at, bytes.as_slice())).collect();
    let questions = [(0, None), (0, Some(2))];
    let count = |answers: Vec<String>, text: &str| answers.iter().filter(|answer| answer.contains(text)).count();
    println!("far-read {}", count(original::streams(&parts, &questions, None).answers, "bytes"));
    println!("far-refused {}", count(swapped::streams(&parts, &questions, None).answers, "OutOfMemory"));
    Ok(ExitCode::SUCCESS)
}

fn sparse(path: &str, length: u64, out: &str) -> Answer {
    let file = fs::read(path)?;
    let mut written = fs::File::create(out)?;
    written.set_len(length)?;
    for (at, bytes) in container::with_directory_at_end(&file, length) {
        written.seek(SeekFrom::Start(at))?;
        written.write_all(&bytes)?;
    }
    println!("streams {}", trovespan::stream_count(&file)?);
    Ok(ExitCode::SUCCESS)
}

/// Opens a file three times, one after the other, and reads its streams. Prints the number of bytes in all of them, and the
/// most memory that was resident, in KiB.
fn memory(side: &str, path: &str, streams: u32) -> Answer {
    let read_all = match side {
        "original" => original::read_all,
        "swapped" => swapped::read_all,
        _ => return Err("original or swapped".into()),
    };
    let mut bytes = 0;
    for _ in 0..3 {
        bytes += read_all(fs::File::open(path)?, streams)?;
    }
    let status = fs::read_to_string("/proc/self/status")?;
    let peak = status.lines().find_map(|line| line.strip_prefix("VmHWM:")).ok_or("no VmHWM")?;
    println!("bytes {bytes}\npeak {}", peak.trim().trim_end_matches(" kB"));
    Ok(ExitCode::SUCCESS)
}

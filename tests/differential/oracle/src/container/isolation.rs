//! Streams do not leak: pairs of files that agree on the bytes that answers about a stream depend on, and
//! differ elsewhere. They have equal length, or both hold the location list and the directory and no stream is
//! extracted. pdb must answer the same for both, as it is asked for what ours must answer.

use std::io::{self, Write};

use super::files::SMALL_MAGIC;
use super::list::{self, Record, LONGEST_FILE};
use super::listed::{listed, other_pages};
use super::live::live;
use super::pdb::Wanted;
use super::question::{Question, COUNT, EXTRACT, LOCATION_LIST, MAP, OPEN, STAGES};
use super::steps::held;
use crate::random::Random;

/// A pair is four records: each file as a base file, and the question about it.
const RECORDS: usize = 4;

struct Pair {
    question: Question,
    first: Vec<u8>,
    second: Vec<u8>,
}

/// The totals of a list of pairs.
#[derive(Default)]
struct Figures {
    pairs: usize,
    bytes: usize,
    changed: usize,
    /// The pairs whose files differ in length.
    lengths: usize,
    /// The pairs for which pdb's answers differ.
    leaks: Vec<usize>,
}

/// Writes the list of `count` pairs.
pub fn write(seed: u64, count: u64, out: &mut impl Write) -> io::Result<()> {
    judged(seed, count, |records| {
        list::write(records, out)?;
        out.flush()
    })
}

/// Passes on the records of `count` pairs, made from the files of a live list. Says how many bytes differ
/// in them. Stops if pdb's answers differ, or if there are not as many pairs.
pub fn judged<T>(
    seed: u64,
    count: u64,
    take: impl FnOnce(&mut dyn Iterator<Item = Record>) -> T,
) -> T {
    let mut random = Random::new(!seed);
    let mut figures = Figures::default();
    let mut records = files(seed, count)
        .filter_map(|(mut file, question)| {
            put_small_magic(&mut random, &mut file);
            pair(&mut random, file, question)
        })
        .take(count as usize)
        .flat_map(|pair| {
            figures.add(&pair);
            pair.records()
        });
    let taken = take(&mut records);
    drop(records);
    figures.judge(count);
    taken
}

/// The files of a live list, sound and damaged, each with its question.
fn files(seed: u64, count: u64) -> impl Iterator<Item = (Vec<u8>, Question)> {
    let mut base = Vec::new();
    live(seed, count).filter_map(move |record| match record {
        Record::Base(file) => {
            base = file;
            None
        }
        Record::Question(question) => {
            let file = question.files(&base).pop()?;
            let edits = Vec::new();
            Some((file, Question { edits, ..question }))
        }
    })
}

/// A live file has the big magic. Some get the small one, and some of these a flipped bit.
fn put_small_magic(random: &mut Random, file: &mut [u8]) {
    if file.len() < SMALL_MAGIC.len() || !random.one_in(32) {
        return;
    }
    file[..SMALL_MAGIC.len()].copy_from_slice(SMALL_MAGIC);
    if random.one_in(2) {
        file[random.below(SMALL_MAGIC.len())] ^= 1 << random.below(8);
    }
}

/// The operations asked for: one whose list the pair agrees on, and those before it, whose lists are
/// parts of that list. In a pair for mapping the stream's own bytes are off the list.
fn asked(random: &mut Random) -> u8 {
    match random.below(8) {
        0 => OPEN | LOCATION_LIST,
        1 => OPEN | STAGES,
        2 => OPEN | STAGES | COUNT,
        3 | 4 => OPEN | STAGES | COUNT | MAP,
        _ => OPEN | STAGES | COUNT | MAP | EXTRACT,
    }
}

/// The file, and a copy in which every byte off the list is changed, or every such byte in the pages of
/// other streams. `None` if there is no such byte.
fn pair(random: &mut Random, first: Vec<u8>, question: Question) -> Option<Pair> {
    let question = Question {
        operations: asked(random),
        ..question
    };
    let kept = listed(&first, &question);
    let mut places: Vec<usize> = (0..first.len()).filter(|&at| !kept.has(at)).collect();
    if random.one_in(2) {
        let others = other_pages(&first, question.stream);
        places.retain(|&at| others.has(at));
    }
    if places.is_empty() {
        return None;
    }
    let mut second = first.clone();
    for at in places {
        second[at] ^= 1 + random.below(255) as u8;
    }
    if question.operations & EXTRACT == 0 && random.one_in(2) {
        change_length(random, &first, &mut second);
    }
    Some(Pair {
        question,
        first,
        second,
    })
}

/// Cuts the second file of a pair, at the earliest where the first one's directory ends, or extends it. Without
/// a directory that ends in the file its length stays.
fn change_length(random: &mut Random, first: &[u8], second: &mut Vec<u8>) {
    if let Some(held) = held(first) {
        let length = match random.below(4) {
            0 => held,
            1 => first.len() + random.below(LONGEST_FILE + 1 - first.len()),
            _ => held + random.below(first.len() + 1 - held),
        };
        second.truncate(length);
        second.resize_with(length, || random.byte());
    }
}

impl Pair {
    fn changed(&self) -> usize {
        let bytes = self.first.iter().zip(&self.second);
        bytes.filter(|(first, second)| first != second).count()
    }

    fn leaks(&self) -> bool {
        let wanted = |file| self.question.answers::<Wanted>(file);
        wanted(&self.first) != wanted(&self.second)
    }

    fn records(self) -> Vec<Record> {
        let length = self.second.len();
        vec![
            Record::Base(self.first),
            Record::Question(self.question.clone()),
            Record::Base(self.second),
            Record::Question(Question {
                length,
                ..self.question
            }),
        ]
    }
}

impl Figures {
    fn add(&mut self, pair: &Pair) {
        if pair.leaks() {
            self.leaks.push(self.pairs);
        }
        self.pairs += 1;
        self.bytes += pair.first.len();
        self.changed += pair.changed();
        self.lengths += usize::from(pair.first.len() != pair.second.len());
    }

    fn judge(&self, count: u64) {
        eprintln!(
            "oracle: {} pairs, {} of {} bytes changed, {} other lengths",
            self.pairs, self.changed, self.bytes, self.lengths
        );
        if let Some(first) = self.leaks.first() {
            crate::stop(&format!(
                "pdb answers differently of {} pairs, first pair {} (records {} and {})",
                self.leaks.len(),
                first,
                RECORDS * first + 1,
                RECORDS * first + 3
            ));
        }
        if self.changed == 0 || (self.pairs as u64) < count {
            crate::stop("there are not as many pairs whose bytes differ");
        }
        if self.lengths == 0 && count >= 100 {
            crate::stop("there is no pair whose lengths differ");
        }
    }
}

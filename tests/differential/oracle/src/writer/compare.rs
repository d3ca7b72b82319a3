//! Our answers about writing beside the reckoned ones, and our bytes as pdb and ours read them.

use std::fmt;

use super::answers::Outcome;
use super::list::{Question, RECORD_ENTRIES};
use super::ours::{decode, Ours};
use super::reckoning::{decoded, Reckoning};
use super::show::{asked, numbers};
use crate::annotations::read_whole;
use crate::compare::Comparison;
use crate::digest::Word::{self, Signed};

/// What a part of an answer is about.
#[derive(PartialEq)]
enum Part {
    /// Writing into a store of that many bytes, and the whole store after it.
    Room(usize),
    /// What pdb reads in the bytes that were written.
    ReadByPdb,
    /// What our decoder reads in them.
    ReadByOurs,
}

impl fmt::Display for Part {
    fn fmt(&self, f: &mut fmt::Formatter<'_>) -> fmt::Result {
        match self {
            Part::Room(room) => write!(f, "room {}", room),
            Part::ReadByPdb => write!(f, "read by pdb"),
            Part::ReadByOurs => write!(f, "read by ours"),
        }
    }
}

/// Counts the annotations of the lists that ours wrote, and pdb and ours read.
pub fn compare(questions: impl Iterator<Item = Question>, comparison: &mut Comparison) {
    for (n, question) in questions.enumerate() {
        let list = &question.list;
        let count = list.len() / RECORD_ENTRIES;
        let (mut ours, mut wanted) = (Vec::new(), Vec::new());
        let mut written = 0;
        for room in question.low..=question.high {
            let our = Outcome::of::<Ours>(list, room);
            let reckoned = Outcome::of::<Reckoning>(list, room);
            ours.push((Part::Room(room), our.words()));
            wanted.push((Part::Room(room), reckoned.words()));
            if reckoned.result.is_ok() {
                let bytes = front(&our);
                ours.push((Part::ReadByPdb, entries(read_whole(bytes))));
                ours.push((Part::ReadByOurs, entries(decode(bytes, count))));
                wanted.push((Part::ReadByPdb, entries(Some(decoded(list)))));
                wanted.push((Part::ReadByOurs, entries(Some(decoded(list)))));
                written = count;
            }
        }
        comparison.check(n, ours, wanted, || {
            format!("{}\n{}\n", asked(&question), numbers(list))
        });
        comparison.count(written);
    }
}

/// The bytes that were written, empty if the store has not so many.
fn front(outcome: &Outcome) -> &[u8] {
    let length = outcome.result.unwrap_or(0);
    outcome.store.get(..length).unwrap_or_default()
}

/// The store entries that were read, empty if not all bytes could be.
fn entries(read: Option<Vec<i64>>) -> Vec<Word> {
    read.unwrap_or_default().into_iter().map(Signed).collect()
}

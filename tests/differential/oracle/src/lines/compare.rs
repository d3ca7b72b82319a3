//! Our answers about line programs beside the reckoned ones, and the records that the crate reads in our stores.

use std::fmt;

use super::answers::Outcome;
use super::list::Question;
use super::ours::{read, Ours};
use super::reckoning::{Reckoning, ENTRIES_EACH};
use super::show::{asked, program};
use super::tally::Tally;
use crate::compare::Comparison;
use crate::digest::Word::Signed;

/// What a part of an answer is about.
#[derive(PartialEq)]
enum Part {
    /// Running with a store of that many entries, and the whole store after it.
    Room(usize),
    /// The records that the crate reads in the store.
    Records,
}

impl fmt::Display for Part {
    fn fmt(&self, f: &mut fmt::Formatter<'_>) -> fmt::Result {
        match self {
            Part::Room(room) => write!(f, "room {}", room),
            Part::Records => write!(f, "records that the crate reads"),
        }
    }
}

/// Counts the programs, and says what answers they have.
pub fn compare(questions: impl Iterator<Item = Question>, comparison: &mut Comparison) {
    let mut tally = Tally::default();
    for (n, question) in questions.enumerate() {
        let (mut ours, mut wanted) = (Vec::new(), Vec::new());
        for room in question.low..=question.high {
            let our = Outcome::of::<Ours>(&question.bytes, room);
            let reckoned = Outcome::of::<Reckoning>(&question.bytes, room);
            ours.push((Part::Room(room), our.words()));
            wanted.push((Part::Room(room), reckoned.words()));
            if reckoned.result.is_ok() {
                let entries = front(&reckoned).iter().map(|&z| Signed(z)).collect();
                ours.push((Part::Records, read(front(&our))));
                wanted.push((Part::Records, entries));
            }
        }
        comparison.compare(n, ours, wanted, || {
            format!("{}\n{}\n", asked(&question), program(&question.bytes))
        });
        tally.take(&question.bytes);
    }
    tally.say();
}

/// The entries that were written, empty if the store has not so many.
fn front(outcome: &Outcome) -> &[i64] {
    let entries = outcome.result.map_or(0, |count| ENTRIES_EACH * count);
    outcome.store.get(..entries).unwrap_or_default()
}

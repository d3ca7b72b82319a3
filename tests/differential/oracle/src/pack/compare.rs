//! Our answers about writing containers beside the reckoned ones, and our files as pdb and our library read them.

use std::fmt;

use super::answers::{in_eights, Outcome};
use super::ours::Packing;
use super::question::Question;
use super::reading::{self, given, read, Parts};
use super::reckoning::Reckoning;
use super::show::asked;
use crate::compare::Comparison;
use crate::container::{Ours, Wanted};
use crate::digest::Word;

/// What a part of an answer is about.
#[derive(PartialEq)]
enum Part {
    /// Writing into a store of that many bytes.
    Room(usize),
    /// The whole store after it.
    Store,
    /// What pdb, or our library, reads in the file.
    Read(&'static str, reading::Part),
}

impl fmt::Display for Part {
    fn fmt(&self, f: &mut fmt::Formatter<'_>) -> fmt::Result {
        match self {
            Part::Room(room) => write!(f, "room {}", room),
            Part::Store => write!(f, "its length and its bytes, eight a word"),
            Part::Read(by, part) => write!(f, "read by {}, {}", by, part),
        }
    }
}

type Answer = Vec<(Part, Vec<Word>)>;

/// Counts the streams of the files that ours wrote and both read.
pub fn compare(questions: impl Iterator<Item = Question>, comparison: &mut Comparison) {
    for (n, question) in questions.enumerate() {
        let (our, reckoned) = (
            question.outcomes::<Packing>(),
            question.outcomes::<Reckoning>(),
        );
        let (mut ours, mut wanted) = (written(&our), written(&reckoned));
        let mut streams = 0;
        if let Some(length) = reckoned.iter().find_map(|outcome| outcome.result.ok()) {
            let file = our.iter().find_map(Outcome::file).unwrap_or(&[]);
            ours.extend(named("pdb", read::<Wanted>(&question, file)));
            ours.extend(named("ours", read::<Ours>(&question, file)));
            wanted.extend(named("pdb", given(&question, length)));
            wanted.extend(named("ours", given(&question, length)));
            streams = reading::count(&question);
        }
        comparison.check(n, ours, wanted, || format!("{}\n", asked(&question)));
        comparison.count(streams);
    }
}

/// The result and the whole store, in each room.
fn written(outcomes: &[Outcome]) -> Answer {
    let parts = |outcome: &Outcome| {
        vec![
            (Part::Room(outcome.store.len()), outcome.result_words()),
            (Part::Store, in_eights(&outcome.store)),
        ]
    };
    outcomes.iter().flat_map(parts).collect()
}

fn named(by: &'static str, parts: Parts) -> impl Iterator<Item = (Part, Vec<Word>)> {
    let part = move |(part, words)| (Part::Read(by, part), words);
    parts.into_iter().map(part)
}

//! Our answers about containers beside those that they must be.

use super::answers::Answer;
use super::list::Record;
use super::ours::Ours;
use super::question::{Question, LIST};
use super::show::{asked, name, swept};
use super::tally::Tally;
use crate::compare::Comparison;

/// Compares the answers to these records, without the listings, which our crate does not have. Leaves out
/// what pdb cannot be asked, and says how many answers there are.
pub fn compare(records: impl Iterator<Item = Record>, comparison: &mut Comparison) {
    let mut base = Vec::new();
    let mut tally = Tally::default();
    for (n, record) in records.enumerate() {
        match record {
            Record::Base(file) => base = file,
            Record::Question(mut question) => {
                question.operations &= !LIST;
                if question.operations == 0 {
                    continue;
                }
                for (i, file) in question.files(&base).iter().enumerate() {
                    let (ours, wanted) = both(&question, file, &mut tally);
                    comparison.compare(n, ours, wanted, || {
                        asked(&question, &base) + &swept(&question, i)
                    });
                }
            }
        }
    }
    tally.say();
}

type Answers = Vec<(&'static str, Answer)>;

/// Our answers and what they must be, where pdb can be asked.
fn both(question: &Question, file: &[u8], tally: &mut Tally) -> (Answers, Answers) {
    let ours = question.answers::<Ours>(file);
    let wanted = tally.wanted(question, file);
    ours.into_iter()
        .zip(wanted)
        .filter_map(|((operation, ours), (_, wanted))| {
            let name = name(operation);
            Some(((name, ours?), (name, wanted?)))
        })
        .unzip()
}

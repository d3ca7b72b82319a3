//! Our answers about annotations beside pdb's.

use super::list::Question;
use super::ours::Ours;
use super::pdb::Pdb;
use super::show::{asked, hex};
use crate::compare::Comparison;

pub fn compare(questions: impl Iterator<Item = Question>, comparison: &mut Comparison) {
    for (n, question) in questions.enumerate() {
        for bytes in question.strings() {
            let ours = question.answer::<Ours>(&bytes);
            let theirs = question.answer::<Pdb>(&bytes);
            comparison.compare(n, ours, theirs, || {
                format!("{}\n{}\n", asked(&question), hex(&bytes))
            });
        }
    }
}

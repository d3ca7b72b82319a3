//! The answers that ours must give, counted.

use super::answers::Answer;
use super::pdb::{Pdb, Wanted};
use super::question::Question;

#[derive(Default)]
pub struct Tally {
    answers: usize,
    /// Those that pdb does not give about the file itself.
    changed: usize,
    /// What pdb cannot be asked.
    skipped: usize,
}

impl Tally {
    /// The answers about a file, operation by operation. `None` if pdb cannot be asked.
    pub fn wanted(&mut self, question: &Question, file: &[u8]) -> Vec<(u8, Option<Answer>)> {
        let wanted = question.answers::<Wanted>(file);
        for (wanted, own) in wanted.iter().zip(question.answers::<Pdb>(file)) {
            match wanted.1 {
                None => self.skipped += 1,
                Some(_) => {
                    self.answers += 1;
                    self.changed += usize::from(*wanted != own);
                }
            }
        }
        wanted
    }

    pub fn say(&self) {
        if self.skipped > 0 {
            eprintln!(
                "oracle: skipped {} answers, of over 1 GiB each",
                self.skipped
            );
        }
        eprintln!(
            "oracle: request 2026-03 changed {} of {} answers",
            self.changed, self.answers
        );
    }
}

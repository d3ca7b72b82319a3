//! A question of a list: with the digest of the answers that ours must give, and without what pdb cannot be
//! asked.

use super::question::{Question, Sweep};
use super::tally::Tally;
use crate::digest::Digest;

/// A question that pdb can be asked, and the digest of the answers.
pub struct Asked {
    pub question: Question,
    pub digest: Digest,
}

/// The question without the operations that pdb cannot be asked. A sweep becomes a question for each run
/// of values at which pdb can be asked for the same operations.
pub fn asked(question: &Question, base: &[u8], tally: &mut Tally) -> Vec<Asked> {
    let mut pieces: Vec<Asked> = Vec::new();
    for (i, file) in question.files(base).iter().enumerate() {
        let answers = tally.wanted(question, file);
        let operations = answers
            .iter()
            .filter(|(_, answer)| answer.is_some())
            .fold(0, |sum, (operation, _)| sum | operation);
        match pieces.last_mut() {
            Some(piece) if piece.question.operations == operations => piece.go_on(),
            _ => pieces.push(Asked::at(question, operations, i)),
        }
        let piece = pieces.last_mut().expect("one was pushed");
        for words in answers.iter().filter_map(|(_, answer)| answer.as_ref()) {
            piece.digest.mix_all(words);
        }
    }
    pieces.retain(|piece| piece.question.operations != 0);
    pieces
}

impl Asked {
    /// The question at its `i`th file alone.
    fn at(question: &Question, operations: u8, i: usize) -> Self {
        let sweep = question.sweep.map(|sweep| Sweep {
            first: sweep.first + i as u8,
            last: sweep.first + i as u8,
            ..sweep
        });
        Asked {
            question: Question {
                operations,
                sweep,
                ..question.clone()
            },
            digest: Digest::default(),
        }
    }

    fn go_on(&mut self) {
        if let Some(sweep) = &mut self.question.sweep {
            sweep.last += 1;
        }
    }
}

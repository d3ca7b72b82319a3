//! Asks our library and pdb the same questions, in one process, and compares the answers word by word.

use std::fmt::Display;
use std::io::{self, Write};

use crate::digest::{text, Word};

/// The parts of an answer, each with its name and its words.
type Answer<P> = Vec<(P, Vec<Word>)>;

/// Which questions are compared, and how many have been.
pub struct Comparison {
    /// The record whose answer from our library is made wrong, to check that this is found.
    altered: Option<usize>,
    questions: usize,
}

impl Comparison {
    pub fn new(altered: Option<usize>) -> Self {
        Comparison {
            altered,
            questions: 0,
        }
    }

    /// Compares both answers to a question of a record, and counts it if it has an answer.
    pub fn compare<P: Display + PartialEq>(
        &mut self,
        record: usize,
        ours: Answer<P>,
        theirs: Answer<P>,
        question: impl FnOnce() -> String,
    ) {
        let answered = !theirs.is_empty();
        self.check(record, ours, theirs, question);
        self.count(usize::from(answered));
    }

    /// Compares both answers to a question of a record. Prints the first difference, with the question,
    /// and ends the program.
    pub fn check<P: Display + PartialEq>(
        &self,
        record: usize,
        mut ours: Answer<P>,
        theirs: Answer<P>,
        question: impl FnOnce() -> String,
    ) {
        if self.altered == Some(record) {
            alter(&mut ours);
        }
        if ours != theirs {
            print!("record {}: {}", record, question());
            print!("{}", difference(&ours, &theirs));
            std::process::exit(1);
        }
    }

    pub fn count(&mut self, questions: usize) {
        self.questions += questions;
    }

    /// Prints how many questions were compared.
    pub fn report(&self, out: &mut impl Write) -> io::Result<()> {
        writeln!(out, "questions {}\ndiffer 0", self.questions)
    }
}

/// Makes the last word wrong: the last entry of the last store, or a number.
fn alter<P>(answer: &mut Answer<P>) {
    let last = answer.last_mut().and_then(|(_, words)| words.last_mut());
    match last.expect("no answer is empty") {
        Word::Plain(w) => *w ^= 1,
        Word::Signed(z) => *z ^= 1,
        Word::Byte(b) => *b ^= 1,
    }
}

/// The first part in which the answers differ, from both, and the index of its first word that differs.
fn difference<P: Display + PartialEq>(ours: &Answer<P>, theirs: &Answer<P>) -> String {
    let part = same(ours, theirs);
    let word = match (ours.get(part), theirs.get(part)) {
        (Some((_, ours)), Some((_, theirs))) => same(ours, theirs),
        _ => 0,
    };
    let shown = |answer: &Answer<P>| match answer.get(part) {
        Some((name, words)) => format!("{}: {}", name, around(words, word)),
        None => "nothing".to_string(),
    };
    format!(
        "  ours, {}\n  wanted, {}\n  they part at word {}, from 0\n",
        shown(ours),
        shown(theirs),
        word
    )
}

/// The words of a part around one of them, since a part may be very long.
fn around(words: &[Word], word: usize) -> String {
    const SHOWN: usize = 1000;
    let from = word.saturating_sub(SHOWN);
    let to = words.len().min(word + SHOWN);
    let dots = |left_out| if left_out { ".." } else { "" };
    let shown = text(&words[from..to]);
    format!("{}{}{}", dots(from > 0), shown, dots(to < words.len()))
}

/// The length of the common prefix of two lists.
fn same<T: PartialEq>(ours: &[T], theirs: &[T]) -> usize {
    ours.iter().zip(theirs).take_while(|(a, b)| a == b).count()
}

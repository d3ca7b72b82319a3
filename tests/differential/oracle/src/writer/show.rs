//! A record and the reckoned answers as text, to look into a difference.

use super::list::{self, Question, LONGEST, RECORD_ENTRIES};
use crate::digest::text as words;

pub fn record(list: &[u8], n: usize) -> String {
    let (question, recorded) = list::record(list, n);
    let mut text = format!(
        "record {}: {}\nrecorded {:?}\nreckoned {:?}\n{}\n",
        n,
        asked(&question),
        recorded,
        question.digest(),
        numbers(&question.list),
    );
    for (room, outcome) in question.reckoned() {
        text += &format!("  room {}: {}\n", room, words(&outcome.words()));
    }
    text
}

/// The question, without its list.
pub fn asked(question: &Question) -> String {
    format!(
        "{} numbers, rooms {} to {}",
        question.list.len(),
        question.low,
        question.high,
    )
}

/// The list, at most as much of it as a question of a list has: a semicolon after each annotation.
pub fn numbers(list: &[i64]) -> String {
    let shown = list.chunks(RECORD_ENTRIES).take(LONGEST);
    let records: Vec<String> = shown
        .map(|record| {
            let numbers: Vec<String> = record.iter().map(i64::to_string).collect();
            numbers.join(" ")
        })
        .collect();
    format!("list {}", records.join("; "))
}

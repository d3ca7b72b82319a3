//! A record and the reckoned answers as text, to look into a difference.

use super::list::{self, Question};
use super::reckoning;
use crate::annotations::{hex, read_front};
use crate::digest::text as words;

pub fn record(list: &[u8], n: usize) -> String {
    let (question, recorded) = list::record(list, n);
    let mut text = format!(
        "record {}: {}\nrecorded {:?}\nreckoned {:?}\n{}\n",
        n,
        asked(&question),
        recorded,
        question.digest(),
        program(&question.bytes),
    );
    for (room, outcome) in question.reckoned() {
        text += &format!("  room {}: {}\n", room, words(&outcome.words()));
    }
    text
}

/// The question, without its bytes.
pub fn asked(question: &Question) -> String {
    format!(
        "{} bytes, rooms {} to {}",
        question.bytes.len(),
        question.low,
        question.high,
    )
}

/// The bytes, the annotations that pdb reads in them, and what is reckoned of them; not all if there are many.
pub fn program(bytes: &[u8]) -> String {
    const SHOWN: usize = 200;
    let (annotations, _) = read_front(bytes);
    let mut text = hex(bytes);
    for (i, annotation) in annotations.iter().enumerate().take(SHOWN) {
        text += &format!("\n  annotation {}: {:?}", i, annotation);
    }
    match reckoning::records(bytes) {
        Err(why) => text += &format!("\n  {:?}", why),
        Ok(records) => {
            for (k, record) in records.iter().enumerate().take(SHOWN) {
                text += &format!("\n  record {}: {:?}", k, record);
            }
        }
    }
    text
}

//! A record and pdb's answers as text, to look into a difference.

use std::fmt::Write;

use super::list::{self, Question, LONGEST};
use super::pdb::Pdb;
use crate::digest::text as words;

pub fn record(list: &[u8], n: usize) -> String {
    let (question, recorded) = list::record(list, n);
    let mut text = format!(
        "record {}: {}\nrecorded {:?}\nthe Rust {:?}\n",
        n,
        asked(&question),
        recorded,
        question.digest(),
    );
    for bytes in question.strings() {
        show_answers(&question, &bytes, &mut text).expect("a string takes all text");
    }
    text
}

/// The question, without its bytes.
pub fn asked(question: &Question) -> String {
    format!(
        "{} bytes, place {}, rooms {} to {}{}",
        question.bytes.len(),
        question.at,
        question.low,
        question.high,
        if question.sweep { ", sweep" } else { "" },
    )
}

/// The bytes, at most as many as a question of a list has.
pub fn hex(bytes: &[u8]) -> String {
    let shown = bytes.iter().take(LONGEST);
    let hex: Vec<String> = shown.map(|b| format!("{:02x}", b)).collect();
    format!("bytes {}", hex.join(" "))
}

fn show_answers(question: &Question, bytes: &[u8], text: &mut String) -> std::fmt::Result {
    writeln!(text, "{}", hex(bytes))?;
    for (part, answer) in question.answer::<Pdb>(bytes) {
        writeln!(text, "  {}: {}", part, words(&answer))?;
    }
    Ok(())
}

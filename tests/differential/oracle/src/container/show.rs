//! A question and the answers that ours must give, as text, to look into a difference.

use std::fmt::Write;

use super::list;
use super::listing::whole;
use super::pdb::Wanted;
use super::question::{Question, COUNT, DIRECTORY, EXTRACT, LIST, LOCATION_LIST, MAP, OPEN};
use crate::digest::{text, Digest};

pub fn record(list: &[u8], n: usize) -> String {
    let (question, base, recorded) = list::record(list, n);
    let mut shown = String::new();
    show(n, &question, &base, recorded, &mut shown).expect("a string takes all text");
    shown
}

fn show(
    n: usize,
    question: &Question,
    base: &[u8],
    recorded: Digest,
    out: &mut String,
) -> std::fmt::Result {
    write!(out, "record {}: {}", n, asked(question, base))?;
    writeln!(out, "a listing from {:?} on", question.from)?;
    let mut digest = Digest::default();
    for (i, file) in question.files(base).iter().enumerate() {
        out.push_str(&swept(question, i));
        for (operation, answer) in question.answers::<Wanted>(file) {
            let words = answer.unwrap_or_default();
            digest.mix_all(&words);
            writeln!(out, "  {}: {}", name(operation), text(&words))?;
            if operation == LIST {
                writeln!(out, "  listing:\n{}", whole(file))?;
            }
        }
    }
    writeln!(out, "recorded {:?}\nwanted {:?}", recorded, digest)
}

/// The question and its base file, without the listing.
pub fn asked(question: &Question, base: &[u8]) -> String {
    let mut text = format!(
        "a base file of {} bytes, asked at {}\n",
        base.len(),
        question.length
    );
    for edit in &question.edits {
        text += &format!("edit at {}: {:02x?}\n", edit.at, edit.bytes);
    }
    text + &format!(
        "stream {}, limit {:?}, {:?}\n",
        question.stream, question.limit, question.rooms
    )
}

/// The byte that a sweep has at the question's `i`th file.
pub fn swept(question: &Question, i: usize) -> String {
    match question.sweep {
        None => String::new(),
        Some(sweep) => format!(
            "byte {} is {:02x}\n",
            sweep.at,
            usize::from(sweep.first) + i
        ),
    }
}

pub fn name(operation: u8) -> &'static str {
    match operation {
        OPEN => "open",
        COUNT => "count",
        MAP => "map",
        EXTRACT => "extract",
        LIST => "list",
        LOCATION_LIST => "location list",
        DIRECTORY => "directory",
        _ => "unknown",
    }
}

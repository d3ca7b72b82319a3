//! A record and the reckoned answers as text, to look into a difference.

use super::answers::Outcome;
use super::list;
use super::pages::Role;
use super::question::Question;
use super::reckoning::{Layout, Reckoning};
use crate::digest::text as words;

pub fn record(list: &[u8], n: usize) -> String {
    let (question, recorded) = list::record(list, n);
    let mut text = format!(
        "record {}: {}\nrecorded {:?}\nreckoned {:?}\n",
        n,
        asked(&question),
        recorded,
        question.digest(),
    );
    let outcomes = question.outcomes::<Reckoning>();
    for outcome in &outcomes {
        let result = words(&outcome.result_words());
        text += &format!("  room {}: {}\n", outcome.store.len(), result);
    }
    if let Some(file) = outcomes.iter().find_map(Outcome::file) {
        text += &pages(&question, file);
    }
    text
}

/// The question.
pub fn asked(question: &Question) -> String {
    const SHOWN: usize = 200;
    let dots = if question.sizes.len() > SHOWN {
        " .."
    } else {
        ""
    };
    let sizes: Vec<String> = question
        .sizes
        .iter()
        .take(SHOWN)
        .map(u32::to_string)
        .collect();
    format!(
        "page size {}, {} bytes, rooms {} to {}, {} sizes: {}{}",
        question.page_size,
        question.length,
        question.low,
        question.high,
        question.sizes.len(),
        sizes.join(" "),
        dots,
    )
}

/// Each page: its number, what it is for, and its bytes up to the last that is not 0.
fn pages(question: &Question, file: &[u8]) -> String {
    let layout = Layout::new(question.page_size, &question.sizes, question.length);
    let roles: Vec<Role> = layout.map_or(Vec::new(), |layout| layout.roles);
    let pages = file.chunks_exact(question.page_size as usize).zip(roles);
    let shown = pages.enumerate().map(|(n, (page, role))| {
        let used = page
            .iter()
            .rposition(|&b| b != 0)
            .map_or(0, |last| last + 1);
        format!("  page {}, {:?}: {:02x?}\n", n, role, &page[..used])
    });
    shown.collect()
}

//! A record and pdb's answers as text, to look into a difference.

use super::list;
use crate::digest::text as words;

pub fn record(list: &[u8], n: usize) -> String {
    let (question, recorded) = list::record(list, n);
    let hex: Vec<String> = question
        .bytes
        .iter()
        .map(|b| format!("{:02x}", b))
        .collect();
    let mut text = format!(
        "record {}: {} bytes, places {} to {}, counts {} to {}\nrecorded {:?}\nthe Rust {:?}\nbytes {}\n",
        n,
        question.bytes.len(),
        question.first,
        question.last,
        question.fewest,
        question.most,
        recorded,
        question.digest(),
        hex.join(" "),
    );
    for (asked, answer) in question.answers() {
        text += &format!("  {}: {}\n", asked, words(&answer));
    }
    text
}

//! Our library's answers, through the crate `trovespan`.

use super::answers::{Refused, Runner};
use crate::digest::Word::{self, Plain, Signed};

pub struct Ours;

impl Runner for Ours {
    fn run(bytes: &[u8], store: &mut [i64]) -> Result<usize, Refused> {
        trovespan::run_lines(bytes, store).map_err(|why| {
            let refusal = (u64::from(why.refusal.number), why.refusal.value);
            (refusal, why.place)
        })
    }
}

/// The records that the crate reads in a store: eight numbers each, or a word that no record has.
pub fn read(store: &[i64]) -> Vec<Word> {
    let records = trovespan::line_records(store);
    records
        .flat_map(|record| match record {
            Some(record) => numbers(&record),
            None => vec![Plain(0)],
        })
        .collect()
}

fn numbers(record: &trovespan::LineRecord) -> Vec<Word> {
    let numbers = [
        i64::from(record.offset),
        record.length.map_or(-1, i64::from),
        i64::from(record.file),
        record.line,
        i64::from(record.line_count),
        i64::from(record.kind),
        i64::from(record.start_column),
        record.end_column,
    ];
    numbers.iter().map(|&z| Signed(z)).collect()
}

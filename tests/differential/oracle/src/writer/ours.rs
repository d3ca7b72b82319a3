//! Our library's answers, through the crate `trovespan`.

use super::answers::Writer;
use crate::annotations::{Refusal, ENTRIES_EACH};

pub struct Ours;

impl Writer for Ours {
    fn write(list: &[i64], store: &mut [u8]) -> Result<usize, Refusal> {
        trovespan::write_annotations(list, store).map_err(|why| (u64::from(why.number), why.value))
    }
}

/// What our decoder makes of the bytes of `count` annotations, if they are that many.
pub fn decode(bytes: &[u8], count: usize) -> Option<Vec<i64>> {
    let mut store = vec![0; ENTRIES_EACH * count];
    (trovespan::decode(bytes, &mut store) == Ok(count)).then_some(store)
}

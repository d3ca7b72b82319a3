//! Our library's answers about a container, through the crate `trovespan`. It always answers.

use super::answers::{Library, Refusal, Stage};

pub struct Ours;

impl Library for Ours {
    fn open(file: &[u8]) -> Result<(u64, u64), Refusal> {
        let opened = trovespan::open(file).map_err(refusal)?;
        Ok((u64::from(opened.page_size), u64::from(opened.pages_used)))
    }

    fn count(file: &[u8]) -> Option<Result<u64, Refusal>> {
        let counted = trovespan::stream_count(file).map_err(refusal);
        Some(counted.map(u64::from))
    }

    fn map(
        file: &[u8],
        stream: u32,
        limit: Option<usize>,
        offsets: &mut [u64],
        sizes: &mut [u64],
    ) -> Option<Result<(usize, usize), Refusal>> {
        let mapped = trovespan::map(file, stream, limit, offsets, sizes).map_err(refusal);
        Some(mapped.map(|mapped| (mapped.slices, mapped.length)))
    }

    fn extract(
        file: &[u8],
        stream: u32,
        limit: Option<usize>,
        out: &mut [u8],
    ) -> Option<Result<usize, Refusal>> {
        Some(trovespan::extract(file, stream, limit, out).map_err(refusal))
    }

    fn need(
        file: &[u8],
        stage: Stage,
        offsets: &mut [u64],
        sizes: &mut [u64],
    ) -> Result<(usize, usize), Refusal> {
        let stage = match stage {
            Stage::LocationList => trovespan::Stage::LocationList,
            Stage::Directory => trovespan::Stage::Directory,
        };
        let needed = trovespan::needed_to_map(file, stage, offsets, sizes).map_err(refusal);
        needed.map(|needed| (needed.slices, needed.length))
    }
}

fn refusal(why: trovespan::Refusal) -> Refusal {
    (u64::from(why.number), why.value)
}

//! Our library's answers, through the crate `trovespan`.

use super::answers::Packer;
use crate::container::Refusal;

pub struct Packing;

impl Packer for Packing {
    fn pack(
        page_size: u32,
        sizes: &[u32],
        bytes: &[u8],
        store: &mut [u8],
    ) -> Result<usize, Refusal> {
        let written = trovespan::write_container(page_size, sizes, bytes, store);
        written.map_err(|why| (u64::from(why.number), why.value))
    }
}

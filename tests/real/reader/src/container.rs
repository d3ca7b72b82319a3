//! The container, by `open`, `stream_count`, `map` and `extract`, in the words of
//! `llvm-pdbutil dump --summary --streams --stream-blocks`.

use std::fmt::Write;

use trovespan::{Opened, Refusal};

use crate::totals::Totals;

/// A stream's bytes, or `None` if it is absent.
pub type Stream = Option<Vec<u8>>;

pub struct Container<'a> {
    file: &'a [u8],
    opened: Opened,
    count: u32,
}

/// Where a stream is: the beginning and the size of each slice.
struct Mapping {
    offsets: Vec<u64>,
    sizes: Vec<u64>,
    length: usize,
}

const STREAM_NOT_FOUND: u32 = 5;
const NO_ROOM: u32 = 10;

/// The size of an absent stream in the directory, which llvm-pdbutil prints unchanged.
const ABSENT: u32 = 0xffff_ffff;

impl<'a> Container<'a> {
    pub fn open(file: &'a [u8]) -> Result<Self, String> {
        let opened = trovespan::open(file).map_err(refused)?;
        let count = trovespan::stream_count(file).map_err(refused)?;
        Ok(Container { file, opened, count })
    }

    /// The text about the container and its streams.
    pub fn text(&self, totals: &mut Totals) -> Result<String, String> {
        let mut text = format!(
            "Block Size: {}\nNumber of blocks: {}\nNumber of streams: {}\n",
            self.opened.page_size, self.opened.pages_used, self.count
        );
        for number in 0..self.count {
            match self.map(number)? {
                Some(mapping) => self.describe(number, &mapping, &mut text, totals)?,
                None => {
                    writeln!(text, "Stream {number} ({ABSENT} bytes)\nBlocks: []").unwrap();
                    totals.absent += 1;
                }
            }
            totals.streams += 1;
        }
        Ok(text)
    }

    fn describe(&self, number: u32, mapping: &Mapping, text: &mut String, totals: &mut Totals) -> Result<(), String> {
        let pages = self.pages(mapping)?;
        let list = pages.iter().map(u64::to_string).collect::<Vec<_>>().join(", ");
        writeln!(text, "Stream {number} ({} bytes)\nBlocks: [{list}]", mapping.length).unwrap();
        totals.pages += pages.len();
        totals.slices += mapping.sizes.len();
        totals.bytes += mapping.length;
        totals.empty += usize::from(mapping.length == 0);
        Ok(())
    }

    pub fn streams(&self) -> Result<Vec<Stream>, String> {
        let stream = |number| self.map(number)?.map(|mapping| self.extract(number, &mapping)).transpose();
        (0..self.count).map(stream).collect()
    }

    /// Puts the streams' bytes into their slices, in a copy of the file. Each has as many bytes as before.
    pub fn put(&self, streams: &[Stream], copy: &mut [u8]) -> Result<(), String> {
        for (number, stream) in (0..).zip(streams) {
            if let (Some(mapping), Some(bytes)) = (self.map(number)?, stream) {
                mapping.put(bytes, copy);
            }
        }
        Ok(())
    }

    /// `None` if the stream is absent. The first call asks for the room needed.
    fn map(&self, number: u32) -> Result<Option<Mapping>, String> {
        let need = match trovespan::map(self.file, number, None, &mut [], &mut []) {
            Ok(_) => 0,
            Err(Refusal { number: NO_ROOM, value }) => value as usize,
            Err(Refusal { number: STREAM_NOT_FOUND, .. }) => return Ok(None),
            Err(why) => return Err(refused(why)),
        };
        let (mut offsets, mut sizes) = (vec![0; need], vec![0; need]);
        let mapped = trovespan::map(self.file, number, None, &mut offsets, &mut sizes).map_err(refused)?;
        if mapped.slices != need {
            return Err(format!("stream {number} needs room for {need} slices and has {}", mapped.slices));
        }
        Ok(Some(Mapping { offsets, sizes, length: mapped.length }))
    }

    /// The pages of the slices, in order. Only the last slice may end within a page.
    fn pages(&self, mapping: &Mapping) -> Result<Vec<u64>, String> {
        let page_size = u64::from(self.opened.page_size);
        let mut pages = Vec::new();
        for (index, (offset, size)) in mapping.offsets.iter().zip(&mapping.sizes).enumerate() {
            let last = index + 1 == mapping.sizes.len();
            if offset % page_size != 0 || *size == 0 || (size % page_size != 0 && !last) {
                return Err(format!("slice {index} is not whole pages: ({offset}, {size})"));
            }
            pages.extend(offset / page_size..=(offset + size - 1) / page_size);
        }
        Ok(pages)
    }

    /// The stream's bytes, which must be those of its slices in order.
    fn extract(&self, number: u32, mapping: &Mapping) -> Result<Vec<u8>, String> {
        let mut bytes = vec![0; mapping.length];
        let length = trovespan::extract(self.file, number, None, &mut bytes).map_err(refused)?;
        let slices = mapping.offsets.iter().zip(&mapping.sizes);
        let parts = slices.map(|(&offset, &size)| &self.file[offset as usize..(offset + size) as usize]);
        if length != mapping.length || bytes != parts.collect::<Vec<_>>().concat() {
            return Err(format!("the bytes of stream {number} are not those of its slices"));
        }
        Ok(bytes)
    }
}

impl Mapping {
    fn put(&self, mut bytes: &[u8], file: &mut [u8]) {
        for (&offset, &size) in self.offsets.iter().zip(&self.sizes) {
            let (slice, rest) = bytes.split_at(size as usize);
            file[offset as usize..][..slice.len()].copy_from_slice(slice);
            bytes = rest;
        }
    }
}

fn refused(why: Refusal) -> String {
    format!("refused {} {}", why.number, why.value)
}

//! The functions on a container. The caller lends the file, and a store for each answer of many entries.

use crate::{ffi, Kind, Refusal};

/// The header of a container.
#[derive(Clone, Copy, Debug, PartialEq, Eq, Hash)]
#[non_exhaustive]
pub struct Opened {
    /// The number of bytes in a page.
    pub page_size: u32,
    /// The number of pages used. Page numbers are below it: a list that names this number itself is refused with 4,
    /// while pdb 0.8.0 lets it pass.
    pub pages_used: u32,
}

/// What [`map`] and [`needed_to_map`] return.
#[derive(Clone, Copy, Debug, PartialEq, Eq, Hash)]
#[non_exhaustive]
pub struct Mapped {
    /// The number of slices, which is the number of entries written to each store.
    pub slices: usize,
    /// The number of bytes in all slices.
    pub length: usize,
}

/// Opens a container and returns its page size and the number of pages used.
///
/// # Errors
///
/// Refuses with 1, 2, 3, 4 or 7.
pub fn open(file: &[u8]) -> Result<Opened, Refusal> {
    let (number, value, used) = ffi::open(file);
    Refusal::judge(number, value)?;
    Ok(Opened { page_size: value as u32, pages_used: used as u32 })
}

/// Returns the number of streams in a container, absent ones included.
///
/// # Errors
///
/// Refuses as [`open`] does, and with 6.
pub fn stream_count(file: &[u8]) -> Result<u32, Refusal> {
    let (number, value) = ffi::stream_count(file);
    Refusal::judge(number, value)?;
    Ok(value as u32)
}

/// Maps a stream, or its first `limit` bytes, to slices of the file. Writes where each slice begins to `offsets`, and
/// its length to `sizes`. The slices, in order, are the stream. A slice may lie past the end of the file; [`extract`]
/// refuses that.
///
/// # Errors
///
/// Refuses as [`stream_count`] does, with 5, and with 10 if the shorter store has fewer entries than there are slices.
/// All page numbers of the stream are checked, whatever the limit.
pub fn map(
    file: &[u8],
    stream: u32,
    limit: Option<usize>,
    offsets: &mut [u64],
    sizes: &mut [u64],
) -> Result<Mapped, Refusal> {
    let (number, value, total) = ffi::map(file, stream, limit, offsets, sizes);
    Refusal::judge(number, value)?;
    Ok(Mapped { slices: value as usize, length: total as usize })
}

/// Copies a stream, or its first `limit` bytes, to the front of `out`, and returns the number of bytes copied.
///
/// # Errors
///
/// Refuses as [`map`] does, with 6 also if a slice reaches past the end of the file, and with 10 if `out` is too short.
pub fn extract(file: &[u8], stream: u32, limit: Option<usize>, out: &mut [u8]) -> Result<usize, Refusal> {
    let (number, value) = ffi::extract(file, stream, limit, out);
    Refusal::judge(number, value)?;
    Ok(value as usize)
}

/// How many bytes at the start of the file every function reads first: the header block. A shorter file is refused with
/// 1.
pub const HEADER_BLOCK: usize = 4096;

/// What [`map`] reads after the header block and before it comes to the stream, in this order.
#[derive(Clone, Copy, Debug, PartialEq, Eq, Hash)]
pub enum Stage {
    /// The page numbers of the directory.
    LocationList,
    /// The number of streams, their sizes and their page numbers.
    Directory,
}

/// Returns which parts of the file [`map`] reads before it comes to the stream: the slices of a stage. Writes where each
/// slice begins to `offsets`, and its length to `sizes`. The slices, in order, are the location list or the directory.
///
/// This is for a caller that has not got the whole file. The slices of [`Stage::LocationList`] are found in the header
/// block alone, those of [`Stage::Directory`] in the header block and the location list. Two files that agree on the
/// header block and on the slices of both stages, and are long enough to hold them, have the same stream count and the
/// same mapping of each stream, whatever their lengths. So a file with these parts where they belong, and anything
/// elsewhere, can be lent to [`map`] instead of the file itself.
///
/// # Errors
///
/// Refuses as [`open`] does; for [`Stage::Directory`] also with 6 if the location list is not all in the file, and with
/// 4 for a page number in it; then with 10 if the shorter store has fewer entries than there are slices. A slice of the
/// stage itself may lie past the end of the file; [`stream_count`] and [`map`] refuse that.
///
/// ```
/// use trovespan::{map, needed_to_map, Refusal, Stage, HEADER_BLOCK};
///
/// // Pages of 256 bytes: page 17 has the location list, page 20 the directory, page 18 the stream.
/// let mut file = vec![0xaa; 24 * 256];
/// file[..32].copy_from_slice(b"Microsoft C/C++ MSF 7.00\r\n\x1a\x44\x53\x00\x00\x00");
/// for (at, word) in [(32, 256_u32), (40, 24), (44, 12), (52, 17), (4352, 20), (5120, 1), (5124, 5), (5128, 18)] {
///     file[at..at + 4].copy_from_slice(&word.to_le_bytes());
/// }
///
/// // Each stage needs no more than what was found before it.
/// let (mut offset, mut size) = ([0], [0]);
/// needed_to_map(&file[..HEADER_BLOCK], Stage::LocationList, &mut offset, &mut size)?;
/// assert_eq!((offset, size), ([4352], [4]));
/// needed_to_map(&file[..4356], Stage::Directory, &mut offset, &mut size)?;
/// assert_eq!((offset, size), ([5120], [12]));
///
/// // The rest of the file makes no difference to mapping.
/// let mut parts = vec![0; 5132];
/// for part in [0..HEADER_BLOCK, 4352..4356, 5120..5132] {
///     parts[part.clone()].copy_from_slice(&file[part]);
/// }
/// assert_eq!(map(&parts, 0, None, &mut offset, &mut size), map(&file, 0, None, &mut [0], &mut [0]));
/// assert_eq!((offset, size), ([4608], [5]));
/// # Ok::<(), Refusal>(())
/// ```
pub fn needed_to_map(file: &[u8], stage: Stage, offsets: &mut [u64], sizes: &mut [u64]) -> Result<Mapped, Refusal> {
    let (number, value, total) = ffi::needed_to_map(file, stage == Stage::Directory, offsets, sizes);
    Refusal::judge(number, value)?;
    Ok(Mapped { slices: value as usize, length: total as usize })
}

/// The size that stands for an absent stream in the list that [`write_container`] takes.
pub const ABSENT: u32 = 0xffff_ffff;

/// Writes a whole container to the front of `out`, and returns the length of the file. `sizes` has the size of each
/// stream, or [`ABSENT`]. `bytes` has the bytes of the streams, one after the other.
///
/// Reading a stream of the file gives its bytes. A stream of size 0 is there and empty; an absent one is refused with 5.
///
/// The file consists of whole pages, and has at least 4,096 bytes. Page 0 is the header. Pages whose number modulo
/// `page_size` is 1 or 2 are free-map pages. The others are, in this order, the pages of the streams, of the directory,
/// and the one page that lists the directory's pages. If pages are added to get to 4,096 bytes, these, and no others,
/// are marked as free. What a part leaves of its last page is 0.
///
/// # Errors
///
/// Refuses with 3 if `page_size` is not a power of two from 0x100 to 0x800000; else with 22 if the sizes, without those
/// of absent streams, do not sum to the length of `bytes`; else with 23 if one page cannot hold the numbers of the
/// directory's pages; else with 24 if the directory's size or the number of pages takes more than 32 bits; else with 10
/// and the length of the file if `out` is shorter. A refusal leaves `out` unchanged.
///
/// ```
/// use trovespan::{extract, open, stream_count, write_container, Refusal, ABSENT};
///
/// let sizes = [5, ABSENT, 0, 6];
/// let mut file = [0; 4096];
/// assert_eq!(write_container(256, &sizes, b"hello, you!", &mut file), Ok(4096));
///
/// let mut out = [0; 6];
/// assert_eq!(open(&file)?.page_size, 256);
/// assert_eq!(stream_count(&file), Ok(4));
/// assert_eq!(extract(&file, 0, None, &mut out), Ok(5));
/// assert_eq!(&out[..5], b"hello");
/// assert_eq!(extract(&file, 1, None, &mut out), Err(Refusal { number: 5, value: 1 }));
/// assert_eq!(extract(&file, 2, None, &mut out), Ok(0));
/// assert_eq!(extract(&file, 3, None, &mut out), Ok(6));
/// assert_eq!(&out, b", you!");
///
/// // An empty `out` asks for the length.
/// let length = write_container(4096, &sizes, b"hello, you!", &mut []);
/// assert_eq!(length, Err(Refusal { number: 10, value: 7 * 4096 }));
/// # Ok::<(), Refusal>(())
/// ```
pub fn write_container(page_size: u32, sizes: &[u32], bytes: &[u8], out: &mut [u8]) -> Result<usize, Refusal> {
    let (number, value) = ffi::write_container(page_size, sizes, bytes, out);
    Refusal::judge(number, value)?;
    Ok(value as usize)
}

/// Returns the number of bytes that extraction of a whole stream needs. Allocates nothing.
///
/// A stream may be far longer than its file. Compare the length with a limit before allocating, as
/// [`extract_to_vec`](crate::extract_to_vec) does.
///
/// # Errors
///
/// Refuses as [`extract`] does, but never with 10. So all bytes of a stream that has a length are in the file.
pub fn stream_length(file: &[u8], stream: u32) -> Result<usize, Refusal> {
    match extract(file, stream, None, &mut []) {
        Err(why) if why.kind() == Kind::NoRoom => Ok(why.value as usize),
        answer => answer,
    }
}

/// Returns the number of slices of a whole stream. Allocates nothing.
///
/// # Errors
///
/// Refuses as [`map`] does, but never with 10.
pub fn slice_count(file: &[u8], stream: u32) -> Result<usize, Refusal> {
    match map(file, stream, None, &mut [], &mut []) {
        Ok(mapped) => Ok(mapped.slices),
        Err(why) if why.kind() == Kind::NoRoom => Ok(why.value as usize),
        Err(why) => Err(why),
    }
}

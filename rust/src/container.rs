//! A container, and a stream of it, as values with the functions as methods.

use crate::{extract, map, open, slice_count, stream_count, stream_length, Mapped, Opened, Refusal};
#[cfg(feature = "alloc")]
use crate::{extract_to_vec, map_to_vec, ExtractError, MapError, SourceSlice};
#[cfg(feature = "alloc")]
use alloc::vec::Vec;
use core::fmt::{self, Debug, Formatter};

/// A file that opens as a container.
///
/// It keeps the file and nothing else, so each method reads the file afresh, and refuses as the function of its name
/// does.
///
/// ```no_run
/// use trovespan::{Container, AT_MOST};
///
/// # fn main() -> Result<(), Box<dyn std::error::Error>> {
/// let file = std::fs::read("program.pdb")?;
/// let container = Container::open(&file)?;
/// println!("{} streams", container.stream_count()?);
/// let stream = container.stream(5);
/// println!("stream 5: {} bytes, {} slices", stream.length()?, stream.slice_count()?);
/// let bytes = stream.bytes(AT_MOST)?;
/// # Ok(())
/// # }
/// ```
#[derive(Clone, Copy)]
pub struct Container<'a> {
    file: &'a [u8],
}

/// A stream number and the container that is asked for it. The container may have no such stream.
///
/// Each method reads the file afresh.
#[derive(Clone, Copy, Debug)]
pub struct Stream<'a> {
    container: Container<'a>,
    number: u32,
}

impl<'a> Container<'a> {
    /// Opens a file.
    ///
    /// # Errors
    ///
    /// Refuses as [`open`] does.
    pub fn open(file: &'a [u8]) -> Result<Self, Refusal> {
        open(file)?;
        Ok(Self { file })
    }

    /// Returns the file.
    #[must_use]
    pub const fn file(&self) -> &'a [u8] {
        self.file
    }

    /// Returns the page size and the number of pages used.
    ///
    /// # Errors
    ///
    /// Refuses as [`open`] does.
    pub fn header(&self) -> Result<Opened, Refusal> {
        open(self.file)
    }

    /// Returns the number of streams, absent ones included.
    ///
    /// # Errors
    ///
    /// Refuses as [`stream_count`](stream_count()) does.
    pub fn stream_count(&self) -> Result<u32, Refusal> {
        stream_count(self.file)
    }

    /// Names a stream. This reads nothing, so it names streams that are not there too; the methods of [`Stream`] refuse
    /// those.
    #[must_use]
    pub const fn stream(&self, number: u32) -> Stream<'a> {
        Stream { container: *self, number }
    }
}

impl<'a> Stream<'a> {
    /// Returns the container.
    #[must_use]
    pub const fn container(&self) -> Container<'a> {
        self.container
    }

    /// Returns the stream number.
    #[must_use]
    pub const fn number(&self) -> u32 {
        self.number
    }

    /// Returns the number of bytes in the stream.
    ///
    /// # Errors
    ///
    /// Refuses as [`stream_length`] does.
    pub fn length(&self) -> Result<usize, Refusal> {
        stream_length(self.container.file, self.number)
    }

    /// Returns the number of slices of the stream.
    ///
    /// # Errors
    ///
    /// Refuses as [`slice_count`] does.
    pub fn slice_count(&self) -> Result<usize, Refusal> {
        slice_count(self.container.file, self.number)
    }

    /// Copies the stream, or its first `limit` bytes, to the front of `out`, and returns the number of bytes copied.
    ///
    /// # Errors
    ///
    /// Refuses as [`extract`](extract()) does.
    pub fn extract(&self, limit: Option<usize>, out: &mut [u8]) -> Result<usize, Refusal> {
        extract(self.container.file, self.number, limit, out)
    }

    /// Writes where each slice of the stream, or of its first `limit` bytes, begins to `offsets`, and its length to
    /// `sizes`.
    ///
    /// # Errors
    ///
    /// Refuses as [`map`](map()) does.
    pub fn map(&self, limit: Option<usize>, offsets: &mut [u64], sizes: &mut [u64]) -> Result<Mapped, Refusal> {
        map(self.container.file, self.number, limit, offsets, sizes)
    }
}

#[cfg(feature = "alloc")]
impl Stream<'_> {
    /// Returns the bytes of the stream if there are at most `at_most`. [`AT_MOST`](crate::AT_MOST) suits most callers.
    ///
    /// # Errors
    ///
    /// Fails as [`extract_to_vec`] does, before it allocates.
    pub fn bytes(&self, at_most: usize) -> Result<Vec<u8>, ExtractError> {
        extract_to_vec(self.container.file, self.number, at_most)
    }

    /// Returns the slices of the stream if there are at most `at_most`. [`AT_MOST_SLICES`](crate::AT_MOST_SLICES) suits
    /// most callers.
    ///
    /// # Errors
    ///
    /// Fails as [`map_to_vec`] does, before it allocates.
    pub fn slices(&self, at_most: usize) -> Result<Vec<SourceSlice>, MapError> {
        map_to_vec(self.container.file, self.number, at_most)
    }
}

/// The length of the file instead of its bytes.
impl Debug for Container<'_> {
    fn fmt(&self, f: &mut Formatter<'_>) -> fmt::Result {
        f.debug_struct("Container").field("file_length", &self.file.len()).finish()
    }
}

//! The slices of a whole stream in a new vector.

use crate::{map, slice_count, Refusal};
use alloc::{vec, vec::Vec};
use core::fmt::{self, Display, Formatter};

/// A limit for [`map_to_vec`] that suits most callers. It allows at most 256 MiB.
pub const AT_MOST_SLICES: usize = 8_388_608;

/// A part of a file.
#[derive(Clone, Copy, Debug, PartialEq, Eq, Hash)]
#[non_exhaustive]
pub struct SourceSlice {
    /// Where it begins.
    pub offset: u64,
    /// The number of its bytes.
    pub size: u64,
}

impl SourceSlice {
    /// Returns the bytes of the slice. `None` if the slice reaches past the end of the file.
    #[must_use]
    pub fn bytes(self, file: &[u8]) -> Option<&[u8]> {
        let from = usize::try_from(self.offset).ok()?;
        let size = usize::try_from(self.size).ok()?;
        file.get(from..)?.get(..size)
    }
}

/// Why [`map_to_vec`] returns no slices.
#[derive(Clone, Copy, Debug, PartialEq, Eq, Hash)]
#[non_exhaustive]
pub enum MapError {
    /// The stream can be mapped, but has more slices than the caller allows.
    TooMany {
        /// The number of slices of the stream.
        slices: usize,
        /// The number of slices that the caller allows.
        at_most: usize,
    },
    /// The stream cannot be mapped.
    Refused(Refusal),
}

/// Returns the slices of a whole stream if there are at most `at_most`. [`AT_MOST_SLICES`] suits most callers. A slice
/// may lie past the end of the file. While it works, this takes 32 bytes for each slice.
///
/// # Errors
///
/// Refuses as [`slice_count`] does. If there are more slices than `at_most`, the error is [`MapError::TooMany`]. Both
/// are decided before anything is allocated.
pub fn map_to_vec(file: &[u8], stream: u32, at_most: usize) -> Result<Vec<SourceSlice>, MapError> {
    let slices = slice_count(file, stream)?;
    if slices > at_most {
        return Err(MapError::TooMany { slices, at_most });
    }
    let (mut offsets, mut sizes) = (vec![0; slices], vec![0; slices]);
    map(file, stream, None, &mut offsets, &mut sizes)?;
    Ok(offsets.into_iter().zip(sizes).map(|(offset, size)| SourceSlice { offset, size }).collect())
}

impl From<Refusal> for MapError {
    fn from(why: Refusal) -> Self {
        Self::Refused(why)
    }
}

/// One line.
impl Display for MapError {
    fn fmt(&self, f: &mut Formatter<'_>) -> fmt::Result {
        match self {
            Self::TooMany { slices, at_most } => {
                write!(f, "the stream has {slices} slices, and at most {at_most} are allowed")
            }
            Self::Refused(why) => why.fmt(f),
        }
    }
}

//! The bytes of a whole stream in a new vector.

use crate::{extract, stream_length, Refusal};
use alloc::{vec, vec::Vec};
use core::fmt::{self, Display, Formatter};

/// A limit for [`extract_to_vec`] that suits most callers: 256 MiB.
///
/// A small file can name one page many times, so a stream may be far longer than its file.
pub const AT_MOST: usize = 268_435_456;

/// Why [`extract_to_vec`] returns no bytes.
#[derive(Clone, Copy, Debug, PartialEq, Eq, Hash)]
#[non_exhaustive]
pub enum ExtractError {
    /// The stream can be extracted, but is longer than the caller allows.
    TooLong {
        /// The number of bytes in the stream.
        length: usize,
        /// The number of bytes that the caller allows.
        at_most: usize,
    },
    /// The stream cannot be extracted.
    Refused(Refusal),
}

/// Returns the bytes of a whole stream if there are at most `at_most`. [`AT_MOST`] suits most callers.
///
/// # Errors
///
/// Refuses as [`stream_length`] does. If the stream is longer than `at_most`, the error is [`ExtractError::TooLong`].
/// Both are decided before anything is allocated.
///
/// ```
/// use trovespan::{ExtractError, Refusal, AT_MOST};
///
/// let no_file = Refusal { number: 1, value: 0 };
/// assert_eq!(trovespan::extract_to_vec(&[], 1, AT_MOST), Err(ExtractError::Refused(no_file)));
/// ```
pub fn extract_to_vec(file: &[u8], stream: u32, at_most: usize) -> Result<Vec<u8>, ExtractError> {
    let length = stream_length(file, stream)?;
    if length > at_most {
        return Err(ExtractError::TooLong { length, at_most });
    }
    let mut bytes = vec![0; length];
    extract(file, stream, None, &mut bytes)?;
    Ok(bytes)
}

impl From<Refusal> for ExtractError {
    fn from(why: Refusal) -> Self {
        Self::Refused(why)
    }
}

/// One line.
impl Display for ExtractError {
    fn fmt(&self, f: &mut Formatter<'_>) -> fmt::Result {
        match self {
            Self::TooLong { length, at_most } => {
                write!(f, "the stream has {length} bytes, and at most {at_most} are allowed")
            }
            Self::Refused(why) => why.fmt(f),
        }
    }
}

//! The errors as values of `std::error::Error`.

use crate::{DecodeRefusal, ExtractError, MapError, PlacedRefusal, Refusal};
use std::error::Error;

impl Error for Refusal {}

impl Error for DecodeRefusal {
    /// The refusal without its place.
    fn source(&self) -> Option<&(dyn Error + 'static)> {
        Some(&self.refusal)
    }
}

impl Error for PlacedRefusal {
    /// The refusal without its place.
    fn source(&self) -> Option<&(dyn Error + 'static)> {
        Some(&self.refusal)
    }
}

impl Error for ExtractError {
    /// The refusal, if there is one.
    fn source(&self) -> Option<&(dyn Error + 'static)> {
        match self {
            Self::TooLong { .. } => None,
            Self::Refused(why) => Some(why),
        }
    }
}

impl Error for MapError {
    /// The refusal, if there is one.
    fn source(&self) -> Option<&(dyn Error + 'static)> {
        match self {
            Self::TooMany { .. } => None,
            Self::Refused(why) => Some(why),
        }
    }
}

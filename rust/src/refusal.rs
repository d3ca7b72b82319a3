//! Why a function refuses: number, value, name and words.

use crate::DecodeRefusal;
use core::fmt::{self, Display, Formatter};

/// Why a function refuses. See [the table](crate#refusals) of numbers and values.
#[derive(Clone, Copy, Debug, PartialEq, Eq, Hash)]
pub struct Refusal {
    /// The number that [`kind`](Self::kind) names.
    pub number: u32,
    /// What the refusal is about, such as the page or the stream, or 0.
    pub value: u64,
}

/// The name of a refusal's number. See [the table](crate#refusals) of refusals.
#[derive(Clone, Copy, Debug, PartialEq, Eq, Hash)]
#[non_exhaustive]
pub enum Kind {
    /// 1: the file is no PDB file.
    UnrecognizedFileFormat,
    /// 2: the file is a PDB file of the small format.
    UnimplementedFeature,
    /// 3: the page size is none of the format.
    InvalidPageSize,
    /// 4: there is no such page.
    PageReferenceOutOfRange,
    /// 5: there is no such stream.
    StreamNotFound,
    /// 6: the file ends too early.
    FileEnds,
    /// 7: the header block, the directory or the annotation bytes end too early.
    ShortData,
    /// 8: a compressed number has none of the three forms.
    InvalidCompressedAnnotation,
    /// 9: no annotation has this opcode.
    UnknownBinaryAnnotation,
    /// 10: the store is too small for the answer.
    NoRoom,
    /// 11: a listing has a limit, and this is over it.
    OverLimit,
    /// 20: a record cannot be written as an annotation.
    BadRecord,
    /// 21: a list of records ends within a record.
    RaggedList,
    /// 22: the sizes of streams do not sum to the number of their bytes.
    SizesDiffer,
    /// 23: one page cannot hold the numbers of the directory's pages.
    DirectoryTooLarge,
    /// 24: the directory's size, or the number of pages, takes more than 32 bits.
    Over32Bits,
    /// 25: an annotation cannot be run in a line program.
    BadLine,
    /// A number that has no name here.
    Other(u32),
}

impl Refusal {
    /// Returns the name of the number.
    ///
    /// ```
    /// use trovespan::Kind;
    ///
    /// let refusal = trovespan::open(&[]).unwrap_err();
    /// assert_eq!(refusal.kind(), Kind::UnrecognizedFileFormat);
    /// assert_eq!(refusal.to_string(), "refused 1: this is no PDB file");
    /// ```
    #[must_use]
    pub const fn kind(self) -> Kind {
        match self.number {
            1 => Kind::UnrecognizedFileFormat,
            2 => Kind::UnimplementedFeature,
            3 => Kind::InvalidPageSize,
            4 => Kind::PageReferenceOutOfRange,
            5 => Kind::StreamNotFound,
            6 => Kind::FileEnds,
            7 => Kind::ShortData,
            8 => Kind::InvalidCompressedAnnotation,
            9 => Kind::UnknownBinaryAnnotation,
            10 => Kind::NoRoom,
            11 => Kind::OverLimit,
            20 => Kind::BadRecord,
            21 => Kind::RaggedList,
            22 => Kind::SizesDiffer,
            23 => Kind::DirectoryTooLarge,
            24 => Kind::Over32Bits,
            25 => Kind::BadLine,
            other => Kind::Other(other),
        }
    }

    /// Refusal 9.
    pub(crate) fn unknown_annotation(opcode: u32) -> Self {
        Self { number: 9, value: opcode.into() }
    }

    /// The proved library returns 0, or a refusal's number.
    pub(crate) fn judge(number: u32, value: u64) -> Result<(), Self> {
        match number {
            0 => Ok(()),
            _ => Err(Self { number, value }),
        }
    }
}

impl From<DecodeRefusal> for Refusal {
    fn from(why: DecodeRefusal) -> Self {
        why.refusal
    }
}

/// One line: the number and its meaning.
impl Display for Refusal {
    fn fmt(&self, f: &mut Formatter<'_>) -> fmt::Result {
        let value = self.value;
        write!(f, "refused {}: ", self.number)?;
        match self.kind() {
            Kind::UnrecognizedFileFormat => write!(f, "this is no PDB file"),
            Kind::UnimplementedFeature => write!(f, "this is a PDB file of the small format"),
            Kind::InvalidPageSize => write!(f, "{value} is no page size"),
            Kind::PageReferenceOutOfRange => write!(f, "page {value} is out of range"),
            Kind::StreamNotFound => write!(f, "there is no stream {value}"),
            Kind::FileEnds => write!(f, "the file ends too early"),
            Kind::ShortData => write!(f, "the data end too early"),
            Kind::InvalidCompressedAnnotation => {
                write!(f, "a compressed number begins with no byte that may begin one")
            }
            Kind::UnknownBinaryAnnotation => write!(f, "there is no annotation of opcode {value}"),
            Kind::NoRoom => write!(f, "the store is too small, {value} entries are needed"),
            Kind::OverLimit => write!(f, "over the limit of a listing, {value}"),
            Kind::BadRecord => write!(f, "record {value}, counted from 0, cannot be written as an annotation"),
            Kind::RaggedList => write!(f, "the list ends within a record"),
            Kind::SizesDiffer => write!(f, "the sizes do not sum to the number of bytes"),
            Kind::DirectoryTooLarge => write!(f, "the directory has more pages than one page can number"),
            Kind::Over32Bits => write!(f, "the directory's size or the number of pages takes more than 32 bits"),
            Kind::BadLine => write!(f, "annotation {value}, counted from 0, cannot be run in a line program"),
            Kind::Other(_) => write!(f, "a reason that has no name here, with value {value}"),
        }
    }
}

/// The refusal's line, and the place.
impl Display for DecodeRefusal {
    fn fmt(&self, f: &mut Formatter<'_>) -> fmt::Result {
        self.refusal.fmt(f)?;
        match self.place {
            Some(place) => write!(f, " (the place after it is {place})"),
            None => Ok(()),
        }
    }
}

//! An iterator over annotations, thin over `step`.

use crate::{step, BinaryAnnotation, Refusal, Step};
use core::fmt::{self, Display, Formatter};
use core::iter::FusedIterator;

/// An annotation and its place.
#[derive(Clone, Copy, Debug, PartialEq, Eq, Hash)]
#[non_exhaustive]
pub struct PlacedAnnotation {
    /// The annotation.
    pub annotation: BinaryAnnotation,
    /// Whether all its numbers, the opcode among them, have their shortest form.
    pub shortest: bool,
    /// Where it begins.
    pub at: usize,
    /// The place after it.
    pub next: usize,
}

/// A refusal and its place.
#[derive(Clone, Copy, Debug, PartialEq, Eq, Hash)]
#[non_exhaustive]
pub struct PlacedRefusal {
    /// Refusal 7, 8 or 9.
    pub refusal: Refusal,
    /// Where the annotation begins that could not be read.
    pub at: usize,
    /// The place after what was refused, where the next annotation is looked for.
    pub next: usize,
}

/// An iterator over binary annotations. [`annotations`] makes it.
#[derive(Clone, Debug)]
pub struct Annotations<'a> {
    bytes: &'a [u8],
    place: usize,
}

/// Iterates over binary annotations.
///
/// A refusal is an item, not the end: the iterator goes on at the place after it, as the iterator of the crate pdb
/// does. What it finds there may be a part of the annotation that was refused. To stop at the first refusal, collect
/// into a `Result`.
///
/// ```
/// use trovespan::{annotations, BinaryAnnotation, Kind};
///
/// let mut items = annotations(&[6, 15, 14, 3, 0x80, 5]);
///
/// let found = items.next().unwrap().unwrap();
/// assert_eq!(found.annotation, BinaryAnnotation::ChangeLineOffset(-7));
/// assert_eq!((found.at, found.next), (0, 2));
///
/// let refused = items.next().unwrap().unwrap_err();
/// assert_eq!(refused.refusal.kind(), Kind::UnknownBinaryAnnotation);
/// assert_eq!((refused.at, refused.next), (2, 3));
///
/// let last = items.next().unwrap().unwrap();
/// assert_eq!(last.annotation, BinaryAnnotation::ChangeCodeOffset(5));
/// assert!(last.annotation.emits_line_info());
/// assert!(!last.shortest); // 5 takes two bytes here
/// assert_eq!(items.next(), None);
/// ```
#[must_use]
pub fn annotations(bytes: &[u8]) -> Annotations<'_> {
    Annotations { bytes, place: 0 }
}

impl Annotations<'_> {
    /// Returns the place where the next step is taken. After the end that is the end of the bytes.
    #[must_use]
    pub const fn place(&self) -> usize {
        self.place
    }
}

impl Iterator for Annotations<'_> {
    type Item = Result<PlacedAnnotation, PlacedRefusal>;

    fn next(&mut self) -> Option<Self::Item> {
        let at = self.place;
        let (step, next) = step(self.bytes, at);
        self.place = next;
        let found = match step {
            // The library gives opcodes and operands that make an annotation.
            Step::Annotation { opcode, first, second, shortest } => BinaryAnnotation::new(opcode, first, second)
                .map(|annotation| PlacedAnnotation { annotation, shortest, at, next })
                .ok_or_else(|| Refusal::unknown_annotation(opcode)),
            Step::End => return None,
            Step::Refused(refusal) => Err(refusal),
        };
        Some(found.map_err(|refusal| PlacedRefusal { refusal, at, next }))
    }
}

/// The end is at the end of the bytes, where a step finds the end again.
impl FusedIterator for Annotations<'_> {}

impl From<PlacedRefusal> for Refusal {
    fn from(why: PlacedRefusal) -> Self {
        why.refusal
    }
}

/// The refusal's line, and the place.
impl Display for PlacedRefusal {
    fn fmt(&self, f: &mut Formatter<'_>) -> fmt::Result {
        write!(f, "{} (at place {})", self.refusal, self.at)
    }
}

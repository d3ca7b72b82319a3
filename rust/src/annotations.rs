//! The functions on binary annotations. A place is a number of bytes from the start.

use crate::{ffi, Kind, Refusal};

/// What [`number`] reads.
#[derive(Clone, Copy, Debug, PartialEq, Eq, Hash)]
pub struct Number {
    /// The number, at most 536870911.
    pub value: u32,
    /// How many bytes it takes: 1, 2 or 4.
    pub taken: usize,
    /// Whether that is its shortest form: one byte for a number below 0x80, two for one below 0x4000, else four.
    pub shortest: bool,
}

/// What [`step`] finds.
#[derive(Clone, Copy, Debug, PartialEq, Eq, Hash)]
pub enum Step {
    /// An annotation.
    #[non_exhaustive]
    Annotation {
        /// 1 to 13.
        opcode: u32,
        /// The first operand.
        first: i64,
        /// The second operand, or 0 if it has none.
        second: i64,
        /// Whether all its numbers, the opcode among them, have their shortest form.
        shortest: bool,
    },
    /// There are no more annotations.
    End,
    /// Refusal 7, 8 or 9: no annotation can be read here.
    Refused(Refusal),
}

/// Why [`decode`] or [`run_lines`](crate::run_lines) refuses.
#[derive(Clone, Copy, Debug, PartialEq, Eq, Hash)]
pub struct DecodeRefusal {
    /// The first refusal met: 7, 8 or 9, or 25 of a line program, or 10 if there is no other.
    pub refusal: Refusal,
    /// The place after what was refused. 25 and 10 have none.
    pub place: Option<usize>,
}

impl DecodeRefusal {
    /// As `Refusal::judge`, with the place of a refusal that has one.
    pub(crate) fn judge(number: u32, value: u64, place: u64) -> Result<(), Self> {
        Refusal::judge(number, value).map_err(|refusal| {
            let place = match refusal.kind() {
                Kind::BadLine | Kind::NoRoom => None,
                _ => Some(place as usize),
            };
            Self { refusal, place }
        })
    }
}

/// Returns the compressed number at a place, and the place after it.
///
/// # Errors
///
/// Refuses with 7 or 8, which also have a place after them. After 7 that is the end of the bytes.
///
/// ```
/// use trovespan::{number, Number};
///
/// assert_eq!(number(&[0x81, 0x02], 0), (Ok(Number { value: 0x102, taken: 2, shortest: true }), 2));
/// // A longer form of a number that fits one byte.
/// assert_eq!(number(&[0x80, 0x7f], 0), (Ok(Number { value: 127, taken: 2, shortest: false }), 2));
/// ```
pub fn number(bytes: &[u8], at: usize) -> (Result<Number, Refusal>, usize) {
    let (number, value, taken, shortest, next) = ffi::number(bytes, at);
    let read = Number { value: value as u32, taken: taken as usize, shortest: shortest == ffi::SHORTEST };
    (Refusal::judge(number, value).map(|()| read), next as usize)
}

/// Takes one step over binary annotations. Returns what is at a place, and the place after it, where the next step goes
/// on. After the end, and after 7, that is the end of the bytes.
///
/// ```
/// use trovespan::Step;
///
/// assert!(matches!(trovespan::step(&[6, 15], 0), (Step::Annotation { opcode: 6, first: -7, .. }, 2)));
/// assert_eq!(trovespan::step(&[6, 15], 2), (Step::End, 2));
/// ```
#[must_use]
#[inline]
pub fn step(bytes: &[u8], at: usize) -> (Step, usize) {
    let (number, value, first, second, shortest, next) = ffi::step(bytes, at);
    let step = match (Refusal::judge(number, value), value as u32) {
        (Err(why), _) => Step::Refused(why),
        (Ok(()), ffi::NO_OPCODE) => Step::End,
        (Ok(()), opcode) => Step::Annotation { opcode, first, second, shortest: shortest == ffi::SHORTEST },
    };
    (step, next as usize)
}

/// How many entries of its store [`decode`] writes for an annotation.
pub const ENTRIES_EACH: usize = 4;

/// Decodes all annotations to the front of `store`, [`ENTRIES_EACH`] entries each: opcode, first operand, second
/// operand or 0, and 1 if all its numbers have their shortest form, else 0. Returns how many annotations there are.
///
/// # Errors
///
/// Refuses with the first refusal of a step; if there is none, with 10 if the store has fewer than [`ENTRIES_EACH`]
/// entries for each annotation.
///
/// ```
/// let mut store = [0; 8];
/// assert_eq!(trovespan::decode(&[3, 5, 11, 0x80, 0x72], &mut store), Ok(2));
/// assert_eq!(store, [3, 5, 0, 1, 11, 2, -3, 0]);
/// ```
pub fn decode(bytes: &[u8], store: &mut [i64]) -> Result<usize, DecodeRefusal> {
    let (number, value, place) = ffi::decode(bytes, store);
    DecodeRefusal::judge(number, value, place)?;
    Ok(value as usize)
}

/// How many entries a record has that [`write_annotations`] takes: the first three of the [`ENTRIES_EACH`] that
/// [`decode`] writes. The fourth, about the form of the numbers, is left out: they are always written in the shortest.
pub const RECORD_ENTRIES: usize = 3;

/// Writes annotations as bytes to the front of `out`, and returns the number of bytes written. `records` has
/// [`RECORD_ENTRIES`] numbers for each annotation, as [`BinaryAnnotation::triple`] gives them: opcode, first operand,
/// second operand or 0. The empty list is accepted, and writes nothing.
///
/// Every number is written in its shortest form, and no opcode 0 closes the bytes. A record takes 2 to 9 bytes.
///
/// Decoding the bytes gives the same records, each with a fourth entry 1. Writing what was decoded may give other
/// bytes: a number also has longer forms, which the fourth entry tells, and a signed operand of 1 reads as 0 too.
///
/// What a record may hold:
///
/// | Opcode | First operand | Second operand |
/// |---|---|---|
/// | 1 to 5, 7 to 9, 13 | 0 to 536870911 | 0 |
/// | 6, 10 | -268435455 to 268435455 | 0 |
/// | 11 | 0 to 15 | -16777215 to 16777215 |
/// | 12 | 0 to 536870911 | 0 to 536870911 |
///
/// # Errors
///
/// Refuses with 21 if the length of `records` is no multiple of 3; else with 20 and the index of the first record, from
/// 0, that holds anything else; else with 10 and the number of bytes needed if `out` is too short. A refusal leaves
/// `out` unchanged.
///
/// ```
/// use trovespan::{decode, write_annotations, Refusal, ENTRIES_EACH, RECORD_ENTRIES};
///
/// let records = [3, 200, 0, 11, 2, -3];
/// let mut out = [0; 18];
/// let length = write_annotations(&records, &mut out)?;
/// assert_eq!(out[..length], [3, 0x80, 200, 11, 0x72]);
///
/// // The fourth entries say that the forms are the shortest. The others are the records.
/// let mut store = [0; 8];
/// assert_eq!(decode(&out[..length], &mut store), Ok(2));
/// assert_eq!(store, [3, 200, 0, 1, 11, 2, -3, 1]);
/// let decoded: Vec<i64> =
///     store.chunks(ENTRIES_EACH).flat_map(|entries| &entries[..RECORD_ENTRIES]).copied().collect();
/// assert_eq!(decoded, records);
///
/// // An empty `out` asks for the length.
/// assert_eq!(write_annotations(&records, &mut []), Err(Refusal { number: 10, value: 5 }));
/// # Ok::<(), Refusal>(())
/// ```
///
/// [`BinaryAnnotation::triple`]: crate::BinaryAnnotation::triple
pub fn write_annotations(records: &[i64], out: &mut [u8]) -> Result<usize, Refusal> {
    let (number, value) = ffi::write_annotations(records, out);
    Refusal::judge(number, value)?;
    Ok(value as usize)
}

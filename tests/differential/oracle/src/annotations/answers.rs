//! The answers of a library, as words, by the numbers of the project's rules. Each answer is a list of
//! words that begins with the number of its case.

use std::fmt;

use crate::digest::Word::{self, Plain, Signed};

// The cases. Each answer begins with its case, so that no two answers have the same words.
const NUMBER: u64 = 1;
const NUMBER_REFUSED: u64 = 2;
const ANNOTATION: u64 = 3;
const END: u64 = 4;
const STEP_REFUSED: u64 = 5;
const ALL_DECODED: u64 = 6;
const ALL_REFUSED: u64 = 7;
const NO_ROOM: u64 = 8;

/// How many entries of a store an annotation takes.
pub const ENTRIES_EACH: usize = 4;

/// A refusal's number, and its value.
pub type Refusal = (u64, u64);

/// A library that is asked: pdb or ours.
pub trait Library {
    /// The number at a place, and the place after it.
    fn number(bytes: &[u8], at: usize) -> (Result<Number, Refusal>, usize);

    /// The steps from a place to the end, each with the place after it, going on after refusals.
    fn steps(bytes: &[u8], at: usize) -> Vec<(Step, usize)>;

    /// Decodes all bytes into a store: the number of annotations, or a refusal and the place after it.
    /// The refusal for a store that is too small has no place.
    fn decode(bytes: &[u8], store: &mut [i64]) -> Result<usize, (Refusal, Option<usize>)>;
}

pub struct Number {
    pub value: u32,
    /// How many bytes it took.
    pub taken: usize,
    /// Whether that is its shortest form.
    pub shortest: bool,
}

pub enum Step {
    Annotation(Annotation),
    End,
    Refused(Refusal),
}

pub struct Annotation {
    /// Opcode, first operand, second operand or 0.
    pub triple: [i64; 3],
    /// Whether all its numbers have their shortest form.
    pub shortest: bool,
    /// Whether it emits a line record, if the library has a name for it.
    pub emits: Option<bool>,
}

/// What a part of an answer is about.
#[derive(Clone, Copy, Debug, Eq, PartialEq)]
pub enum Part {
    Number,
    Step,
    /// Whether the step before it emits a line record.
    Emits,
    /// Decoding all bytes into a store of that many entries, and the whole store after it.
    Room(usize),
}

impl fmt::Display for Part {
    fn fmt(&self, f: &mut fmt::Formatter<'_>) -> fmt::Result {
        match self {
            Part::Number => write!(f, "number"),
            Part::Step => write!(f, "step"),
            Part::Emits => write!(f, "emits"),
            Part::Room(room) => write!(f, "room {}", room),
        }
    }
}

/// The parts of an answer, each with its words.
pub type Answer = Vec<(Part, Vec<Word>)>;

/// The number at a place.
pub fn number<L: Library>(bytes: &[u8], at: usize, answer: &mut Answer) {
    let words = match L::number(bytes, at) {
        (Ok(number), place) => vec![
            Plain(NUMBER),
            Plain(u64::from(number.value)),
            Plain(number.taken as u64),
            Plain(u64::from(number.shortest)),
            Plain(place as u64),
        ],
        (Err(refusal), place) => refused(NUMBER_REFUSED, refusal, place),
    };
    answer.push((Part::Number, words));
}

/// The steps from a place on.
pub fn steps<L: Library>(bytes: &[u8], at: usize, answer: &mut Answer) {
    for (step, place) in L::steps(bytes, at) {
        match step {
            Step::Annotation(annotation) => {
                let mut words = vec![Plain(ANNOTATION)];
                words.extend(annotation.triple.iter().map(|&z| Signed(z)));
                words.push(Plain(u64::from(annotation.shortest)));
                words.push(Plain(place as u64));
                answer.push((Part::Step, words));
                if let Some(emits) = annotation.emits {
                    answer.push((Part::Emits, vec![Plain(u64::from(emits))]));
                }
            }
            Step::End => answer.push((Part::Step, vec![Plain(END), Plain(place as u64)])),
            Step::Refused(refusal) => {
                answer.push((Part::Step, refused(STEP_REFUSED, refusal, place)))
            }
        }
    }
}

/// Decodes all bytes into a store of `room` entries; then the whole store.
pub fn decode<L: Library>(bytes: &[u8], room: usize, answer: &mut Answer) {
    let mut store: Vec<i64> = (0..room as i64).map(|i| -1000 - i).collect();
    let mut words = match L::decode(bytes, &mut store) {
        Ok(count) => vec![Plain(ALL_DECODED), Plain(count as u64)],
        Err((refusal, Some(place))) => refused(ALL_REFUSED, refusal, place),
        Err(((number, needed), None)) => vec![Plain(NO_ROOM), Plain(number), Plain(needed)],
    };
    words.extend(store.into_iter().map(Signed));
    answer.push((Part::Room(room), words));
}

fn refused(case: u64, (number, value): Refusal, place: usize) -> Vec<Word> {
    vec![
        Plain(case),
        Plain(number),
        Plain(value),
        Plain(place as u64),
    ]
}

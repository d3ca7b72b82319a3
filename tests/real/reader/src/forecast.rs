//! How the records of a site must differ from llvm-pdbutil's, by its annotations alone.
//!
//! llvm-pdbutil keeps one code offset. It adds the operands of 1, 2 and 4 to it, and refuses nothing. So each 1 takes
//! its offset ahead of ours by our code offset before it, each 2 by our base before it, and each 4 by its length.

use trovespan::{DecodeRefusal, Refusal, Step};

/// The opcodes that take llvm-pdbutil ahead.
pub const AHEAD_BY: [u32; 3] = [1, 2, 4];

#[derive(Default)]
pub struct Forecast {
    /// For each record, by how much llvm-pdbutil's offset is ahead of ours, because of each opcode of `AHEAD_BY`.
    pub ahead: Vec<[u64; 3]>,
    pub refused: Option<DecodeRefusal>,
    /// The number of records that begin below the one before.
    pub falling: usize,
}

#[derive(Default)]
struct State {
    code: u64,
    base: u64,
    ahead: [u64; 3],
    last: Option<Last>,
}

/// The last record: its offset, and whether it has a length.
struct Last {
    offset: u64,
    ends: bool,
}

/// An annotation that cannot be run.
struct Bad;

const BAD_LINE: u32 = 25;

impl Forecast {
    pub fn new(bytes: &[u8]) -> Self {
        let mut forecast = Forecast::default();
        forecast.refused = forecast.run(bytes).err();
        forecast
    }

    /// Stops at the first refusal in the bytes: that of a step, or 25.
    fn run(&mut self, bytes: &[u8]) -> Result<(), DecodeRefusal> {
        let mut state = State::default();
        let (mut at, mut index) = (0, 0);
        loop {
            let (step, next) = trovespan::step(bytes, at);
            let turned = match step {
                Step::Annotation { opcode, first, second, .. } => {
                    self.turn(&mut state, opcode, first as u64, second as u64)
                }
                Step::End => return Ok(()),
                Step::Refused(refusal) => return Err(DecodeRefusal { refusal, place: Some(next) }),
            };
            let bad_line = Refusal { number: BAD_LINE, value: index };
            turned.map_err(|Bad| DecodeRefusal { refusal: bad_line, place: None })?;
            (at, index) = (next, index + 1);
        }
    }

    fn turn(&mut self, state: &mut State, opcode: u32, first: u64, second: u64) -> Result<(), Bad> {
        match opcode {
            1 => state.ahead[0] += std::mem::replace(&mut state.code, first),
            2 => state.ahead[1] += std::mem::replace(&mut state.base, first),
            3 | 11 => self.emit(state, first, false)?,
            4 => {
                state.last.as_mut().ok_or(Bad)?.ends = true;
                state.ahead[2] += first;
            }
            12 => self.emit(state, second, true)?,
            _ => {}
        }
        Ok(())
    }

    fn emit(&mut self, state: &mut State, advance: u64, ends: bool) -> Result<(), Bad> {
        state.code += advance;
        let offset = state.base + state.code;
        let falls = state.last.as_ref().map_or(false, |last| offset < last.offset);
        let last_ends = state.last.as_ref().map_or(true, |last| last.ends);
        if offset > u32::MAX.into() || (falls && !last_ends) {
            return Err(Bad);
        }
        state.last = Some(Last { offset, ends });
        self.falling += usize::from(falls);
        self.ahead.push(state.ahead);
        Ok(())
    }

    /// By how much llvm-pdbutil is ahead at a record, as its 32 bits wrap.
    pub fn ahead_at(&self, record: usize) -> u32 {
        self.ahead.get(record).map_or(0, |by| by.iter().sum::<u64>() as u32)
    }

    /// Whether an opcode of `AHEAD_BY` has an effect on a record.
    pub fn has_effect(&self, which: usize) -> bool {
        (0..self.ahead.len()).any(|record| self.ahead_at(record) != 0 && self.ahead[record][which] != 0)
    }

    pub fn differs(&self) -> bool {
        (0..self.ahead.len()).any(|record| self.ahead_at(record) != 0)
    }
}

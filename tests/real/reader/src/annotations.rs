//! A site's annotations, by `step`, in the words of `llvm-pdbutil dump --symbols`: the bytes of each, and its effect on the
//! code offset and the line offset. Each is also read by `number`, and all of them by `decode`.

use std::fmt::Write;

use trovespan::{Number, Step, ENTRIES_EACH};

use crate::totals::Totals;

/// llvm-pdbutil's state within a site.
#[derive(Default)]
struct State {
    code: u32,
    line: i32,
}

pub fn write(bytes: &[u8], text: &mut String, totals: &mut Totals) -> Result<(), String> {
    let mut state = State::default();
    let mut stepped = Vec::new();
    let mut at = 0;
    while at < bytes.len() {
        let (step, next) = trovespan::step(bytes, at);
        let said = match step {
            Step::Annotation { opcode, first, second, shortest, .. } => {
                stepped.extend([i64::from(opcode), first, second, i64::from(shortest)]);
                totals.opcodes[opcode as usize] += 1;
                if count_widths(bytes, at, next, totals)? != shortest {
                    return Err(format!("the forms at {at} of {} are not what the step says", hex(bytes)));
                }
                totals.shortest += usize::from(shortest);
                totals.longer += usize::from(!shortest);
                state.said(opcode, first, second)
            }
            Step::End => String::new(),
            Step::Refused(why) => return Err(format!("the annotations {} are refused: {why:?}", hex(bytes))),
        };
        writeln!(text, "{:9}{said}", hex(&bytes[at..next])).unwrap();
        at = next;
    }
    decoded(bytes, &stepped)
}

/// Checks that the annotation is a row of numbers with nothing before, between or after them. Returns whether all of
/// them are shortest.
fn count_widths(bytes: &[u8], at: usize, next: usize, totals: &mut Totals) -> Result<bool, String> {
    let mut place = at;
    let mut shortest = true;
    while place < next {
        let (number, after) = trovespan::number(bytes, place);
        let number = number.map_err(|why| format!("a number of the annotations {} is refused: {why:?}", hex(bytes)))?;
        if number.taken != after - place || number.shortest != is_shortest(number) {
            return Err(format!("the number at {place} of {} is read as {number:?}", hex(bytes)));
        }
        totals.widths[number.taken] += 1;
        shortest &= number.shortest;
        place = after;
    }
    if place != next {
        return Err(format!("the annotation at {at} of {} ends within a number", hex(bytes)));
    }
    Ok(shortest)
}

/// Whether a number takes no more bytes than it needs, by its value and not by what the crate says.
pub fn is_shortest(number: Number) -> bool {
    let needed = match number.value {
        0..=0x7f => 1,
        0x80..=0x3fff => 2,
        _ => 4,
    };
    number.taken == needed
}

/// Checks that decoding all gives what the steps gave.
fn decoded(bytes: &[u8], stepped: &[i64]) -> Result<(), String> {
    let mut store = vec![0; stepped.len()];
    let count = trovespan::decode(bytes, &mut store);
    if count != Ok(stepped.len() / ENTRIES_EACH) || store != stepped {
        return Err(format!("the annotations {} are decoded as {count:?}, {store:?}", hex(bytes)));
    }
    Ok(())
}

impl State {
    fn said(&mut self, opcode: u32, first: i64, second: i64) -> String {
        match opcode {
            1 | 2 | 3 => self.code_offset(first),
            4 => {
                let said = self.code_end(first);
                self.code = self.code.wrapping_add(first as u32);
                said
            }
            // llvm-pdbutil prints the file's offset and then a placeholder for a name, which it does not fill in.
            5 => format!(" setfile {first:X} 0x1"),
            6 => self.line_offset(first),
            7 => format!(" ChangeLineEndDelta {first}"),
            8 => format!(" ChangeRangeKind {first}"),
            9 => format!(" ChangeColumnStart {first}"),
            10 => format!(" ChangeColumnEndDelta {first}"),
            11 => self.code_offset(first) + &self.line_offset(second),
            12 => self.code_offset(second) + &self.code_end(first),
            _ => format!(" ChangeColumnEnd {first}"),
        }
    }

    fn code_offset(&mut self, delta: i64) -> String {
        self.code = self.code.wrapping_add(delta as u32);
        format!(" code 0x{:X} (+0x{delta:X})", self.code)
    }

    fn code_end(&self, size: i64) -> String {
        format!(" code end 0x{:X} (+0x{size:X})", self.code.wrapping_add(size as u32))
    }

    fn line_offset(&mut self, delta: i64) -> String {
        self.line = self.line.wrapping_add(delta as i32);
        let sign = if delta > 0 { '+' } else { '-' };
        format!(" line {} ({sign}{})", self.line, delta.abs())
    }
}

pub fn hex(bytes: &[u8]) -> String {
    bytes.iter().map(|byte| format!("{byte:02X}")).collect()
}

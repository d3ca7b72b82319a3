//! The annotations of every site, by `decode` and then by `write_annotations`, in place of the old ones in a copy of
//! the file.

use std::ops::Range;

use trovespan::{Step, ENTRIES_EACH, RECORD_ENTRIES};

use crate::annotations::{hex, is_shortest};
use crate::container::Container;
use crate::sites;

/// The totals over all files.
#[derive(Default)]
pub struct Saving {
    /// The number of sites whose bytes stay as they are, and of the others.
    unchanged: usize,
    changed: usize,
    annotations: usize,
    /// The number of bytes that the annotations took, and take now. The end of a site is no annotation.
    before: usize,
    after: usize,
}

impl Saving {
    pub fn text(&self) -> String {
        let lines = [
            ("sites-written", self.unchanged + self.changed),
            ("sites-unchanged", self.unchanged),
            ("sites-changed", self.changed),
            ("annotations-written", self.annotations),
            ("bytes-before", self.before),
            ("bytes-after", self.after),
            ("bytes-saved", self.before - self.after),
        ];
        lines.iter().map(|(name, count)| format!("{name} {count}\n")).collect()
    }
}

/// A copy of the file, with the annotations of every site in their shortest form.
pub fn shortened(file: &[u8], saving: &mut Saving) -> Result<Vec<u8>, String> {
    let container = Container::open(file)?;
    let mut streams = container.streams()?;
    for site in sites::all(&streams)? {
        let stream = streams[site.stream].as_mut().ok_or("a site in an absent stream")?;
        shorten(&mut stream[site.annotations()], saving)?;
    }
    let mut copy = file.to_vec();
    container.put(&streams, &mut copy)?;
    Ok(copy)
}

/// Writes a site's annotations in place of themselves. The bytes that become free are zero, which is the end.
fn shorten(bytes: &mut [u8], saving: &mut Saving) -> Result<(), String> {
    let old = bytes.to_vec();
    let entries = decoded(&old)?;
    let records: Vec<i64> = entries.chunks(ENTRIES_EACH).flat_map(|each| &each[..RECORD_ENTRIES]).copied().collect();
    let before = length(&old);
    // Refused if they take more bytes than before, since there is no more room.
    let after = trovespan::write_annotations(&records, &mut bytes[..before])
        .map_err(|why| format!("the annotations {} are not written again: {why}", hex(&old)))?;
    bytes[after..before].fill(0);
    let wanted: Vec<i64> = records.chunks(RECORD_ENTRIES).flat_map(|record| [record, &[1]].concat()).collect();
    let written = &bytes[..after];
    let sound = all_shortest(written) && decoded(written)? == wanted && decoded(bytes)? == wanted;
    // The bytes stay as they are exactly if every number has its shortest form and no operand is an odd zero.
    let same = entries == wanted && !has_odd_zero(&old)?;
    if !sound || same != (*bytes == old) {
        return Err(format!("the annotations {} are written as {}", hex(&old), hex(bytes)));
    }
    saving.unchanged += usize::from(same);
    saving.changed += usize::from(!same);
    saving.annotations += records.len() / RECORD_ENTRIES;
    saving.before += before;
    saving.after += after;
    Ok(())
}

/// The entries of the annotations.
fn decoded(bytes: &[u8]) -> Result<Vec<i64>, String> {
    // An annotation takes at least two bytes.
    let mut entries = vec![0; bytes.len() / 2 * ENTRIES_EACH];
    let count = trovespan::decode(bytes, &mut entries)
        .map_err(|why| format!("the annotations {} are refused: {why}", hex(bytes)))?;
    entries.truncate(count * ENTRIES_EACH);
    Ok(entries)
}

/// Where each annotation is.
fn places(bytes: &[u8]) -> Vec<Range<usize>> {
    let mut places = Vec::new();
    let mut at = 0;
    while let (Step::Annotation { .. }, next) = trovespan::step(bytes, at) {
        places.push(at..next);
        at = next;
    }
    places
}

/// The number of bytes that the annotations take.
fn length(bytes: &[u8]) -> usize {
    places(bytes).last().map_or(0, |last| last.end)
}

/// Whether an annotation has a signed operand that is odd and reads as 0, which is written as 0: 1 for the opcodes 6 and
/// 10, and 16 to 31 for 11, where the lowest four bits are another operand.
fn has_odd_zero(bytes: &[u8]) -> Result<bool, String> {
    for place in places(bytes) {
        let (opcode, after) = trovespan::number(bytes, place.start);
        let (operand, _) = trovespan::number(bytes, after);
        let values = opcode.and_then(|opcode| operand.map(|operand| (opcode.value, operand.value)));
        if matches!(values.map_err(|why| why.to_string())?, (6 | 10, 1) | (11, 16..=31)) {
            return Ok(true);
        }
    }
    Ok(false)
}

/// Whether every number takes no more bytes than it needs.
fn all_shortest(bytes: &[u8]) -> bool {
    let mut at = 0;
    while at < bytes.len() {
        let (number, next) = trovespan::number(bytes, at);
        if !number.map_or(false, is_shortest) {
            return false;
        }
        at = next;
    }
    true
}

//! The line records of every site, by `run_lines`, held against what llvm-pdbutil printed of the site. The records must
//! be the same, but for the differences that are forecast; and those must be there.

use trovespan::{DecodeRefusal, LineRecord, LINE_ENTRIES};

use crate::annotations::hex;
use crate::container::Container;
use crate::forecast::{Forecast, AHEAD_BY};
use crate::printed;
use crate::sites;

/// The totals over all files.
#[derive(Default)]
pub struct Compared {
    /// The number of sites: whose records are LLVM's, whose are not, and that are refused.
    equal: usize,
    differ: usize,
    refused: usize,
    /// The number of sites in which each opcode of `AHEAD_BY` is, and of those whose records it makes differ.
    with: [usize; 3],
    differ_by: [usize; 3],
    /// The number of records, and of those that LLVM has at another offset.
    records: usize,
    moved: usize,
    /// The number of records that begin below the one before, that have a length and that have none, that begin below
    /// line 0, and that have another file, line count, kind, start and end column than at the start.
    falling: usize,
    ending: usize,
    open: usize,
    below_zero: usize,
    others: [usize; 5],
}

const START: LineRecord =
    LineRecord { offset: 0, length: None, file: 0, line: 0, line_count: 1, kind: 1, start_column: 0, end_column: 0 };

pub fn compare(file: &[u8], printed: &str, totals: &mut Compared) -> Result<(), String> {
    let streams = Container::open(file)?.streams()?;
    let sites = sites::all(&streams)?;
    let printed = printed::sites(printed)?;
    if !sites.iter().map(sites::Site::at).eq(printed.iter().map(|site| site.at)) {
        return Err("llvm-pdbutil printed other sites".to_string());
    }
    for (site, printed) in sites.iter().zip(&printed) {
        let stream = streams[site.stream].as_ref().ok_or("a site in an absent stream")?;
        let bytes = &stream[site.annotations()];
        compare_site(bytes, &printed.annotations, totals)
            .map_err(|why| format!("the line program {}: {why}", hex(bytes)))?;
    }
    Ok(())
}

fn compare_site(bytes: &[u8], printed: &[printed::Annotation], totals: &mut Compared) -> Result<(), String> {
    let forecast = Forecast::new(bytes);
    for (which, opcode) in AHEAD_BY.iter().enumerate() {
        totals.with[which] += usize::from(printed.iter().any(|annotation| annotation.opcode == *opcode));
    }
    match (run(bytes), forecast.refused) {
        (Ok(Some(records)), None) => compare_records(&records, printed, &forecast, totals),
        (Err(why), Some(refused)) if why == refused => {
            totals.refused += 1;
            Ok(())
        }
        (answer, refused) => Err(format!("the answer is {answer:?}, and the refusal that is forecast {refused:?}")),
    }
}

/// `None` if the entries of a record make none.
fn run(bytes: &[u8]) -> Result<Option<Vec<LineRecord>>, DecodeRefusal> {
    // An annotation takes at least two bytes, and emits at most one record.
    let mut store = vec![0; bytes.len() / 2 * LINE_ENTRIES];
    let count = trovespan::run_lines(bytes, &mut store)?;
    Ok(trovespan::line_records(&store[..count * LINE_ENTRIES]).collect())
}

/// They must differ from what LLVM's words make exactly if that is forecast, and then only by what LLVM is ahead.
fn compare_records(
    records: &[LineRecord],
    printed: &[printed::Annotation],
    forecast: &Forecast,
    totals: &mut Compared,
) -> Result<(), String> {
    let llvms = by_llvm(printed, |_| 0);
    let same = records == llvms;
    if same == forecast.differs() {
        let wanted = if same { "must differ" } else { "must not differ" };
        return Err(format!("ours and LLVM's {wanted}: {records:?}, {llvms:?}"));
    }
    let corrected = by_llvm(printed, |record| forecast.ahead_at(record));
    if records != corrected {
        return Err(format!("ours and LLVM's, without what it is ahead, differ: {records:?}, {corrected:?}"));
    }
    totals.equal += usize::from(same);
    totals.differ += usize::from(!same);
    for which in 0..AHEAD_BY.len() {
        totals.differ_by[which] += usize::from(forecast.has_effect(which));
    }
    totals.count(records, forecast);
    Ok(())
}

/// What LLVM's words make of a site: a record for each annotation that emits one. LLVM prints the lengths that 4 and 12
/// set; the others are the differences of its offsets. `ahead` is taken from a record's offset.
fn by_llvm(printed: &[printed::Annotation], ahead: impl Fn(usize) -> u32) -> Vec<LineRecord> {
    let mut records: Vec<LineRecord> = Vec::new();
    let mut next = START;
    for annotation in printed {
        next.offset = annotation.code.unwrap_or(next.offset);
        next.line = annotation.line.map_or(next.line, i64::from);
        let operand = annotation.operand.unwrap_or(0);
        match annotation.opcode {
            3 | 11 | 12 => {
                let offset = next.offset.wrapping_sub(ahead(records.len()));
                records.push(LineRecord { offset, length: annotation.length, ..next });
            }
            4 => records.last_mut().into_iter().for_each(|last| last.length = annotation.length),
            5 => next.file = operand as u32,
            7 => next.line_count = operand as u32,
            8 => next.kind = operand as u32,
            9 => next.start_column = operand as u32,
            10 => next.end_column += operand,
            13 => next.end_column = operand,
            _ => {}
        }
    }
    close(&mut records);
    records
}

fn close(records: &mut [LineRecord]) {
    for index in 1..records.len() {
        let offset = records[index].offset;
        let last = &mut records[index - 1];
        last.length = last.length.or(Some(offset.wrapping_sub(last.offset)));
    }
}

impl Compared {
    fn count(&mut self, records: &[LineRecord], forecast: &Forecast) {
        self.records += records.len();
        self.falling += forecast.falling;
        for (index, record) in records.iter().enumerate() {
            self.moved += usize::from(forecast.ahead_at(index) != 0);
            self.ending += usize::from(record.length.is_some());
            self.open += usize::from(record.length.is_none());
            self.below_zero += usize::from(record.line < 0);
            let others = [
                record.file != START.file,
                record.line_count != START.line_count,
                record.kind != START.kind,
                record.start_column != START.start_column,
                record.end_column != START.end_column,
            ];
            self.others.iter_mut().zip(others).for_each(|(count, other)| *count += usize::from(other));
        }
    }

    pub fn text(&self) -> String {
        let mut lines = vec![
            ("programs".to_string(), self.equal + self.differ + self.refused),
            ("programs-as-llvm".to_string(), self.equal),
            ("programs-differ".to_string(), self.differ),
        ];
        for (which, opcode) in AHEAD_BY.iter().enumerate() {
            lines.push((format!("programs-with-{opcode}"), self.with[which]));
            lines.push((format!("programs-differ-by-{opcode}"), self.differ_by[which]));
        }
        lines.extend([
            ("programs-refused".to_string(), self.refused),
            ("records".to_string(), self.records),
            ("records-moved".to_string(), self.moved),
            ("records-falling".to_string(), self.falling),
            ("records-ending".to_string(), self.ending),
            ("records-open".to_string(), self.open),
            ("records-below-zero".to_string(), self.below_zero),
        ]);
        let others = ["file", "count", "kind", "start", "end"];
        lines.extend(others.iter().zip(self.others).map(|(name, count)| (format!("records-other-{name}"), count)));
        lines.iter().map(|(name, count)| format!("{name} {count}\n")).collect()
    }
}

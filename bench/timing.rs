//! Measures calls that answer into lent stores.

use trovespan::{ENTRIES_EACH, LINE_ENTRIES};

use super::clock::{self, thread_seconds, Runs};
use super::inputs::{LONGEST_FILE, LONGEST_STREAM, MOST_ANNOTATIONS, PAGE};

/// The figure of a refused call.
pub const REFUSED: u64 = 0;

/// The stores that are lent for the answers.
pub struct Stores {
    pub offsets: Vec<u64>,
    pub sizes: Vec<u64>,
    pub bytes: Vec<u8>,
    pub entries: Vec<i64>,
    pub lines: Vec<i64>,
}

/// A call returns a figure that is the same for both sides of a case. The compiler cannot see which call
/// it is, so it optimises nothing away.
pub type Call = dyn Fn(&mut Stores) -> u64;

impl Stores {
    pub fn new() -> Self {
        Stores {
            offsets: vec![0; LONGEST_STREAM / PAGE],
            sizes: vec![0; LONGEST_STREAM / PAGE],
            bytes: vec![0; LONGEST_FILE],
            entries: vec![0; ENTRIES_EACH * MOST_ANNOTATIONS],
            lines: vec![0; LINE_ENTRIES * MOST_ANNOTATIONS],
        }
    }

    fn clear(&mut self) {
        self.lines.fill(0);
        self.offsets.fill(0);
        self.sizes.fill(0);
        self.bytes.fill(0);
        self.entries.fill(0);
    }
}

/// The runs of each call.
pub fn measure(calls: &[&Call], stores: &mut Stores) -> Vec<Runs> {
    clock::measure(calls, |call, count| run(call, count, stores))
}

/// The seconds of the thread's time that `count` calls take, into cleared stores.
#[inline(never)]
fn run(call: &Call, count: u32, stores: &mut Stores) -> f64 {
    stores.clear();
    let began = thread_seconds();
    for _ in 0..count {
        call(stores);
    }
    thread_seconds() - began
}

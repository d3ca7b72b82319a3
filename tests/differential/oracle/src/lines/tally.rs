//! The answers of a list, counted. A list that has none of one kind would not show how ours answers there.

use super::reckoning::{records, Cause, Why};

/// A list of so many programs must have every kind of answer.
const MANY: usize = 1000;

#[derive(Default)]
pub struct Tally {
    programs: usize,
    records: usize,
    accepted: Kind,
    empty: Kind,
    short: Kind,
    invalid: Kind,
    unknown: Kind,
    above: Kind,
    falling: Kind,
    nothing: Kind,
}

type Kind = usize;

impl Tally {
    pub fn take(&mut self, bytes: &[u8]) {
        self.programs += 1;
        *self.kind(bytes) += 1;
    }

    fn kind(&mut self, bytes: &[u8]) -> &mut Kind {
        match records(bytes) {
            Ok(records) if records.is_empty() => &mut self.empty,
            Ok(records) => {
                self.records += records.len();
                &mut self.accepted
            }
            Err(Why::Undecoded((7, _), _)) => &mut self.short,
            Err(Why::Undecoded((8, _), _)) => &mut self.invalid,
            Err(Why::Undecoded(_, _)) => &mut self.unknown,
            Err(Why::BadLine(_, Cause::OffsetAbove32Bits)) => &mut self.above,
            Err(Why::BadLine(_, Cause::FallingOffset)) => &mut self.falling,
            Err(Why::BadLine(_, Cause::NothingEmitted)) => &mut self.nothing,
            Err(why) => crate::stop(&format!("no program of a list is refused by {:?}", why)),
        }
    }

    /// Says how many answers of each kind there are. Stops if there are many programs, and none of one kind.
    pub fn say(&self) {
        let kinds = [
            (self.accepted, "accepted with records"),
            (self.empty, "without"),
            (self.short, "refused by 7"),
            (self.invalid, "by 8"),
            (self.unknown, "by 9"),
            (self.above, "by 25 for an offset above 32 bits"),
            (self.falling, "for a falling offset"),
            (self.nothing, "for a length before any emission"),
        ];
        let said: Vec<String> = kinds
            .iter()
            .map(|(n, kind)| format!("{} {}", n, kind))
            .collect();
        eprintln!(
            "oracle: {} line records; of {} programs {}",
            self.records,
            self.programs,
            said.join(", ")
        );
        if self.programs >= MANY && kinds.iter().any(|&(n, _)| n == 0) {
            crate::stop("a list of so many programs must have every kind of answer");
        }
    }
}

//! Questions about one base file.

use super::answers::{bytes, Library, Stage};
use super::lent::Lent;
use super::list::{Record, MOST_BYTES, MOST_ENTRIES};
use super::pdb::{needed, slices, Wanted};
use super::question::{
    Question, Rooms, Run, Start, Sweep, COUNT, DIRECTORY, EXTRACT, LIST, LOCATION_LIST, MAP, OPEN,
    STAGES,
};

/// Stores that hold the answers of small streams.
const SMALL_ROOMS: Rooms = Rooms {
    offsets: 4,
    sizes: 4,
    bytes: 700,
};

/// A base file and the questions about it.
pub struct About {
    pub base: Vec<u8>,
    pub records: Vec<Record>,
}

impl About {
    pub fn new(base: Vec<u8>) -> Self {
        About {
            records: vec![Record::Base(base.clone())],
            base,
        }
    }

    /// Every operation on the unchanged base file and stream 0. The other questions vary this one.
    pub fn question(&self) -> Question {
        Question {
            length: self.base.len(),
            edits: Vec::new(),
            sweep: None,
            operations: OPEN | COUNT | MAP | EXTRACT | STAGES,
            stream: 0,
            limit: None,
            rooms: SMALL_ROOMS,
            from: Start::Head,
        }
    }

    pub fn edited(&self, edits: &[Run]) -> Question {
        Question {
            edits: edits.to_vec(),
            ..self.question()
        }
    }

    pub fn cut(&self, length: usize) -> Question {
        Question {
            length,
            ..self.question()
        }
    }

    pub fn ask(&mut self, question: Question) {
        self.records.push(Record::Question(question));
    }

    /// The question for each of these streams. Only the first asks for what does not depend on the stream.
    pub fn ask_streams(&mut self, question: Question, streams: &[u32]) {
        for (i, &stream) in streams.iter().enumerate() {
            let operations = if i == 0 {
                question.operations
            } else {
                question.operations & (MAP | EXTRACT)
            };
            self.ask(Question {
                stream,
                operations,
                ..question.clone()
            });
        }
    }

    /// The question for each of these streams, at every value of a byte.
    pub fn ask_swept(&mut self, at: usize, question: Question, streams: &[u32]) {
        let sweep = Some(Sweep {
            at,
            first: 0,
            last: 255,
        });
        self.ask_streams(Question { sweep, ..question }, streams);
    }

    /// The question with stores that are exactly enough, larger, one short and empty, and with one
    /// store shorter than the other.
    pub fn ask_rooms(&mut self, question: Question) {
        for rooms in rooms_around(self.needed(&question)) {
            self.ask(Question {
                rooms,
                ..question.clone()
            });
        }
    }

    /// Each stage of what mapping reads, with stores around what its part needs.
    pub fn ask_stages(&mut self, question: Question) {
        let stages = [
            (Stage::LocationList, LOCATION_LIST),
            (Stage::Directory, DIRECTORY),
        ];
        for &(stage, operations) in &stages {
            let needed = self.needed_at(&question, stage).map(|slices| (slices, 0));
            for rooms in rooms_around(needed) {
                self.ask(Question {
                    operations,
                    rooms,
                    ..question.clone()
                });
            }
        }
    }

    /// Both stages, with stores that are one entry larger than the larger part needs.
    pub fn ask_stages_with_room(&mut self, question: Question) {
        let needed = |stage| self.needed_at(&question, stage).unwrap_or(0);
        let slices = needed(Stage::LocationList).max(needed(Stage::Directory));
        self.ask(Question {
            operations: STAGES,
            rooms: rooms(slices + 1, slices + 1, 0),
            ..question
        });
    }

    /// The question with stores that are one entry larger than it needs.
    pub fn ask_with_room(&mut self, question: Question) {
        let rooms = match self.needed(&question) {
            Some((slices, bytes)) => rooms(slices + 1, slices + 1, bytes + 1),
            None => rooms(1, 1, 1),
        };
        self.ask(Question { rooms, ..question });
    }

    /// The listing alone, from a place on, in a room.
    pub fn ask_listing(&mut self, question: Question, from: Start, room: usize) {
        self.ask(Question {
            operations: LIST,
            rooms: rooms(0, 0, room),
            from,
            ..question
        });
    }

    /// The whole listing in rooms around what it needs.
    pub fn ask_listing_around(&mut self, question: Question) {
        let needed = self.listed(&question).unwrap_or(0);
        for &room in &[needed, needed.saturating_sub(1), needed + 20, 0] {
            self.ask_listing(question.clone(), Start::Head, room);
        }
    }

    /// The length of the whole listing, if pdb can be asked.
    pub fn listed(&self, question: &Question) -> Option<usize> {
        let file = question.files(&self.base).pop()?;
        Some(Wanted::listing(&file)?.text().len())
    }

    /// The number of slices and bytes of the mapping, if it is accepted.
    pub fn needed(&self, question: &Question) -> Option<(usize, usize)> {
        let file = question.files(&self.base).pop()?;
        let limit = bytes(question.limit);
        let slices = slices(Lent::lowered(&file), question.stream, limit)?.ok()?;
        let bytes = slices.iter().map(|slice| slice.size).sum();
        Some((slices.len(), bytes))
    }

    /// The number of slices of a stage's part, if it is accepted.
    pub fn needed_at(&self, question: &Question, stage: Stage) -> Option<usize> {
        let file = question.files(&self.base).pop()?;
        Some(needed(Lent::lowered(&file), stage).ok()?.len())
    }
}

/// Rooms around what is needed of entries and of bytes, or some, where it is refused.
fn rooms_around(needed: Option<(usize, usize)>) -> Vec<Rooms> {
    match needed {
        Some((slices, bytes)) => vec![
            rooms(slices, slices, bytes),
            rooms(slices.saturating_sub(1), slices, bytes.saturating_sub(1)),
            rooms(slices, slices.saturating_sub(1), bytes + 1),
            rooms(slices + 1, slices, bytes + 9),
            rooms(slices, slices + 2, bytes),
            rooms(0, 0, 0),
        ],
        None => vec![rooms(0, 0, 0), rooms(2, 1, 5)],
    }
}

/// Rooms, cut to what a record can hold.
pub fn rooms(offsets: usize, sizes: usize, bytes: usize) -> Rooms {
    Rooms {
        offsets: offsets.min(MOST_ENTRIES),
        sizes: sizes.min(MOST_ENTRIES),
        bytes: bytes.min(MOST_BYTES),
    }
}

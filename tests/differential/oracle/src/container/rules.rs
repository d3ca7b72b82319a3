//! The inputs of `docs/RULES.md` about containers, row by row.
//!
//! An input is the project's file F except for what it names. As in the table, a place in F's location
//! list or directory is a byte number. R11, R12 and R46 to R59 are about annotations, R60 about reads
//! (`buffer/rules.rs`), R61 to R70 about the listing, R132 to R136 about the parts that mapping reads.

use super::ask::About;
use super::files::{Container, DIRECTORY_SIZE, ENTRIES, PAGES_USED, PAGE_SIZE, SMALL_MAGIC};
use super::question::{
    Question, Rooms, Run, Start, COUNT, EXTRACT, LIST, MAP, OPEN, STAGES,
};
use crate::random::Random;

const FREE_PAGE_MAP: usize = 36;
const RESERVED: usize = 48;

/// The rooms of a row that names none.
const ROOMS: Rooms = Rooms {
    offsets: 8,
    sizes: 8,
    bytes: 1024,
};

/// The questions of all rows, in the table's order. The bytes that F leaves free are random.
pub fn rows(random: &mut Random) -> About {
    let mut about = About::new(Container::f().file_of_noise(random));
    let rows = [
        formats_and_page_sizes(),
        pages_and_streams(),
        order_and_stores(),
        header(),
        directory(),
        streams(),
        mapping_and_extraction(),
        slices(),
        listing_refused(),
        listing(),
        parts(),
    ];
    for question in rows.concat() {
        about.ask(question);
    }
    about
}

fn formats_and_page_sizes() -> Vec<Question> {
    let small = || f().bytes(0, SMALL_MAGIC);
    vec![
        // R1
        f().cut(4095).open(),
        f().cut(4096).open(),
        f().cut(0).open(),
        // R2
        f().bytes(31, &[1]).open(),
        f().open(),
        // R3
        small().open(),
        small().bytes(41, &[0x48]).open(),
        small().cut(4095).open(),
        // R4
        f().put(PAGE_SIZE, &[0x180]).open(),
        f().put(PAGE_SIZE, &[0]).open(),
        f().put(PAGE_SIZE, &[0x100]).open(),
        // R5
        f().put(PAGE_SIZE, &[0x80]).open(),
        f().put(PAGE_SIZE, &[0x100]).open(),
        f().put(PAGE_SIZE, &[0x80_0000]).open(),
        f().put(PAGE_SIZE, &[0x100_0000]).open(),
    ]
}

fn pages_and_streams() -> Vec<Question> {
    vec![
        // R6
        f().put(1056, &[23]).map(2),
        f().put(1056, &[24]).map(2),
        f().put(1056, &[25]).map(2),
        f().put(1056, &[0]).map(2),
        f().put(PAGES_USED, &[5]).count(),
        f().put(PAGES_USED, &[4]).open(),
        f().put(PAGES_USED, &[4]).count(),
        f().put(PAGES_USED, &[3]).open(),
        f().put(PAGES_USED, &[1]).put(ENTRIES, &[1]).open(),
        f().put(PAGES_USED, &[0]).open(),
        // R7
        f().map(2),
        f().map(3),
        f().map(0xffff_ffff),
        f().put(1024, &[0]).map(0),
        // R8
        f().map(1),
        f().put(1032, &[0xffff_fffe]).map(1),
        f().put(1032, &[0]).map(1),
        // R9
        f().cut(5420).extract(0),
        f().cut(5419).extract(0),
        f().cut(5419).map(0),
        f().cut(5419).extract(0).limited(299),
        // R10, and R22's
        f().put(DIRECTORY_SIZE, &[35]).map(2),
        f().put(DIRECTORY_SIZE, &[36]).map(2),
    ]
}

fn order_and_stores() -> Vec<Question> {
    let no_entry = || f().put(ENTRIES, &[0]);
    vec![
        // R13
        f().map(2).rooms(1, 1),
        f().map(2).rooms(2, 2),
        f().extract(2).room(599),
        f().extract(2).room(600),
        // R14
        no_entry().put(PAGE_SIZE, &[0]).bytes(31, &[1]).open(),
        no_entry().put(PAGE_SIZE, &[0]).open(),
        no_entry().open(),
        // R15. F comes just before, to detect a header kept from it.
        f().all(2),
        f().put(PAGE_SIZE, &[0x180]).all(2),
        f().put(ENTRIES, &[25]).all(2),
        // R16
        f().map(2).rooms(1, 8),
        f().map(2).rooms(1, 8).limited(512),
        f().extract(2).room(599),
        // R17
        f().map(2).rooms(3, 4),
        f().extract(2).room(601),
        // R18
        f().map(2).limited(512),
        f().map(2).limited(513),
        f().extract(2).limited(513),
    ]
}

fn header() -> Vec<Question> {
    // No rule reads these words.
    let unread = || {
        f().put(FREE_PAGE_MAP, &[0xffff_ffff])
            .put(RESERVED, &[0xffff_ffff])
    };
    vec![
        // R19
        f().bytes(PAGES_USED, &[0x00, 0x00, 0x00, 0x18]).open(),
        unread().all(0),
        unread().all(1),
        unread().all(2),
        f().put(PAGES_USED, &[0xffff_ffff]).open(),
        // R20
        f().put(1028, &[512]).map(0),
        f().put(1028, &[512]).map(2),
        f().put(1028, &[513]).map(0),
        f().put(1028, &[513]).map(2),
        // R21
        f().put(ENTRIES, &[0]).put(DIRECTORY_SIZE, &[0]).open(),
        f().put(ENTRIES, &[0]).put(DIRECTORY_SIZE, &[1]).open(),
        f().put(56, &[0]).put(DIRECTORY_SIZE, &[16_384]).open(),
        f().put(56, &[0]).put(DIRECTORY_SIZE, &[16_385]).open(),
        // R22
        g().put(DIRECTORY_SIZE, &[16_564_224]).open(),
        g().put(DIRECTORY_SIZE, &[16_564_224]).count(),
        g().put(DIRECTORY_SIZE, &[16_564_225]).open(),
        g_of_4096().put(DIRECTORY_SIZE, &[4_240_441_344]).open(),
        g_of_4096().put(DIRECTORY_SIZE, &[4_240_441_345]).open(),
        // R23
        g().put(DIRECTORY_SIZE, &[16_564_225])
            .put(4092, &[25])
            .open(),
        f().put(DIRECTORY_SIZE, &[16_385])
            .put(ENTRIES, &[26, 25])
            .open(),
        // R24
        f().put(768, &[0]).open(),
        f().put(768, &[0]).count(),
    ]
}

fn directory() -> Vec<Question> {
    let location_at_end = || f().put(ENTRIES, &[16]).put(4096, &[4]);
    let two_location_pages = || e().put(DIRECTORY_SIZE, &[16_385]).put(768, &[0]);
    let directory_at_end = || {
        let words = Container::f().directory();
        f().put(768, &[16]).put(4096, &words)
    };
    let two_pages = || e().put(DIRECTORY_SIZE, &[257]);
    vec![
        // R25
        location_at_end().cut(4100).count(),
        location_at_end().cut(4099).open(),
        location_at_end().cut(4099).count(),
        // R26
        two_location_pages().put(ENTRIES, &[3, 24]).count(),
        two_location_pages().put(ENTRIES, &[3, 3]).count(),
        // R27
        f().put(768, &[4, 25]).put(DIRECTORY_SIZE, &[256]).count(),
        f().put(768, &[4, 25]).put(DIRECTORY_SIZE, &[257]).count(),
        // R28
        directory_at_end().cut(4132).count(),
        directory_at_end().cut(4131).count(),
        // R29
        two_pages().put(768, &[24, 26]).count(),
        two_pages().put(768, &[24, 4]).count(),
        // R30
        over_two_pages().put(768, &[4, 7]).map(60),
        over_two_pages().put(768, &[4, 8]).map(60),
        // R31
        f().put(DIRECTORY_SIZE, &[0]).open(),
        f().put(DIRECTORY_SIZE, &[0]).count(),
        f().put(DIRECTORY_SIZE, &[3]).open(),
        f().put(DIRECTORY_SIZE, &[3]).count(),
        f().put(DIRECTORY_SIZE, &[4]).count(),
        f().put(DIRECTORY_SIZE, &[4])
            .put(1024, &[0xffff_ffff])
            .count(),
    ]
}

fn streams() -> Vec<Question> {
    let of_512 = || f().put(1036, &[512]);
    vec![
        // R32
        of_512().map(2),
        of_512().put(1032, &[1]).map(2),
        of_512().put(1032, &[0xffff_fffe]).map(2),
        // R33
        f().put(DIRECTORY_SIZE, &[3]).map(3),
        f().put(DIRECTORY_SIZE, &[4]).map(3),
        f().put(DIRECTORY_SIZE, &[4]).map(2),
        // R34
        f().put(DIRECTORY_SIZE, &[11]).map(1),
        f().put(DIRECTORY_SIZE, &[12]).map(1),
        f().put(DIRECTORY_SIZE, &[12]).map(0),
        // R35
        f().put(1028, &[0]).put(DIRECTORY_SIZE, &[15]).map(0),
        f().put(1028, &[0]).put(DIRECTORY_SIZE, &[16]).map(0),
        f().put(1036, &[0]).put(DIRECTORY_SIZE, &[23]).map(2),
        f().put(1036, &[0]).put(DIRECTORY_SIZE, &[24]).map(2),
        // R36
        f().put(1056, &[25]).put(DIRECTORY_SIZE, &[35]).map(2),
        f().put(1056, &[25]).put(DIRECTORY_SIZE, &[36]).map(2),
        f().put(1052, &[25]).put(DIRECTORY_SIZE, &[35]).map(2),
    ]
}

fn mapping_and_extraction() -> Vec<Question> {
    let nothing = |file: Question| file.map(2).limited(0).rooms(0, 0);
    vec![
        // R37
        f().map(2).limited(599),
        f().map(2).limited(600),
        f().map(2).limited(700),
        f().map(2),
        // R38
        nothing(f()),
        nothing(f().put(1056, &[25])),
        nothing(f().put(DIRECTORY_SIZE, &[35])),
        // R39
        f().put(1056, &[25]).map(2).rooms(0, 0),
        e().put(1056, &[24]).map(2).rooms(0, 0),
        // R40
        f().put(1056, &[25]).extract(2).room(0),
        e().put(1056, &[24]).extract(2).room(0),
        f().extract(2).room(0),
        e().put(1056, &[24]).extract(2).limited(512),
        e().put(1056, &[24]).extract(2).limited(513),
        // R41
        marked().extract(2),
    ]
}

fn slices() -> Vec<Question> {
    let high = || f().put(PAGES_USED, &[0xffff_ffff]);
    vec![
        // R42
        f().put(1048, &[10, 11, 5]).map(2),
        f().put(1048, &[11, 10, 5]).map(2),
        f().put(1048, &[10, 10, 11]).map(2),
        // R43
        high().put(1048, &[0xffff_fffe, 0xffff_fffe, 5]).map(2),
        high().put(1048, &[0xffff_fffe, 0xffff_ffff, 5]).map(2),
        // R44
        f().map(2).limited(512),
        f().map(2).limited(513),
        f().map(2).limited(1),
        // R45
        f().map(2).rooms(1, 1).limited(512),
        f().map(2).rooms(1, 1).limited(513),
        f().map(2).rooms(2, 1),
        f().map(2).rooms(1, 2),
    ]
}

fn parts() -> Vec<Question> {
    vec![
        // R132
        f().parts(),
        f().put(ENTRIES, &[5]).parts(),
        f().put(ENTRIES, &[24]).parts(),
        // R133
        f().put(768, &[23]).parts(),
        f().put(768, &[24]).parts(),
        f().put(DIRECTORY_SIZE, &[0]).parts(),
        // R134
        f().put(DIRECTORY_SIZE, &[257]).put(768, &[4, 5]).parts(),
        f().put(DIRECTORY_SIZE, &[257]).put(768, &[4, 6]).parts(),
        // R135
        f().put(768, &[20]).cut(4096).parts(),
        f().put(ENTRIES, &[20]).cut(4096).parts(),
        // R136
        f().parts().rooms(1, 1),
        f().parts().rooms(1, 0),
        f().put(DIRECTORY_SIZE, &[257]).put(768, &[4, 6]).parts().rooms(1, 2),
    ]
}

fn listing_refused() -> Vec<Question> {
    let no_magic = || f().bytes(0, &[0]);
    vec![
        // R61
        f().long(65_536).list(),
        f().long(65_537).list(),
        no_magic().long(65_536).list(),
        no_magic().long(65_537).list(),
        // R62
        f().put(PAGE_SIZE, &[0x180]).list(),
        f().put(768, &[0]).list(),
        e().put(768, &[24]).put(DIRECTORY_SIZE, &[15]).list(),
        f().put(DIRECTORY_SIZE, &[3]).list(),
        // R63
        f().put(DIRECTORY_SIZE, &[15]).list(),
        f().put(DIRECTORY_SIZE, &[16]).list(),
        f().put(1024, &[0x3fff_ffff]).list(),
        // R64
        h(4096, 16_388).list().room(65_536),
        h(4097, 16_392).list(),
        h(4097, 16_391).list(),
        // R65
        f().put(PAGE_SIZE, &[0x180]).list().room(14),
        f().put(PAGE_SIZE, &[0x180]).list().room(13),
    ]
}

fn listing() -> Vec<Question> {
    vec![
        // R66
        f().list().room(35),
        f().list().room(34),
        // R67
        f().put(1036, &[512]).list(),
        f().put(1036, &[513]).list(),
        e().put(1056, &[24]).list(),
        // R68
        f().list(),
        f().put(1032, &[0]).list(),
        f().put(1032, &[0xffff_fffe]).list(),
        // R69
        f().put(1056, &[25]).list(),
        f().put(1040, &[0]).list(),
        f().put(DIRECTORY_SIZE, &[35]).list(),
        f().put(1036, &[0]).put(DIRECTORY_SIZE, &[16]).list(),
        // R70
        f().put(1036, &[9]).list(),
        f().put(1036, &[10]).list(),
        f().put(1040, &[0xffff_ffff]).list(),
    ]
}

/// F, with no operation asked for yet.
fn f() -> Question {
    Question {
        length: Container::f().length,
        edits: Vec::new(),
        sweep: None,
        operations: 0,
        stream: 0,
        limit: None,
        rooms: ROOMS,
        from: Start::Head,
    }
}

/// The table's E: page 24 is legal and past the file.
fn e() -> Question {
    f().put(PAGES_USED, &[25])
}

/// The table's G: every word from the first location entry to one past the header block is 3.
fn g() -> Question {
    f().put(ENTRIES, &[3; 1012])
}

fn g_of_4096() -> Question {
    g().put(PAGE_SIZE, &[4096])
}

/// The table's H: all sizes of up to 4,097 streams are 0, in page 4 and in page 5 over and over.
fn h(count: u32, directory_size: u32) -> Question {
    f().put(DIRECTORY_SIZE, &[directory_size])
        .put(ENTRIES, &[3, 8])
        .put(768, &[4])
        .put(772, &[5; 63])
        .put(2048, &[5])
        .put(1024, &[count])
        .put(1028, &[0; 63])
        .put(1280, &[0; 64])
}

/// The last page number of stream 60 is the first word of the directory's second page. It is 5 in
/// page 7 and 0 in page 8.
fn over_two_pages() -> Question {
    let empty = [0; 60];
    let words = [&[61], &empty[..], &[600, 10, 11]].concat();
    f().put(DIRECTORY_SIZE, &[260])
        .put(1024, &words)
        .put(1792, &[5])
        .put(2048, &[0])
}

/// Stream 2 is zeros except for three bytes: the last of its first slice, the first of its second slice,
/// and the last of all. The byte after it is not zero either.
fn marked() -> Question {
    f().bytes(1280, &[0; 256])
        .bytes(2560, &[0; 512])
        .bytes(3071, &[1])
        .bytes(1280, &[2])
        .bytes(1367, &[3, 4])
}

/// How a row makes its question.
impl Question {
    /// These words from a place on.
    fn put(self, at: usize, words: &[u32]) -> Self {
        let bytes: Vec<u8> = words
            .iter()
            .flat_map(|w| w.to_le_bytes().to_vec())
            .collect();
        self.bytes(at, &bytes)
    }

    fn bytes(mut self, at: usize, bytes: &[u8]) -> Self {
        self.edits.push(Run {
            at,
            bytes: bytes.to_vec(),
        });
        self
    }

    /// Cuts the file, and what was put into it.
    fn cut(mut self, length: usize) -> Self {
        for edit in &mut self.edits {
            edit.bytes.truncate(length.saturating_sub(edit.at));
        }
        Question { length, ..self }
    }

    /// Extends the file by zeros.
    fn long(self, length: usize) -> Self {
        Question { length, ..self }
    }

    fn open(self) -> Self {
        Question {
            operations: OPEN,
            ..self
        }
    }

    fn count(self) -> Self {
        Question {
            operations: COUNT,
            ..self
        }
    }

    fn map(self, stream: u32) -> Self {
        Question {
            operations: MAP,
            stream,
            ..self
        }
    }

    fn extract(self, stream: u32) -> Self {
        Question {
            operations: EXTRACT,
            stream,
            ..self
        }
    }

    fn all(self, stream: u32) -> Self {
        Question {
            operations: OPEN | COUNT | MAP | EXTRACT,
            stream,
            ..self
        }
    }

    /// Both parts that mapping reads.
    fn parts(self) -> Self {
        Question {
            operations: STAGES,
            ..self
        }
    }

    fn list(self) -> Self {
        Question {
            operations: LIST,
            ..self
        }
    }

    fn limited(self, limit: u64) -> Self {
        Question {
            limit: Some(limit),
            ..self
        }
    }

    fn rooms(self, offsets: usize, sizes: usize) -> Self {
        let rooms = Rooms {
            offsets,
            sizes,
            ..self.rooms
        };
        Question { rooms, ..self }
    }

    fn room(self, bytes: usize) -> Self {
        let rooms = Rooms {
            bytes,
            ..self.rooms
        };
        Question { rooms, ..self }
    }
}

//! The inputs of `docs/RULES.md` about binary annotations, row by row.
//!
//! A question asks for the number and the steps at its place, and decodes the bytes with each room of
//! the row, so one question is enough for a row that names several of these. R1 to R9, R14, R15 and
//! R19 to R45 are about containers, R60 about reads (`buffer/rules.rs`), R61 to R70 about listings, R71 to
//! R80 about writing annotations (`writer/rules.rs`), R81 to R92 about writing containers (`pack/rules.rs`),
//! R101 to R131 about line programs (`lines/rules.rs`).

use super::list::Question;

/// No row names a larger room.
const LARGEST_NAMED_ROOM: usize = 8;

/// The questions of all rows, in the table's order.
pub fn questions() -> Vec<Question> {
    [
        refusals_and_stores(),
        numbers(),
        annotations(),
        steps(),
        decoding(),
        how_long(),
    ]
    .concat()
}

fn refusals_and_stores() -> Vec<Question> {
    vec![
        // R10
        start(&[0x80]),
        start(&[0x80, 0x00]),
        // R11
        start(&[0xe0, 0x00, 0x00, 0x00]),
        start(&[0xe0, 0x00, 0x00]),
        start(&[0xdf, 0x00, 0x00, 0x00]),
        // R12
        start(&[0x0d, 0x05]),
        start(&[0x0e, 0x05]),
        // R13
        start(&[0x03, 0x05]),
        // R16
        start(&[0x03, 0x05, 0x0e]),
        // R17
        start(&[0x03, 0x05]),
        // R18
        start(&[0x03, 0x05, 0x06, 0x03]),
    ]
}

fn numbers() -> Vec<Question> {
    vec![
        // R46
        start(&[0x7f]),
        start(&[0x80]),
        start(&[0x81, 0x02]),
        start(&[0xbf, 0xff]),
        start(&[0xc0, 0x00]),
        // R47
        start(&[0xc1, 0x02, 0x03, 0x04]),
        start(&[0xdf, 0xff, 0xff, 0xff]),
        start(&[0xe0, 0x00, 0x00, 0x00]),
        start(&[0xe0, 0x00, 0x00]),
        // R48
        start(&[0x80, 0x7f]),
        start(&[0x80, 0x06, 0xc0, 0x00, 0x00, 0x0f]),
        start(&[0xc0, 0x00, 0x00, 0x00, 0x03]),
    ]
}

fn annotations() -> Vec<Question> {
    // R49
    let mut questions = vec![
        start(&[0x0c, 0x03, 0x07]),
        start(&[0x0c, 0x03]),
        start(&[0x0d, 0x03, 0x07]),
    ];
    questions.extend((1..=13).map(|opcode| start(&[opcode, 0x05, 0x06])));
    questions.extend(vec![
        // R50
        start(&[0x06, 0x00]),
        start(&[0x06, 0x01]),
        start(&[0x06, 0x02]),
        start(&[0x06, 0x03]),
        start(&[0x0a, 0x0f]),
        start(&[0x07, 0x0f]),
        start(&[0x06, 0xdf, 0xff, 0xff, 0xff]),
        start(&[0x06, 0xdf, 0xff, 0xff, 0xfe]),
        // R51
        start(&[0x0b, 0x72]),
        start(&[0x0b, 0x1f]),
        start(&[0x0b, 0x20]),
        start(&[0x0b, 0x30]),
        // R52. No input shows what its type keeps apart.
        start(&[0x05, 0x07]),
    ]);
    questions
}

fn steps() -> Vec<Question> {
    vec![
        // R53
        at(2, &[0x03, 0x05]),
        at(3, &[0x03, 0x05]),
        at(1, &[0x03, 0x05]),
        at(0, &[]),
        at(1, &[]),
        // R54
        start(&[0x00, 0x03, 0x05]),
        start(&[0x00, 0x0e]),
        start(&[0x01, 0x00]),
        // R55
        start(&[0x01, 0xc0, 0x00, 0x00]),
        start(&[0x0c, 0x05, 0xe0, 0x00, 0x00, 0x00, 0x03, 0x05]),
        start(&[0x80, 0x0e, 0x03, 0x05]),
    ]
}

fn decoding() -> Vec<Question> {
    vec![
        // R56
        start(&[0x03, 0x05, 0x00, 0x0e]),
        start(&[0x03, 0x05, 0x0e, 0xe0]),
        // R57
        start(&[0x03, 0x05, 0x0e]),
        start(&[0x03, 0x05]),
        start(&[0x00]),
        // R58
        start(&[0x0c, 0x03, 0x07, 0x06, 0x03]),
        // R59
        start(&[0x01, 0x01, 0x01, 0x01]),
        start(&[0x01, 0x01, 0x01]),
    ]
}

fn how_long() -> Vec<Question> {
    vec![
        // R93
        start(&[0x7f]),
        start(&[0x80, 0x7f]),
        start(&[0xc0, 0x00, 0x00, 0x7f]),
        at(1, &[0x03, 0x80, 0x05]),
        // R94, which also names the first three of R93
        start(&[0x80, 0x80]),
        start(&[0xbf, 0xff]),
        start(&[0xc0, 0x00, 0x40, 0x00]),
        start(&[0xc0, 0x00, 0x00, 0x80]),
        start(&[0xc0, 0x00, 0x3f, 0xff]),
        // R95. The reader of R97 is asked for every step too.
        start(&[0x03, 0x05]),
        start(&[0x80, 0x03, 0x05]),
        start(&[0xc0, 0x00, 0x00, 0x03, 0x05]),
        // R96. R100 names the first.
        start(&[0x03, 0x80, 0x05]),
        start(&[0x0c, 0x03, 0x07]),
        start(&[0x0c, 0x80, 0x03, 0x07]),
        start(&[0x0c, 0x03, 0x80, 0x07]),
        start(&[0x06, 0x01]),
        // R98, R99. R99 also names the first of R95.
        start(&[0x03, 0x80, 0x05, 0x03, 0x05]),
    ]
}

/// The bytes from their first place on.
fn start(bytes: &[u8]) -> Question {
    at(0, bytes)
}

fn at(at: usize, bytes: &[u8]) -> Question {
    Question {
        bytes: bytes.to_vec(),
        at,
        low: 0,
        high: LARGEST_NAMED_ROOM,
        sweep: false,
    }
}

//! The rows of docs/RULES.md on request 2026-01, R71 to R80, each with the smallest lists that tell it from its
//! neighbour; and R100 on request 2026-06, whose lists are among them.

use super::list::Question;

/// Two bytes more than the longest of these lists takes.
const LARGEST_NAMED_ROOM: usize = 8;

pub fn questions() -> Vec<Question> {
    [bytes(), bad_records(), ranges(), order()].concat()
}

fn bytes() -> Vec<Question> {
    let mut questions = vec![
        // R71: the empty list is accepted, and nothing closes a list. R100 names the second.
        ask(&[]),
        ask(&[3, 5, 0]),
        // R72: the shortest form of each number.
        ask(&[3, 127, 0]),
        ask(&[3, 128, 0]),
        ask(&[3, 16_383, 0]),
        ask(&[3, 16_384, 0]),
        // R73: a signed operand. Signed 0 is operand 0. R80 names the first.
        ask(&[6, 0, 0]),
        ask(&[6, 1, 0]),
        ask(&[6, -1, 0]),
        ask(&[10, -7, 0]),
        ask(&[11, 2, -3]),
        ask(&[11, 0, 0]),
        // R73: two operands.
        ask(&[12, 3, 7]),
    ];
    // R73: one operand, or the first of two. R74 names the last opcode.
    questions.extend((1..=13).map(|opcode| ask(&[opcode, 5, 0])));
    questions
}

fn bad_records() -> Vec<Question> {
    vec![
        // R74: an opcode outside 1 to 13.
        ask(&[0, 5, 0]),
        ask(&[14, 5, 0]),
        ask(&[-1, 5, 0]),
        // R76: a second number that should be 0.
        ask(&[3, 5, 1]),
        ask(&[6, 5, -1]),
        ask(&[13, 5, 1]),
        // R77: the index of the first bad record.
        ask(&[3, 5, 0, 14, 5, 0]),
        ask(&[3, 5, 0, 3, 5, 0, 3, -1, 0]),
        ask(&[3, 5, 0, 14, 5, 0, 0, 5, 0]),
    ]
}

/// R75: both ends of each range, and one past each end.
fn ranges() -> Vec<Question> {
    let mut questions = Vec::new();
    for &operand in &[-1, 0, 536_870_911, 536_870_912] {
        questions.push(ask(&[3, operand, 0]));
        questions.push(ask(&[12, operand, 0]));
        questions.push(ask(&[12, 0, operand]));
    }
    for &operand in &[-268_435_456, -268_435_455, 268_435_455, 268_435_456] {
        questions.push(ask(&[6, operand, 0]));
        questions.push(ask(&[10, operand, 0]));
    }
    for &operand in &[-1, 0, 15, 16] {
        questions.push(ask(&[11, operand, 0]));
    }
    for &operand in &[-16_777_216, -16_777_215, 16_777_215, 16_777_216] {
        questions.push(ask(&[11, 15, operand]));
    }
    questions
}

fn order() -> Vec<Question> {
    vec![
        // R78: 21 comes first (R100 names the third),
        ask(&[3]),
        ask(&[3, 5]),
        ask(&[14, 5, 0, 3]),
        // R79: then 20, also without room; then 10. Each list here is asked in rooms that are too small.
        ask(&[3, 5, 0, 14, 5, 0]),
        ask(&[3, 5, 0, 6, -1, 0]),
    ]
}

/// A list in every room that is named.
fn ask(list: &[i64]) -> Question {
    Question {
        list: list.to_vec(),
        low: 0,
        high: LARGEST_NAMED_ROOM,
    }
}

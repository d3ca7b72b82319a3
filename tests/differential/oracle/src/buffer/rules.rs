//! The inputs of `docs/RULES.md` about reads: row R60.

use super::list::Question;

pub fn questions() -> Vec<Question> {
    vec![
        // R60: the number, then the bytes taken.
        ask(&[0x01, 0x02, 0x03, 0x04], [0, 1], [0, 0]),
        ask(&[0x01, 0x02, 0x03], [0, 0], [0, 0]),
        ask(&[0x01, 0x02, 0x03], [1, 1], [2, 3]),
    ]
}

fn ask(bytes: &[u8], [first, last]: [usize; 2], [fewest, most]: [usize; 2]) -> Question {
    Question {
        bytes: bytes.to_vec(),
        first,
        last,
        fewest,
        most,
    }
}

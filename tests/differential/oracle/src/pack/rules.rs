//! The rows of docs/RULES.md on request 2026-05, R81 to R92, each with the smallest containers that tell it from its
//! neighbour.

use super::question::Question;
use super::questions::{around_needed, in_no_room, in_some_room};
use crate::container::ABSENT;

/// The page size of the smallest files.
const P: u32 = 0x100;

pub fn questions() -> Vec<Question> {
    [pages(), bits(), refusals(), order()].concat()
}

fn pages() -> Vec<Question> {
    vec![
        // R81: the header; R84: the directory and the location page, if there is nothing else.
        written(P, &[]),
        // R82: the last data page before map pages 257 and 258 is the stream's, the directory's, the location page.
        written(P, &[254 * P]),
        written(P, &[253 * P]),
        written(P, &[249 * P]),
        written(P, &[250 * P]),
        // R83: streams in order.
        written(P, &[1, 1]),
        written(P, &[P, P + 1]),
        // R84: the directory has one page, and then two.
        written(P, &[0; 63]),
        written(P, &[0; 64]),
        // R85: a stream without bytes has no pages, and an absent one has none.
        written(P, &[0]),
        written(P, &[ABSENT]),
        written(P, &[0, 1]),
        written(P, &[ABSENT, 1]),
    ]
}

fn bits() -> Vec<Question> {
    vec![
        // R86: padding up to 4,096 bytes, and none.
        written(P, &[10 * P]),
        written(P, &[11 * P]),
        written(P, &[12 * P]),
        written(2 * P, &[3 * 2 * P]),
        written(2 * P, &[2 * 2 * P]),
        written(4 * P, &[]),
        // R87: the bits of pages 7 and 8.
        written(P, &[2 * P]),
        written(P, &[3 * P]),
        // R88: what a part leaves of its last page is 0.
        written(P, &[1]),
        written(P, &[P - 1]),
    ]
}

fn refusals() -> Vec<Question> {
    vec![
        // R89: 3.
        in_some_room(Question::new(0x80, vec![])),
        in_some_room(Question::new(0x180, vec![])),
        in_some_room(Question::new(0x100_0000, vec![])),
        in_no_room(Question::new(0x80_0000, vec![])),
        // R90: 22. The last two sums are 2^32 and 2^32 + 1.
        lent(&[], 1),
        lent(&[1], 0),
        lent(&[1], 2),
        lent(&[ABSENT], 1),
        lent(&[ABSENT - 1, 2], 0),
        lent(&[ABSENT - 1, 3], 1),
        // R91: 23. The first two have 4,096 numbers, the others 4,097.
        written(P, &[0; 4_095]),
        written(P, &numbers(4_096)),
        in_some_room(Question::new(P, vec![0; 4_096])),
        in_some_room(Question::new(P, numbers(4_097))),
    ]
}

/// R92: 3, 22, 23, 10, each before the next. (24 needs 2^30 sizes.)
fn order() -> Vec<Question> {
    let both = |page_size, sizes: &[u32], length| {
        let question = Question {
            length,
            ..Question::new(page_size, sizes.to_vec())
        };
        vec![in_no_room(question.clone()), in_some_room(question)]
    };
    [
        both(0x80, &[1], 0),
        both(P, &[0; 4_096], 1),
        both(P, &[0; 4_096], 0),
        both(P, &[1], 0),
    ]
    .concat()
}

/// In the rooms around what is needed.
fn written(page_size: u32, sizes: &[u32]) -> Question {
    around_needed(Question::new(page_size, sizes.to_vec()))
}

/// With so many bytes lent.
fn lent(sizes: &[u32], length: usize) -> Question {
    in_some_room(Question {
        length,
        ..Question::new(P, sizes.to_vec())
    })
}

/// Sizes for which the directory has so many numbers: the count, the sizes, and 300 pages.
fn numbers(count: usize) -> Vec<u32> {
    [vec![300 * P], vec![ABSENT; count - 302]].concat()
}

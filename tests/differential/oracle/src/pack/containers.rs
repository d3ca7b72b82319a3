//! Random containers to write: page sizes, sizes of streams, and what is wrong with some of them.

use super::question::Question;
use crate::container::{need, ABSENT};
use crate::random::Random;

/// Most questions are about short files, so about small pages.
const PAGE_SIZES: [u32; 12] = [
    0x100, 0x100, 0x100, 0x100, 0x100, 0x200, 0x200, 0x400, 0x400, 0x800, 0x1000, 0x2000,
];

/// Those at the limits, and some that would be one if bits of them were dropped.
pub const NO_PAGE_SIZES: [u32; 14] = [
    0,
    1,
    0x80,
    0xff,
    0x101,
    0x180,
    0x300,
    0x1001,
    0x7f_ffff,
    0x80_0001,
    0xc0_0000,
    0x100_0000,
    0x8000_0000,
    0xffff_ffff,
];

/// The most streams, unless there are very many.
const FEW: usize = 48;

/// A container whose streams take at most so many bytes, in whole pages.
pub fn random(random: &mut Random, largest: usize) -> Question {
    let page_size = random.pick(&PAGE_SIZES);
    let mut question = Question::new(page_size, sizes(random, page_size, largest));
    if random.one_in(12) {
        spoil(random, &mut question);
    }
    question
}

/// Some streams; at times very many, most of them without bytes, or one of many pages.
fn sizes(random: &mut Random, page_size: u32, largest: usize) -> Vec<u32> {
    match random.below(64) {
        0 => many(random),
        1 | 2 => vec![1, random.below(largest) as u32, ABSENT, 300],
        _ => some(random, page_size, largest),
    }
}

fn some(random: &mut Random, page_size: u32, largest: usize) -> Vec<u32> {
    let mut room = largest / page_size as usize;
    let mut sizes = Vec::new();
    for _ in 0..random.below(FEW) {
        let size = size(random, page_size);
        if size != ABSENT {
            let pages = need(size as usize, page_size as usize);
            match room.checked_sub(pages) {
                Some(left) => room = left,
                None => break,
            }
        }
        sizes.push(size);
    }
    sizes
}

/// A size around a number of whole pages, or any other.
fn size(random: &mut Random, page_size: u32) -> u32 {
    let pages = random.below(4) as u32 * page_size;
    match random.below(8) {
        0 => ABSENT,
        1 => 0,
        2 => pages,
        3 => pages + 1,
        4 => pages + page_size - 1,
        _ => random.below(6 * page_size as usize) as u32,
    }
}

/// Up to as many sizes as the largest directory in pages of 256 bytes has, and a few more.
fn many(random: &mut Random) -> Vec<u32> {
    let count = match random.below(2) {
        0 => 4_090 + random.below(10),
        _ => 1 + random.below(4_000),
    };
    let mut sizes = vec![random.pick(&[0, ABSENT]); count];
    for _ in 0..random.below(8) {
        sizes[random.below(count)] = random.below(3) as u32;
    }
    sizes
}

/// Makes one thing wrong: the page size, or the sum.
fn spoil(random: &mut Random, question: &mut Question) {
    let at = random.below(question.sizes.len() + 1);
    match random.below(8) {
        0 => question.length += 1,
        1 => question.length = question.length.saturating_sub(1),
        2 => question.length = random.below(1_000),
        3 => question.sizes.insert(at, 1),
        4 => question
            .sizes
            .insert(at, random.pick(&[0x8000_0000, ABSENT - 1])),
        _ => question.page_size = random.pick(&NO_PAGE_SIZES),
    }
}

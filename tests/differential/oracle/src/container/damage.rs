//! Edits that damage a container: bits and words of its control data, and the file's length.

use super::files::{word, Container, DIRECTORY_SIZE, ENTRIES, PAGES_USED, PAGE_SIZE};
use super::question::Run;
use crate::random::Random;

/// One to three edits.
pub fn edits(random: &mut Random, container: &Container, file: &[u8]) -> Vec<Run> {
    (0..=random.below(3))
        .map(|_| edit(random, container, file))
        .filter(|run| run.at + run.bytes.len() <= file.len())
        .collect()
}

/// Flips a bit, or replaces a word by another that is likely there.
fn edit(random: &mut Random, container: &Container, file: &[u8]) -> Run {
    let at = place(random, container);
    if at + 4 > file.len() || random.one_in(2) {
        let at = at + random.below(4);
        let bit = 1 << random.below(8);
        return Run {
            at,
            bytes: vec![file.get(at).map_or(0, |byte| byte ^ bit)],
        };
    }
    word(at, value(random, container))
}

/// The place of a word of control data: in the header, among its entries, in the location list or in the
/// directory.
fn place(random: &mut Random, container: &Container) -> usize {
    let words = container.directory().len();
    match random.below(8) {
        0 => random.pick(&[PAGE_SIZE, PAGES_USED, DIRECTORY_SIZE]),
        1 => ENTRIES + 4 * random.below(container.entries.len() + 1),
        2 => container.location_word(random.below(container.location.len())),
        3 => container.directory_word(0),
        4 | 5 => container.directory_word(random.below(words.min(1 + container.streams.len()))),
        _ => container.directory_word(random.below(words)),
    }
}

fn value(random: &mut Random, container: &Container) -> u32 {
    let page_size = container.page_size as u32;
    match random.below(6) {
        0 => random.pick(&[0, 1, 2, 0x7fff_ffff, 0x8000_0000, 0xffff_fffe, 0xffff_ffff]),
        1 => container
            .used
            .wrapping_add(random.below(3) as u32)
            .wrapping_sub(1),
        2 => random.below(container.used as usize + 2) as u32,
        3 => page_size * random.below(5) as u32,
        4 => (page_size * random.below(5) as u32)
            .wrapping_add(random.below(3) as u32)
            .wrapping_sub(1),
        _ => random.next() as u32,
    }
}

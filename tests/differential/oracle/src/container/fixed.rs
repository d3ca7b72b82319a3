//! The fixed list: the rows of `docs/RULES.md`, the project's file F, files of other shapes, and some
//! random containers.

use super::ask::About;
use super::list::Record;
use super::{file_f, listings, live, rules, shapes, stages};
use crate::random::Random;

const FIXED_SEED: u64 = 0x6d73_6600;
const FIXED_CONTAINERS: u64 = 120;

const SUBJECTS: [fn(&mut Random) -> About; 31] = [
    rules::rows,
    file_f::whole,
    file_f::swept,
    file_f::damaged,
    file_f::magics,
    shapes::truncated,
    shapes::spread,
    shapes::large_before,
    shapes::merging,
    shapes::aliased,
    shapes::all_threes,
    shapes::location_limit,
    shapes::location_pages,
    shapes::high_pages,
    shapes::last_pages,
    shapes::page_of_4096,
    shapes::page_of_8192,
    shapes::page_of_65536,
    shapes::largest_page,
    shapes::over_and_over,
    listings::whole_f,
    listings::refused,
    listings::longest,
    listings::most_streams,
    listings::too_many_streams,
    listings::long_lines,
    listings::hostile,
    stages::of_f,
    stages::runs,
    stages::apart,
    stages::missing,
];

pub fn fixed() -> impl Iterator<Item = Record> {
    let mut random = Random::new(FIXED_SEED);
    SUBJECTS
        .iter()
        .flat_map(move |subject| subject(&mut random).records)
        .chain(live::small(FIXED_SEED, FIXED_CONTAINERS))
}

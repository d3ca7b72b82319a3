//! The functions on containers: accepted, and refused with every refusal they can give, with the stores after it.

mod fields;
mod files;

use fields::{map_counts, opened};
use files::*;
use trovespan::{extract, needed_to_map, stream_count, Refusal, Stage, HEADER_BLOCK};

/// What a store holds before a call.
const BEFORE: u64 = 0xdead_beef_dead_beef;
const BYTE_BEFORE: u8 = 0xa5;

const LIMITS: [Option<usize>; 6] = [None, Some(0), Some(1), Some(599), Some(600), Some(usize::MAX)];

fn refusal(number: u32, value: u64) -> Refusal {
    Refusal { number, value }
}

/// Files that no function opens, and why.
fn unopened() -> Vec<(Vec<u8>, Refusal)> {
    vec![
        (vec![], refusal(1, 0)),
        (vec![0], refusal(1, 0)),
        (f_cut(4095), refusal(1, 0)),
        (f_headed(b"microsoft"), refusal(1, 0)),
        (f_headed(SMALL_MAGIC), refusal(2, 0)),
        (f_with(PAGE_SIZE, 0), refusal(3, 0)),
        (f_with(PAGE_SIZE, 0x80), refusal(3, 0x80)),
        (f_with(PAGE_SIZE, 0x180), refusal(3, 0x180)),
        (f_with(PAGE_SIZE, 0x100_0000), refusal(3, 0x100_0000)),
        (f_with(PAGE_SIZE, u32::MAX), refusal(3, 0xffff_ffff)),
        (f_with(LOCATION_ENTRY, 0), refusal(4, 0)),
        (f_with(LOCATION_ENTRY, 24), refusal(4, 24)),
        (f_with(LOCATION_ENTRY, 25), refusal(4, 25)),
        (f_with(PAGES_USED, 0), refusal(4, 3)),
        (f_with(PAGES_USED, 3), refusal(4, 3)),
        (f_overfull(), refusal(7, 0)),
    ]
}

/// Files that open, but whose streams cannot be counted, and why.
fn uncounted() -> Vec<(Vec<u8>, Refusal)> {
    vec![
        (f_with(LOCATION_LIST, 0), refusal(4, 0)),
        (f_with(LOCATION_LIST, 24), refusal(4, 24)),
        (f_with(LOCATION_LIST, 25), refusal(4, 25)),
        (f_with(PAGES_USED, 4), refusal(4, 4)),
        (f_past(LOCATION_ENTRY), refusal(6, 0)),
        (f_past(LOCATION_LIST), refusal(6, 0)),
        (f_with(DIRECTORY_SIZE, 0), refusal(7, 0)),
        (f_with(DIRECTORY_SIZE, 3), refusal(7, 0)),
    ]
}

/// Files and streams that are counted but not mapped, and why.
fn unmapped() -> Vec<(Vec<u8>, u32, Refusal)> {
    vec![
        (f(), 1, refusal(5, 1)), // absent
        (f(), 3, refusal(5, 3)),
        (f(), u32::MAX, refusal(5, 0xffff_ffff)),
        (f_with(COUNT, 0), 0, refusal(5, 0)),
        (f_with(SIZE_0, ABSENT), 0, refusal(5, 0)),
        (f_with(LAST_PAGE, 0), 2, refusal(4, 0)),
        (f_with(LAST_PAGE, 24), 2, refusal(4, 24)),
        (f_with(LAST_PAGE, 25), 2, refusal(4, 25)),
        (f_with(LAST_PAGE, u32::MAX), 2, refusal(4, 0xffff_ffff)),
        (f_with(DIRECTORY_SIZE, 15), 0, refusal(7, 0)), // not all sizes
        (f_with(DIRECTORY_SIZE, 35), 2, refusal(7, 0)), // not all pages
        (f_with(SIZE_0, 1281), 2, refusal(7, 0)),       // not all pages, since stream 0 has more
        (f_with(COUNT, u32::MAX), 0, refusal(7, 0)),
    ]
}

/// All the files and streams above. None of these is mapped.
fn all_unmapped() -> Vec<(Vec<u8>, u32, Refusal)> {
    let whole = unopened().into_iter().chain(uncounted());
    whole.map(|(file, why)| (file, 2, why)).chain(unmapped()).collect()
}

/// Maps into stores of `rooms` entries, and checks that no entry past the answer changed.
fn mapped(
    file: &[u8],
    stream: u32,
    limit: Option<usize>,
    rooms: (usize, usize),
) -> Result<(Vec<(u64, u64)>, usize), Refusal> {
    let (mut offsets, mut sizes) = (vec![BEFORE; rooms.0], vec![BEFORE; rooms.1]);
    let answer = map_counts(file, stream, limit, &mut offsets, &mut sizes);
    let written = answer.map_or(0, |(slices, _)| slices);
    assert!(offsets[written..].iter().chain(&sizes[written..]).all(|entry| *entry == BEFORE));
    let (slices, length) = answer?;
    Ok((offsets.into_iter().zip(sizes).take(slices).collect(), length))
}

/// Asks what a stage needs, into stores of `rooms` entries, and checks the same.
fn needed(file: &[u8], stage: Stage, rooms: (usize, usize)) -> Result<(Vec<(u64, u64)>, usize), Refusal> {
    let (mut offsets, mut sizes) = (vec![BEFORE; rooms.0], vec![BEFORE; rooms.1]);
    let answer = needed_to_map(file, stage, &mut offsets, &mut sizes).map(|mapped| (mapped.slices, mapped.length));
    let written = answer.map_or(0, |(slices, _)| slices);
    assert!(offsets[written..].iter().chain(&sizes[written..]).all(|entry| *entry == BEFORE));
    let (slices, length) = answer?;
    Ok((offsets.into_iter().zip(sizes).take(slices).collect(), length))
}

const STAGES: [Stage; 2] = [Stage::LocationList, Stage::Directory];

/// The file with the header block and what both stages need, zeros between these, and nothing after them. `None` if the
/// file does not have all of these.
fn parts_of(file: &[u8]) -> Option<Vec<u8>> {
    let mut parts = file.get(..HEADER_BLOCK)?.to_vec();
    for stage in STAGES {
        for (at, size) in needed(&parts, stage, (1000, 1000)).ok()?.0 {
            let part = at as usize..(at + size) as usize;
            parts.resize(parts.len().max(part.end), 0);
            parts[part.clone()].copy_from_slice(file.get(part)?);
        }
    }
    Some(parts)
}

/// F with a directory of 16,400 bytes, which has 65 pages: its location list takes pages 3 and 5. The directory has page 4
/// and then by turns page 20 and 21.
fn f_wide() -> Vec<u8> {
    let mut file = f_with(DIRECTORY_SIZE, 16_400);
    put(&mut file, LOCATION_ENTRY, &[3, 5]);
    put(&mut file, LOCATION_LIST, &[20, 21].repeat(32));
    put(&mut file, LOCATION_LIST, &[4]);
    put(&mut file, 5 * 256, &[20]);
    file
}

/// Extracts into a store of `room` bytes, and checks the same.
fn extracted(file: &[u8], stream: u32, limit: Option<usize>, room: usize) -> Result<Vec<u8>, Refusal> {
    let mut out = vec![BYTE_BEFORE; room];
    let answer = extract(file, stream, limit, &mut out);
    assert!(out[answer.unwrap_or(0)..].iter().all(|byte| *byte == BYTE_BEFORE));
    out.truncate(answer?);
    Ok(out)
}

/// Files and streams with a slice past the file: mapped, but not extracted.
fn past_the_file() -> Vec<(Vec<u8>, u32)> {
    vec![(f_past(LAST_PAGE), 2), (f_cut(5419), 0)]
}

#[test]
fn opens() {
    assert_eq!(opened(&f()), Ok((256, 24)));
    assert_eq!(opened(&f_cut(4096)), Ok((256, 24)));
    assert_eq!(opened(&f_with(PAGE_SIZE, 0x80_0000)), Ok((0x80_0000, 24)));
    assert_eq!(opened(&f_with(PAGES_USED, u32::MAX)), Ok((256, u32::MAX)));
}

#[test]
fn refuses_to_open() {
    for (file, why) in unopened() {
        assert_eq!(opened(&file), Err(why));
    }
}

#[test]
fn opening_does_not_read_the_directory() {
    for (file, _) in uncounted() {
        assert_eq!(opened(&file), Ok((256, word(&file, PAGES_USED))));
    }
}

#[test]
fn counts() {
    assert_eq!(stream_count(&f()), Ok(3));
    for count in [0, 1, u32::MAX] {
        assert_eq!(stream_count(&f_with(COUNT, count)), Ok(count));
    }
}

#[test]
fn refuses_to_count() {
    for (file, why) in unopened().into_iter().chain(uncounted()) {
        assert_eq!(stream_count(&file), Err(why));
    }
}

#[test]
fn maps() {
    assert_eq!(mapped(&f(), 0, None, (1, 1)), Ok((vec![(5120, 300)], 300)));
    assert_eq!(mapped(&f(), 2, None, (2, 2)), Ok((vec![(2560, 512), (1280, 88)], 600)));
    assert_eq!(mapped(&f_with(SIZE_0, 0), 0, None, (2, 2)), Ok((vec![], 0)));
}

#[test]
fn maps_as_far_as_the_limit() {
    let limits: [(usize, &[(u64, u64)]); 8] = [
        (0, &[]),
        (1, &[(2560, 1)]),
        (512, &[(2560, 512)]),
        (513, &[(2560, 512), (1280, 1)]),
        (599, &[(2560, 512), (1280, 87)]),
        (600, &[(2560, 512), (1280, 88)]),
        (601, &[(2560, 512), (1280, 88)]),
        (usize::MAX, &[(2560, 512), (1280, 88)]),
    ];
    for (limit, slices) in limits {
        assert_eq!(mapped(&f(), 2, Some(limit), (3, 3)), Ok((slices.to_vec(), limit.min(600))));
    }
}

#[test]
fn refuses_to_map() {
    for (file, stream, why) in all_unmapped() {
        for limit in LIMITS {
            for rooms in [(0, 0), (3, 3)] {
                assert_eq!(mapped(&file, stream, limit, rooms), Err(why));
            }
        }
    }
}

#[test]
fn the_shorter_store_is_the_room_of_a_mapping() {
    let whole = Ok((vec![(2560, 512), (1280, 88)], 600));
    for rooms in [(2, 2), (2, 3), (3, 2), (2, 9), (9, 2), (9, 9)] {
        assert_eq!(mapped(&f(), 2, None, rooms), whole);
    }
    for rooms in [(0, 0), (1, 1), (1, 2), (2, 1), (0, 9), (9, 0), (1, 9), (9, 1)] {
        assert_eq!(mapped(&f(), 2, None, rooms), Err(refusal(10, 2)));
    }
}

#[test]
fn the_room_of_a_mapping_is_judged_after_the_limit() {
    assert_eq!(mapped(&f(), 2, Some(512), (1, 1)), Ok((vec![(2560, 512)], 512)));
    assert_eq!(mapped(&f(), 2, Some(513), (1, 1)), Err(refusal(10, 2)));
    assert_eq!(mapped(&f(), 2, Some(1), (0, 0)), Err(refusal(10, 1)));
    assert_eq!(mapped(&f(), 2, Some(0), (0, 0)), Ok((vec![], 0)));
}

#[test]
fn maps_what_is_past_the_file() {
    assert_eq!(mapped(&f_past(LAST_PAGE), 2, None, (2, 2)), Ok((vec![(2560, 512), (6144, 88)], 600)));
    assert_eq!(mapped(&f_cut(5419), 0, None, (1, 1)), Ok((vec![(5120, 300)], 300)));
}

/// Of 24 pages used, page 23 is the last. Page 24 is refused (`unmapped`), as request 2026-03 has it.
#[test]
fn the_last_page_number_passes() {
    let file = f_with(LAST_PAGE, 23);
    assert_eq!(mapped(&file, 2, None, (2, 2)), Ok((vec![(2560, 512), (5888, 88)], 600)));
    assert_eq!(extracted(&file, 2, None, 1000), Ok([&file[2560..3072], &file[5888..5976]].concat()));
}

#[test]
fn extracts() {
    assert_eq!(extracted(&f(), 0, None, 1000), Ok(stream_0()));
    assert_eq!(extracted(&f(), 2, None, 1000), Ok(stream_2()));
    assert_eq!(extracted(&f_with(SIZE_0, 0), 0, None, 1000), Ok(vec![]));
}

#[test]
fn extracts_as_far_as_the_limit() {
    for limit in [0, 1, 256, 512, 513, 599, 600, 601, usize::MAX] {
        let wanted = stream_2()[..limit.min(600)].to_vec();
        assert_eq!(extracted(&f(), 2, Some(limit), 1000), Ok(wanted));
    }
}

#[test]
fn extracts_what_is_mapped() {
    let file = f();
    for stream in [0, 2] {
        for limit in LIMITS {
            let (slices, length) = mapped(&file, stream, limit, (2, 2)).unwrap();
            let bytes: Vec<u8> =
                slices.iter().flat_map(|&(at, size)| &file[at as usize..][..size as usize]).copied().collect();
            assert_eq!(bytes.len(), length);
            assert_eq!(extracted(&file, stream, limit, 600), Ok(bytes));
        }
    }
}

#[test]
fn refuses_to_extract() {
    for (file, stream, why) in all_unmapped() {
        for limit in LIMITS {
            for room in [0, 1000] {
                assert_eq!(extracted(&file, stream, limit, room), Err(why));
            }
        }
    }
}

#[test]
fn refuses_to_extract_what_is_past_the_file() {
    for (file, stream) in past_the_file() {
        for room in [0, 1000] {
            assert_eq!(extracted(&file, stream, None, room), Err(refusal(6, 0)));
            assert_eq!(extracted(&file, stream, Some(usize::MAX), room), Err(refusal(6, 0)));
        }
    }
    assert_eq!(extracted(&f_past(LAST_PAGE), 2, Some(513), 1000), Err(refusal(6, 0)));
}

#[test]
fn extracts_what_the_limit_leaves_in_the_file() {
    assert_eq!(extracted(&f_past(LAST_PAGE), 2, Some(512), 1000), Ok(stream_2()[..512].to_vec()));
    assert_eq!(extracted(&f_cut(5419), 0, Some(299), 1000), Ok(stream_0()[..299].to_vec()));
    assert_eq!(extracted(&f_cut(5419), 0, Some(0), 0), Ok(vec![]));
}

#[test]
fn the_room_of_an_extraction_is_judged_after_the_limit() {
    assert_eq!(extracted(&f(), 2, None, 600), Ok(stream_2()));
    assert_eq!(extracted(&f(), 2, None, 601), Ok(stream_2()));
    for room in [0, 1, 599] {
        assert_eq!(extracted(&f(), 2, None, room), Err(refusal(10, 600)));
    }
    assert_eq!(extracted(&f(), 2, Some(513), 512), Err(refusal(10, 513)));
    assert_eq!(extracted(&f(), 2, Some(513), 513), Ok(stream_2()[..513].to_vec()));
    assert_eq!(extracted(&f(), 2, Some(1), 0), Err(refusal(10, 1)));
    assert_eq!(extracted(&f(), 2, Some(0), 0), Ok(vec![]));
    assert_eq!(extracted(&f_with(SIZE_0, 0), 0, None, 0), Ok(vec![]));
}

#[test]
fn needs_the_location_list_and_the_directory() {
    assert_eq!(needed(&f(), Stage::LocationList, (1, 1)), Ok((vec![(768, 4)], 4)));
    assert_eq!(needed(&f(), Stage::Directory, (1, 1)), Ok((vec![(1024, 36)], 36)));
    let file = f_with(DIRECTORY_SIZE, 0);
    for stage in STAGES {
        assert_eq!(needed(&file, stage, (0, 0)), Ok((vec![], 0)));
    }
}

/// 65 pages are named in 260 bytes. Pages 20 and 21 are neighbours, and 21 and 20 are not.
#[test]
fn needs_pages_in_one_slice_where_they_are_neighbours() {
    assert_eq!(needed(&f_wide(), Stage::LocationList, (2, 2)), Ok((vec![(768, 256), (1280, 4)], 260)));
    // Page 4, page 21, 31 times pages 20 and 21, and 16 bytes of page 20.
    let mut slices = vec![(1024, 256), (5376, 256)];
    slices.extend([(5120, 512); 31]);
    slices.push((5120, 16));
    assert_eq!(needed(&f_wide(), Stage::Directory, (40, 40)), Ok((slices, 16_400)));
    let mut file = f_wide();
    put(&mut file, LOCATION_ENTRY, &[3, 4]);
    assert_eq!(needed(&file, Stage::LocationList, (1, 1)), Ok((vec![(768, 260)], 260)));
}

#[test]
fn a_stage_reads_what_was_needed_before_it_and_no_more() {
    // The location list of F is in the header block.
    for stage in STAGES {
        assert_eq!(needed(&f_cut(HEADER_BLOCK), stage, (1, 1)), needed(&f(), stage, (1, 1)));
    }
    let mut far = f_with(LOCATION_ENTRY, 20);
    put(&mut far, 20 * 256, &[4]);
    for length in [HEADER_BLOCK, 20 * 256 + 3] {
        assert_eq!(needed(&far[..length], Stage::LocationList, (1, 1)), Ok((vec![(5120, 4)], 4)));
        assert_eq!(needed(&far[..length], Stage::Directory, (1, 1)), Err(refusal(6, 0)));
    }
    assert_eq!(needed(&far[..20 * 256 + 4], Stage::Directory, (1, 1)), Ok((vec![(1024, 36)], 36)));
}

#[test]
fn needs_what_is_past_the_file() {
    assert_eq!(needed(&f_past(LOCATION_ENTRY), Stage::LocationList, (1, 1)), Ok((vec![(6144, 4)], 4)));
    assert_eq!(needed(&f_past(LOCATION_LIST), Stage::Directory, (1, 1)), Ok((vec![(6144, 36)], 36)));
    let mut file = f_with(PAGE_SIZE, 0x80_0000);
    put(&mut file, PAGES_USED, &[u32::MAX]);
    put(&mut file, LOCATION_ENTRY, &[u32::MAX - 1]);
    let offset = 0xffff_fffe * 0x80_0000;
    assert_eq!(needed(&file, Stage::LocationList, (1, 1)), Ok((vec![(offset, 4)], 4)));
}

#[test]
fn refuses_what_mapping_refuses_before_it_comes_there() {
    for rooms in [(0, 0), (3, 3)] {
        for (file, why) in unopened() {
            for stage in STAGES {
                assert_eq!(needed(&file, stage, rooms), Err(why));
            }
        }
    }
    for (at, word, why) in [
        (LOCATION_LIST, 0, refusal(4, 0)),
        (LOCATION_LIST, 24, refusal(4, 24)),
        (LOCATION_LIST, 25, refusal(4, 25)),
        (PAGES_USED, 4, refusal(4, 4)),
    ] {
        assert_eq!(needed(&f_with(at, word), Stage::Directory, (0, 0)), Err(why));
        assert_eq!(needed(&f_with(at, word), Stage::LocationList, (1, 1)), Ok((vec![(768, 4)], 4)));
    }
    assert_eq!(needed(&f_past(LOCATION_ENTRY), Stage::Directory, (0, 0)), Err(refusal(6, 0)));
    // The end of the file is judged before page numbers, and the room last.
    let mut file = f_past(LOCATION_ENTRY);
    put(&mut file, DIRECTORY_SIZE, &[256 * 65]);
    put(&mut file, LOCATION_ENTRY, &[3, 24]);
    put(&mut file, LOCATION_LIST, &[0]);
    assert_eq!(needed(&file, Stage::Directory, (0, 0)), Err(refusal(6, 0)));
}

#[test]
fn the_shorter_store_is_the_room_of_what_is_needed() {
    for (stage, slices) in [(Stage::LocationList, 2), (Stage::Directory, 34)] {
        assert!(needed(&f_wide(), stage, (slices, slices)).is_ok());
        for rooms in [(0, 0), (slices - 1, slices), (slices, slices - 1), (0, 40), (40, 0)] {
            assert_eq!(needed(&f_wide(), stage, rooms), Err(refusal(10, slices as u64)));
        }
    }
    assert_eq!(needed(&f_with(LOCATION_LIST, 0), Stage::Directory, (0, 0)), Err(refusal(4, 0)));
}

/// Whatever the rest of the file is, and however long.
#[test]
fn the_needed_parts_are_mapped_as_the_file() {
    let mut files: Vec<Vec<u8>> = all_unmapped().into_iter().map(|(file, ..)| file).collect();
    files.extend(past_the_file().into_iter().map(|(file, _)| file));
    files.extend([f(), f_wide(), f_with(LAST_PAGE, 23), hostile()]);
    let parts: Vec<_> = files.iter().filter_map(|file| Some((file, parts_of(file)?))).collect();
    assert_eq!(parts.len(), 21);
    for (file, parts) in parts {
        let mut longer = parts.clone();
        longer.resize(file.len() + 1000, 0xff);
        for part in [&parts, &longer] {
            assert_eq!(stream_count(part), stream_count(file));
            for stream in 0..4 {
                for limit in LIMITS {
                    assert_eq!(mapped(part, stream, limit, (9, 9)), mapped(file, stream, limit, (9, 9)));
                }
            }
        }
    }
}

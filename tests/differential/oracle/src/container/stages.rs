//! The parts of the file that mapping reads before it comes to the stream: location lists and directories of
//! every shape, in stores around what they need.

use super::ask::About;
use super::files::{
    need, put_word, word, Container, DIRECTORY_SIZE, ENTRIES, PAGES_USED, PAGE_SIZE, SMALL_MAGIC,
};
use super::question::{Question, Run};
use crate::random::Random;

const PAGE: u32 = 0x100;
/// The bytes of a directory whose page numbers fill one page.
const LISTED: u32 = PAGE / 4 * PAGE;

/// F, each cause of each refusal, and directories of none, of a few and of many bytes.
pub fn of_f(random: &mut Random) -> About {
    let f = Container::f();
    let mut about = About::new(f.file_of_noise(random));
    about.ask_stages(about.question());
    let small = Run {
        at: 0,
        bytes: SMALL_MAGIC.to_vec(),
    };
    let causes = [
        word(0, 0),
        small,
        word(PAGE_SIZE, 0x180),
        word(DIRECTORY_SIZE, 1011 * LISTED + 1),
        word(ENTRIES, 0),
        word(ENTRIES, 24),
        word(ENTRIES, 23),
        word(PAGES_USED, 4),
        word(PAGES_USED, 3),
        word(f.location_word(0), 0),
        word(f.location_word(0), 24),
        word(f.location_word(0), 23),
    ];
    for cause in &causes {
        about.ask_stages(about.edited(&[cause.clone()]));
    }
    for &size in &[0, 1, 3, 4, 255, 256, 257, LISTED, LISTED + 1, 0xffff_ffff] {
        about.ask_stages(about.edited(&[word(DIRECTORY_SIZE, size)]));
    }
    for &length in &[0, 4095, 4096] {
        about.ask_stages(about.cut(length));
    }
    about
}

/// Location entries whose pages merge or do not, over pages whose words do or do not: directories that end
/// around the ends of pages and of pages of the location list.
pub fn runs(random: &mut Random) -> About {
    let entries: [&[u32]; 10] = [
        &[8, 9, 10],
        &[8, 10, 9],
        &[10, 9, 8],
        &[8, 8, 8],
        &[8, 9, 9, 10],
        &[9, 8, 9, 10],
        &[8, 10, 11, 13],
        &[15, 14, 15],
        &[12],
        &[14, 15],
    ];
    let mut about = About::new(listed(random, 0x100, 24));
    for pages in &entries {
        for k in 0..pages.len() as u32 {
            for &end in &[1, 255, 256, 257, LISTED - 256, LISTED - 1, LISTED] {
                about.ask_stages_with_room(about.edited(&named(pages, k * LISTED + end)));
            }
        }
        let size = pages.len() as u32 * LISTED - 3 * PAGE / 2;
        about.ask_stages(about.edited(&named(pages, size)));
    }
    about
}

/// A page number that is refused, at each end of a location page and in the middle: the first of them is
/// answered. Location entries are refused before what they name is read.
pub fn apart(random: &mut Random) -> About {
    const PAGES: [u32; 3] = [9, 12, 10];
    let words = (PAGE / 4) as usize;
    let mut about = About::new(listed(random, 0x100, 24));
    let base = named(&PAGES, 3 * LISTED - 2 * PAGE);
    let place = |i: usize| (PAGES[i / words] * PAGE) as usize + i % words * 4;
    let last = 3 * words - 3;
    for &i in &[0, 1, words - 1, words, 2 * words - 1, last, last + 1] {
        for &page in &[0, 23, 24, 25, 0xffff_ffff] {
            let edit = word(place(i), page);
            about.ask_stages_with_room(about.edited(&[&base[..], &[edit]].concat()));
        }
        let both = [word(place(i), 0), word(place(last), 0xffff_0000)];
        about.ask_stages_with_room(about.edited(&[&base[..], &both].concat()));
    }
    for i in 0..3 {
        let refused = [word(ENTRIES + 4 * i, 25), word(place(0), 0)];
        about.ask_stages_with_room(about.edited(&[&base[..], &refused].concat()));
    }
    about
}

/// Files that end in the location list or in the directory, whose parts are in no order. A directory that is
/// not there is no refusal. A location list that is not there is refused before its page numbers are.
pub fn missing(random: &mut Random) -> About {
    let container = Container {
        entries: vec![16, 18],
        location: (0..70).map(|i| 17 + i % 3 * 2).collect(),
        ..Container::f()
    };
    let mut about = About::new(container.file(random));
    let size = word(DIRECTORY_SIZE, 70 * PAGE - 9);
    // The location list's last six words are in page 18, and page 21 is the directory's last.
    let list = 18 * 0x100 + 24;
    for length in [0x1100, list, 0x1300, 0x1600].iter().flat_map(near) {
        let cut = Question {
            length,
            ..about.edited(&[size.clone()])
        };
        let mut no_page = cut.clone();
        no_page.edits.push(word(container.location_word(3), 0));
        about.ask_stages_with_room(no_page);
        about.ask_stages_with_room(cut.clone());
        about.ask_stages(cut);
    }
    about
}

fn near(end: &usize) -> Vec<usize> {
    vec![end - 1, *end, end + 1]
}

/// A file of so many pages. Every word from the first location entry on is a legal page number, and half of
/// them name the page after that of the word before.
pub fn listed(random: &mut Random, page_size: usize, pages: usize) -> Vec<u8> {
    let container = Container {
        page_size,
        used: pages as u32,
        length: pages * page_size,
        entries: vec![1],
        location: vec![1],
        streams: Vec::new(),
    };
    let mut file = container.file(random);
    let mut page = 0;
    for at in (ENTRIES..file.len()).step_by(4) {
        page = if page + 1 < pages && random.one_in(2) {
            page + 1
        } else {
            1 + random.below(pages - 1)
        };
        put_word(&mut file, at, page as u32);
    }
    file
}

/// The size of a directory of many pages of such a file, and at times a page number that may be refused.
pub fn edits(random: &mut Random, page_size: usize, pages: usize) -> Vec<Run> {
    let listed = page_size / 4 * page_size;
    let most = match random.below(4) {
        0 => page_size,
        1 => listed,
        _ => 4 * listed,
    };
    let size = match random.below(4) {
        0 => need(random.below(most), page_size) * page_size,
        1 => need(random.below(most), listed) * listed + 1,
        _ => random.below(most),
    };
    let mut edits = vec![word(DIRECTORY_SIZE, size as u32)];
    if random.one_in(3) {
        let place = match random.below(2) {
            0 => ENTRIES + 4 * random.below(4),
            _ => ENTRIES + 4 * random.below((pages * page_size - ENTRIES) / 4),
        };
        let page = random.pick(&[0, pages - 1, pages, pages + 1, 0xffff_ffff]);
        edits.push(word(place, page as u32));
    }
    edits
}

/// The header of a directory of `size` bytes whose location list is in these pages.
fn named(pages: &[u32], size: u32) -> Vec<Run> {
    let entries = (0..).map(|i| ENTRIES + 4 * i).zip(pages);
    entries
        .map(|(at, &page)| word(at, page))
        .chain(Some(word(DIRECTORY_SIZE, size)))
        .collect()
}

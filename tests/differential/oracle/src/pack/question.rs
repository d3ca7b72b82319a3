//! A question: writing a container into stores of several sizes.

use super::answers::{Outcome, Packer};
use super::pages::bytes_of;
use super::reading;
use super::reckoning::{Layout, Reckoning};
use crate::digest::Digest;

/// What is to be written, and the rooms: each from `low` to `high`.
#[derive(Clone, Debug)]
pub struct Question {
    pub page_size: u32,
    pub sizes: Vec<u32>,
    /// How many bytes of streams are lent.
    pub length: usize,
    pub low: usize,
    pub high: usize,
}

impl Question {
    /// Streams of these sizes, with all their bytes, in no room.
    pub fn new(page_size: u32, sizes: Vec<u32>) -> Self {
        Question {
            page_size,
            length: sizes.iter().map(|&size| bytes_of(size)).sum(),
            sizes,
            low: 0,
            high: 0,
        }
    }

    pub fn in_rooms(self, low: usize, high: usize) -> Self {
        Question { low, high, ..self }
    }

    /// The bytes that the file takes, if there is one.
    pub fn needed(&self) -> Option<usize> {
        let layout = Layout::new(self.page_size, &self.sizes, self.length);
        layout.ok().map(|layout| layout.length())
    }

    /// The bytes that are lent.
    pub fn bytes(&self) -> Vec<u8> {
        (0..self.length as u64).map(byte).collect()
    }

    /// What a writer does in each room.
    pub fn outcomes<P: Packer>(&self) -> Vec<Outcome> {
        let bytes = self.bytes();
        let rooms = self.low..=self.high;
        rooms
            .map(|room| Outcome::of::<P>(self, &bytes, room))
            .collect()
    }

    /// The digest of the reckoned answers. Stops unless pdb reads in the file what was to be written.
    pub fn digest(&self) -> Digest {
        let mut digest = Digest::default();
        let reckoned = self.outcomes::<Reckoning>();
        for outcome in &reckoned {
            digest.mix_all(&outcome.words());
        }
        if let Some(file) = reckoned.iter().find_map(Outcome::file) {
            reading::judge(self, file);
        }
        digest
    }
}

/// Byte `i` of the streams. It is never 0, so that it shows in a page that is otherwise 0, and no two pages are alike.
fn byte(i: u64) -> u8 {
    (1 + i * 2_654_435_761 / 65_536 % 255) as u8
}

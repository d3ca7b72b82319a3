//! A file as pdb is lent it.
//!
//! The project refuses a page number equal to pages_used (request 2026-03), and pdb does not. In pdb the word
//! at byte 40 is the last page number that passes, and nothing else. So what ours must answer is what pdb
//! answers if that word is one lower. No rule of ours is in this: pdb judges every page number.

use std::io::{self, Cursor, Read, Seek, SeekFrom};

use super::files::{BIG_MAGIC, PAGES_USED};
use crate::records::number;

/// A file's bytes, and those that are read in place of its word at byte 40, if they are others.
#[derive(Clone, Debug)]
pub struct Lent<'s> {
    file: Cursor<&'s [u8]>,
    used: Option<[u8; 4]>,
}

impl<'s> Lent<'s> {
    /// The file itself.
    pub fn own(file: &'s [u8]) -> Self {
        Lent {
            file: Cursor::new(file),
            used: None,
        }
    }

    /// The file with the word at byte 40 lowered by one; 0 stays 0. Only after the big magic is that word
    /// pages_used: the small magic reaches to byte 41.
    pub fn lowered(file: &'s [u8]) -> Self {
        let word = file.get(PAGES_USED..PAGES_USED + 4);
        let used = word.filter(|_| file.starts_with(BIG_MAGIC)).map(number);
        Lent {
            used: used.map(|used| (used as u32).saturating_sub(1).to_le_bytes()),
            ..Lent::own(file)
        }
    }

    pub fn len(&self) -> usize {
        self.file.get_ref().len()
    }
}

impl Read for Lent<'_> {
    fn read(&mut self, bytes: &mut [u8]) -> io::Result<usize> {
        let from = self.file.position() as usize;
        let count = self.file.read(bytes)?;
        let read = from..from + count;
        for (at, byte) in (PAGES_USED..).zip(self.used.iter().flatten()) {
            if read.contains(&at) {
                bytes[at - from] = *byte;
            }
        }
        Ok(count)
    }
}

impl Seek for Lent<'_> {
    fn seek(&mut self, to: SeekFrom) -> io::Result<u64> {
        self.file.seek(to)
    }
}

//! The records of a list: where record `n` is, its digest, and the list with a wrong answer. A record is
//! a header and then a body. All numbers are little-endian.

use crate::digest::Digest;

/// How the records of a list are laid out.
pub struct Layout {
    /// The length of a header.
    pub header: usize,
    /// Where the digest is in a header: lane a, then lane b.
    pub lanes: usize,
    /// The length of the body after a header.
    pub body: fn(&[u8]) -> usize,
}

impl Layout {
    /// Record `n`, its header and its body.
    pub fn record<'l>(&self, list: &'l [u8], n: usize) -> &'l [u8] {
        let at = self.place(list, n);
        &list[at..self.after(list, at)]
    }

    /// The digest in a record.
    pub fn digest(&self, record: &[u8]) -> Digest {
        Digest {
            a: number(&record[self.lanes..][..4]) as u32,
            b: number(&record[self.lanes + 4..][..4]) as u32,
        }
    }

    /// The list with one bit of record `n`'s digest flipped.
    pub fn altered(&self, list: &[u8], n: usize) -> Vec<u8> {
        let mut altered = list.to_vec();
        altered[self.place(list, n) + self.lanes] ^= 1;
        altered
    }

    /// Where record `n` begins.
    fn place(&self, list: &[u8], n: usize) -> usize {
        let mut at = 0;
        for _ in 0..n {
            at = self.after(list, at);
        }
        self.after(list, at);
        at
    }

    /// Where the record after the one at `at` begins.
    fn after(&self, list: &[u8], at: usize) -> usize {
        if at + self.header <= list.len() {
            let next = at + self.header + (self.body)(&list[at..]);
            if next <= list.len() {
                return next;
            }
        }
        crate::stop("the list has no such record")
    }
}

/// The number in these bytes.
pub fn number(bytes: &[u8]) -> u64 {
    bytes.iter().rev().fold(0, |n, &b| n * 256 + u64::from(b))
}

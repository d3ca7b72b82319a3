//! The digest of a record's answers: two lanes, so that two wrong answers are unlikely to cancel out.

/// One word of an answer.
#[derive(Clone, Copy, Debug, Eq, PartialEq)]
pub enum Word {
    /// A count, a place or the number of a case, unchanged.
    Plain(u64),
    /// A number of an annotation or of a store: its sign, then its distance from 0 or from -1.
    Signed(i64),
    /// A byte of a store: one half.
    Byte(u8),
}

/// The words of an answer as text.
pub fn text(words: &[Word]) -> String {
    let words: Vec<String> = words
        .iter()
        .map(|word| match word {
            Word::Plain(w) => w.to_string(),
            Word::Signed(z) => z.to_string(),
            Word::Byte(b) => format!("{:02x}", b),
        })
        .collect();
    words.join(" ")
}

/// The largest prime below 2^32. A lane fits in 32 bits, and a product with it in 64.
const PRIME: u64 = 4_294_967_291;

#[derive(Clone, Copy, Debug, Default, Eq, PartialEq)]
pub struct Digest {
    pub a: u32,
    pub b: u32,
}

impl Digest {
    pub fn mix_all(&mut self, words: &[Word]) {
        for word in words {
            match *word {
                Word::Plain(w) => self.mix(w),
                Word::Signed(z) if z >= 0 => {
                    self.mix(0);
                    self.mix(z as u64);
                }
                Word::Signed(z) => {
                    self.mix(1);
                    self.mix((-1 - z) as u64);
                }
                Word::Byte(b) => self.mix_half(u64::from(b)),
            }
        }
    }

    /// A word's low half, then its high half.
    fn mix(&mut self, word: u64) {
        self.mix_half(word & 0xffff_ffff);
        self.mix_half(word >> 32);
    }

    fn mix_half(&mut self, half: u64) {
        self.a = lane(self.a, 16_777_619, half);
        self.b = lane(self.b, 48_271, half);
    }
}

fn lane(lane: u32, factor: u64, half: u64) -> u32 {
    ((u64::from(lane) * factor + half + 1) % PRIME) as u32
}

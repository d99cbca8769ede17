//! A slice to lend, with guard bytes before and behind it.

use crate::prng::Prng;

/// All bytes round the slice are random, so that reading them changes answers
/// and writing them shows.
pub struct Lent {
    before: Vec<u8>,
    now: Vec<u8>,
    start: usize,
    end: usize,
}

impl Lent {
    pub fn holding(rng: &mut Prng, content: &[u8]) -> Lent {
        // The start differs so that no alignment can be relied on.
        let start = 8 + rng.below(8);
        let end = start + content.len();
        let mut now = rng.bytes(end + 24);
        now[start..end].copy_from_slice(content);
        let before = now.clone();
        Lent {
            before,
            now,
            start,
            end,
        }
    }

    pub fn room(rng: &mut Prng, len: usize) -> Lent {
        let content = rng.bytes(len);
        Lent::holding(rng, &content)
    }

    pub fn slice(&self) -> &[u8] {
        &self.now[self.start..self.end]
    }

    pub fn slice_mut(&mut self) -> &mut [u8] {
        &mut self.now[self.start..self.end]
    }

    /// The slice begins with what was written; every other byte, guards too, is
    /// as it was.
    pub fn holds_just(&self, written: &[u8]) -> bool {
        let past = self.start + written.len();
        self.now[..self.start] == self.before[..self.start]
            && self.now[self.start..past] == *written
            && self.now[past..] == self.before[past..]
    }

    pub fn unchanged(&self) -> bool {
        self.now == self.before
    }

    pub fn describe(&self) -> String {
        format!(
            "length {}, guards and slice before:\n    {}\n  and after:\n    {}",
            self.end - self.start,
            self.marked(&self.before),
            self.marked(&self.now)
        )
    }

    fn marked(&self, bytes: &[u8]) -> String {
        format!(
            "{} | {} | {}",
            hex(&bytes[..self.start]),
            hex(&bytes[self.start..self.end]),
            hex(&bytes[self.end..])
        )
    }
}

pub fn hex(bytes: &[u8]) -> String {
    let digits: Vec<String> = bytes.iter().map(|b| format!("{b:02X}")).collect();
    digits.join(" ")
}

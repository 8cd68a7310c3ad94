//! Added memory on the chip that erases to 255: a log that writes pages here and there, so that they wear alike.

use crate::Random;

/// Bytes of a page.
const PAGE: usize = 64;

/// The next page to write is so many further on: a prime, so that every page has its turn.
const STRIDE: usize = 37;

pub struct Flash {
    random: Random,
    bytes: Vec<u8>,
    next: usize,
}

impl Flash {
    /// So many pages, all erased.
    pub fn new(seed: u64, pages: usize) -> Flash {
        Flash { random: Random::new(seed), bytes: vec![255; PAGE * pages], next: 0 }
    }

    /// The memory after so many more pages were written.
    pub fn write(&mut self, pages: usize) -> &[u8] {
        for _ in 0..pages {
            let at = self.next * PAGE;
            self.random.fill(&mut self.bytes[at..at + PAGE]);
            self.next = (self.next + STRIDE) % (self.bytes.len() / PAGE);
        }
        &self.bytes
    }
}

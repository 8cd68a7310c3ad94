//! Pseudo-random numbers from a seed (SplitMix64), the same on every machine.

use terms::{BLOCK_BYTES, SEGMENT_BLOCKS};

/// Percentages at which a removal of few positions, or of most, just goes the one way or the other.
const PERCENTAGES: [u32; 14] = [0, 6, 7, 12, 13, 20, 25, 26, 50, 51, 75, 88, 99, 100];

pub struct Random(u64);

impl Random {
    pub fn new(seed: u64) -> Random {
        Random(seed)
    }

    pub fn number(&mut self) -> u64 {
        self.0 = self.0.wrapping_add(0x9e37_79b9_7f4a_7c15);
        let mixed = (self.0 ^ self.0 >> 30).wrapping_mul(0xbf58_476d_1ce4_e5b9);
        let mixed = (mixed ^ mixed >> 27).wrapping_mul(0x94d0_49bb_1331_11eb);
        mixed ^ mixed >> 31
    }

    /// A number from 0 to `limit - 1`.
    pub fn below(&mut self, limit: usize) -> usize {
        (self.number() % limit as u64) as usize
    }

    /// A number from `low` to `high`.
    pub fn between(&mut self, low: usize, high: usize) -> usize {
        low + self.below(high - low + 1)
    }

    /// True so many times in a hundred.
    pub fn percent(&mut self, often: usize) -> bool {
        self.below(100) < often
    }

    pub fn pick<'a, T>(&mut self, from: &'a [T]) -> &'a T {
        &from[self.below(from.len())]
    }

    pub fn fill(&mut self, bytes: &mut [u8]) {
        bytes.chunks_mut(8).for_each(|some| some.copy_from_slice(&self.number().to_le_bytes()[..some.len()]));
    }

    /// Any measures that a store can have: block bytes, segment blocks, rebuild percentage.
    pub fn measures(&mut self) -> [u32; 3] {
        let percentage = if self.percent(60) { *self.pick(&PERCENTAGES) } else { self.below(101) as u32 };
        [*self.pick(&BLOCK_BYTES), *self.pick(&SEGMENT_BLOCKS), percentage]
    }

    /// A number that is often at the edge of something.
    pub fn edge(&mut self) -> u32 {
        *self.pick(&[0, 1, 2, 8, 63, 64, 65, 128, 1_023, 1_024, 65_535, 65_536, 1 << 24, 2 << 24, 3 << 24, u32::MAX])
    }
}

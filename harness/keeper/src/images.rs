//! Random images for small stores: few different blocks, so that blocks, null and blank blocks and whole segments come
//! again, within an image, from version to version and from till to till.

use crate::Random;
use terms::Capacities;

type Block = Vec<u8>;

/// Images of the store's blocks and segments.
pub struct Images {
    palette: Vec<Block>,
    blocks: usize,
    bytes: usize,
    segment: usize,
}

impl Images {
    /// Images for a store of these capacities, from so many different blocks.
    pub fn new(random: &mut Random, capacities: Capacities, kinds: usize) -> Images {
        let [blocks, bytes, segment] =
            [capacities.blocks, capacities.block_bytes, capacities.segment_blocks].map(|one| one as usize);
        Images { palette: (0..kinds).map(|n| block(random, n, bytes)).collect(), blocks, bytes, segment }
    }

    /// A till's next image, often near to its previous one or to another till's.
    pub fn next(&self, random: &mut Random, previous: Option<&[u8]>, other: Option<&[u8]>) -> Vec<u8> {
        let mut image = match (random.below(10), previous, other) {
            (0, _, _) | (_, None, None) => self.fresh(random),
            (1, _, Some(other)) | (_, None, Some(other)) => blocks_of(other, self.bytes),
            (_, Some(previous), _) => blocks_of(previous, self.bytes),
        };
        for _ in 0..random.below(4) {
            self.change(random, &mut image);
        }
        let mut bytes = image.concat();
        if random.percent(35) {
            bytes.truncate(bytes.len() - random.below(self.bytes));
        }
        bytes
    }

    fn filled(&self, byte: u8) -> Block {
        vec![byte; self.bytes]
    }

    /// Null or blank: memory that is not in use.
    fn unused(&self, random: &mut Random) -> Block {
        self.filled(*random.pick(&[0, 255]))
    }

    fn one(&self, random: &mut Random) -> Block {
        match random.below(100) {
            0..=11 => self.filled(0),
            12..=23 => self.filled(255),
            24..=26 => self.nearly_blank(random),
            _ => random.pick(&self.palette).clone(),
        }
    }

    /// 255s but for one byte, or but for the end.
    fn nearly_blank(&self, random: &mut Random) -> Block {
        let mut block = self.filled(255);
        let any = random.below(self.bytes);
        let at = *random.pick(&[0, self.bytes - 1, any]);
        match random.below(3) {
            0 => block[at.max(1)..].fill(0),
            _ => block[at] ^= 1 << random.below(8),
        }
        block
    }

    fn some(&self, random: &mut Random, count: usize) -> Vec<Block> {
        (0..count).map(|_| self.one(random)).collect()
    }

    fn fresh(&self, random: &mut Random) -> Vec<Block> {
        let count = random.between(1, self.blocks);
        match random.below(8) {
            0 => vec![self.unused(random); count],
            1 => vec![self.one(random); count],
            _ => self.some(random, count),
        }
    }

    /// One of the things that happen to an image between closings.
    fn change(&self, random: &mut Random, image: &mut Vec<Block>) {
        let at = random.below(image.len());
        let segment = at - at % self.segment;
        let end = image.len().min(segment + self.segment);
        match random.below(9) {
            0 | 1 => image[at] = self.one(random),
            2 => image[at] = block(random, 3, self.bytes),
            3 => image[segment..end].clone_from_slice(&self.some(random, end - segment)),
            4 => image.extend_from_within(segment..end),
            5 => image.extend(self.some(random, self.segment)),
            6 => image.rotate_left(at),
            7 => image.truncate(at + 1),
            _ => image[segment..end].fill(self.unused(random)),
        }
        image.truncate(self.blocks);
    }
}

/// An image's blocks of so many bytes, the last filled up with zeros.
pub fn blocks_of(image: &[u8], bytes: usize) -> Vec<Block> {
    let whole = |part: &[u8]| [part, &vec![0; bytes - part.len()]].concat();
    image.chunks(bytes).map(whole).collect()
}

/// A block that is not null, of one of four sorts: a letter throughout, one byte at the start, one at the end, any.
fn block(random: &mut Random, sort: usize, bytes: usize) -> Block {
    let byte = random.between(1, 255) as u8;
    let mut block = vec![0; bytes];
    match sort % 4 {
        0 => block.fill(byte),
        1 => block[0] = byte,
        2 => block[bytes - 1] = byte,
        _ => random.fill(&mut block),
    }
    block[0] |= block.iter().all(|&byte| byte == 0) as u8;
    block
}

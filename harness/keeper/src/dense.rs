//! Images that fill a store to the brim: nothing in them is shared, and at each closing some whole segments are new.

use crate::Random;

pub struct Dense {
    random: Random,
    images: Vec<Vec<u8>>,
    segment: usize,
    changes: usize,
}

impl Dense {
    /// So many tills with images of so many bytes, a multiple of a segment's, and so many new segments at each closing.
    pub fn new(seed: u64, tills: usize, length: usize, segment: usize, changes: usize) -> Dense {
        let mut random = Random::new(seed);
        let mut images = vec![vec![0; length]; tills];
        images.iter_mut().for_each(|image| random.fill(image));
        Dense { random, images, segment, changes }
    }

    /// The image of a till at this closing.
    pub fn close(&mut self, till: usize) -> &[u8] {
        let image = &mut self.images[till];
        let segments = image.len() / self.segment;
        let first = self.random.below(segments);
        for n in 0..self.changes {
            let at = (first + n) % segments * self.segment;
            self.random.fill(&mut image[at..at + self.segment]);
        }
        image
    }
}

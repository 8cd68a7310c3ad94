//! Images such as tills have at closing time: firmware that all share, settings of their own, counters that change
//! every day and a journal that grows until it is begun anew.

use crate::Random;

/// Bytes of a closing.
pub const LENGTH: usize = 33_268;

const SETTINGS: usize = 16_384;
const COUNTERS: usize = 20_480;
const JOURNAL: usize = 21_504;

/// Totals of the day, four bytes each, at the start of the counters.
const TOTALS: usize = 40;

/// A till's memory from one closing to the next.
pub struct Till {
    image: Vec<u8>,
    written: usize,
    unused: u8,
}

impl Till {
    /// A till as delivered, with this byte wherever its memory is not in use.
    pub fn new(firmware: &[u8], random: &mut Random, unused: u8) -> Till {
        let mut image = vec![unused; LENGTH];
        image[..SETTINGS].copy_from_slice(&firmware[..SETTINGS]);
        random.fill(&mut image[SETTINGS..SETTINGS + 3_000]);
        random.fill(&mut image[COUNTERS..COUNTERS + 600]);
        Till { image, written: JOURNAL, unused }
    }

    /// A day of sales: totals move, the journal gets its lines, now and then a setting changes.
    pub fn close(&mut self, random: &mut Random) -> &[u8] {
        for _ in 0..10 {
            let at = COUNTERS + 4 * random.below(TOTALS);
            random.fill(&mut self.image[at..at + 4]);
        }
        if random.percent(10) {
            let at = SETTINGS + random.below(3_000);
            random.fill(&mut self.image[at..at + 20]);
        }
        for _ in 0..random.between(4, 16) {
            self.line(random);
        }
        &self.image
    }

    /// One line of the journal, of 32 bytes. A full journal is cleared and begun anew.
    fn line(&mut self, random: &mut Random) {
        if self.written + 32 > LENGTH {
            self.image[JOURNAL..].fill(self.unused);
            self.written = JOURNAL;
        }
        random.fill(&mut self.image[self.written..self.written + 12]);
        self.image[self.written + 12..self.written + 32].copy_from_slice(b"sale at the counter.");
        self.written += 32;
    }

    /// New firmware is put in.
    pub fn update(&mut self, firmware: &[u8]) {
        self.image[..SETTINGS].copy_from_slice(&firmware[..SETTINGS]);
    }
}

/// The shop: all tills run the same firmware.
pub struct Shop {
    random: Random,
    firmware: Vec<u8>,
    tills: Vec<Till>,
}

impl Shop {
    /// Memory that is not in use is zero.
    pub fn new(seed: u64, tills: usize) -> Shop {
        Shop::with_unused(seed, tills, 0)
    }

    /// Tills with the chip that erases to 255.
    pub fn erased(seed: u64, tills: usize) -> Shop {
        Shop::with_unused(seed, tills, 255)
    }

    fn with_unused(seed: u64, tills: usize, unused: u8) -> Shop {
        let mut random = Random::new(seed);
        let mut firmware = vec![0; SETTINGS];
        random.fill(&mut firmware);
        let tills = (0..tills).map(|_| Till::new(&firmware, &mut random, unused)).collect();
        Shop { random, firmware, tills }
    }

    /// The image of a till at this closing.
    pub fn close(&mut self, till: usize) -> &[u8] {
        self.tills[till].close(&mut self.random)
    }

    /// New firmware for all: a part of it changes.
    pub fn update(&mut self) {
        let at = self.random.below(SETTINGS - 2_048);
        self.random.fill(&mut self.firmware[at..at + 2_048]);
        self.tills.iter_mut().for_each(|till| till.update(&self.firmware));
    }
}

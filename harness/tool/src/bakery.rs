//! The tills of a bakery for the demo: images of 33,268 bytes with firmware that all share, settings of their own,
//! counters that move and a journal that grows. The same on every machine.

/// Bytes of an image.
pub const LENGTH: usize = 33_268;

const FIRMWARE: usize = 16_384;
const COUNTERS: usize = 20_480;
const JOURNAL: usize = 21_504;
const LINE: usize = 32;
const GOODS: [(&str, u32); 6] =
    [("rolls", 45), ("rye bread", 420), ("croissant", 180), ("plum cake", 260), ("coffee", 230), ("pretzel", 95)];

pub struct Till {
    image: Vec<u8>,
    journal: usize,
    taken: [u32; GOODS.len()],
    seed: u64,
}

impl Till {
    /// A till as delivered: the firmware of all, a name in its settings.
    pub fn new(name: &str) -> Till {
        let mut image = vec![0; LENGTH];
        let mut seed = 1;
        image[..FIRMWARE].chunks_mut(8).for_each(|some| some.copy_from_slice(&next(&mut seed).to_le_bytes()));
        put(&mut image, FIRMWARE, &format!("bakery till: {name}"));
        let seed = name.bytes().fold(7, |seed, byte| seed * 31 + u64::from(byte));
        Till { image, journal: JOURNAL, taken: [0; GOODS.len()], seed }
    }

    /// A day of sales; the image is what the till sends in the evening.
    pub fn close(&mut self, day: &str) -> &[u8] {
        let mut clock = 6 * 60 + 30;
        for _ in 0..12 + next(&mut self.seed) % 5 {
            clock += 20 + (next(&mut self.seed) % 35) as u32;
            self.sell(day, clock);
        }
        &self.image
    }

    fn sell(&mut self, day: &str, clock: u32) {
        let pieces = 1 + (next(&mut self.seed) % 6) as u32;
        let choice = (next(&mut self.seed) % GOODS.len() as u64) as usize;
        let (goods, cents) = GOODS[choice];
        let price = pieces * cents;
        self.taken[choice] += price;
        self.image[COUNTERS + 4 * choice..][..4].copy_from_slice(&self.taken[choice].to_le_bytes());
        let (hour, minute, whole, part) = (clock / 60, clock % 60, price / 100, price % 100);
        let line = format!("{day} {hour:02}:{minute:02}  {pieces} {goods:<10} {whole:>3}.{part:02}");
        put(&mut self.image, self.journal, &line);
        self.journal += LINE;
    }
}

/// The last line of an image's journal.
pub fn last_line(image: &[u8]) -> String {
    let journal = image.get(JOURNAL..).unwrap_or_default();
    let last = journal.chunks(LINE).take_while(|line| line[0] != 0).last().unwrap_or_default();
    String::from_utf8_lossy(last).trim_end_matches('\0').to_string()
}

fn put(image: &mut [u8], at: usize, text: &str) {
    image[at..at + text.len()].copy_from_slice(text.as_bytes());
}

/// Pseudo-random numbers (SplitMix64).
fn next(seed: &mut u64) -> u64 {
    *seed = seed.wrapping_add(0x9e37_79b9_7f4a_7c15);
    let mixed = (*seed ^ *seed >> 30).wrapping_mul(0xbf58_476d_1ce4_e5b9);
    let mixed = (mixed ^ mixed >> 27).wrapping_mul(0x94d0_49bb_1331_11eb);
    mixed ^ mixed >> 31
}

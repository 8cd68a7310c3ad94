//! Which cells are occupied, and the run of free ones to write to.

/// A bit for each cell, set if it is occupied. Bits past the last cell are set, so that runs end there.
#[derive(Clone)]
pub struct Occupied {
    words: Vec<u64>,
    cells: usize,
}

impl Occupied {
    pub fn none(cells: usize) -> Occupied {
        let mut words = vec![0; cells.div_ceil(64)];
        if !cells.is_multiple_of(64) {
            words[cells / 64] = !0 << (cells % 64);
        }
        Occupied { words, cells }
    }

    pub fn has(&self, cell: usize) -> bool {
        self.words[cell / 64] >> (cell % 64) & 1 == 1
    }

    pub fn set(&mut self, cell: usize) {
        self.words[cell / 64] |= 1 << (cell % 64);
    }

    pub fn clear(&mut self, cell: usize) {
        self.words[cell / 64] &= !(1 << (cell % 64));
    }

    /// How many cells are occupied.
    pub fn count(&self) -> usize {
        (0..self.words.len()).map(|n| self.word(n).count_ones() as usize).sum()
    }

    /// The bits of cells 64 × n on, with those past the last cell cleared.
    pub fn word(&self, n: usize) -> u64 {
        let left = self.cells - 64 * n;
        if left < 64 {
            self.words[n] & !(!0 << left)
        } else {
            self.words[n]
        }
    }

    /// The first cell from `from` on whose bit, after `flip`, is set; the number of cells if there is none.
    fn seek(&self, from: usize, flip: u64) -> usize {
        let Some(&first) = self.words.get(from / 64) else { return self.cells };
        let mut bits = (first ^ flip) & !0 << (from % 64);
        let mut n = from / 64;
        while bits == 0 {
            n += 1;
            let Some(&next) = self.words.get(n) else { return self.cells };
            bits = next ^ flip;
        }
        (64 * n + bits.trailing_zeros() as usize).min(self.cells)
    }

    /// The start of the shortest maximal run of free cells that has `need` of them, the lowest of equals.
    pub fn best_run(&self, need: usize) -> Option<usize> {
        let mut best: Option<(usize, usize)> = None;
        let mut start = self.seek(0, !0);
        while start < self.cells {
            let end = self.seek(start, 0);
            let length = end - start;
            if length == need {
                return Some(start);
            }
            if length > need && best.is_none_or(|(shortest, _)| length < shortest) {
                best = Some((length, start));
            }
            start = self.seek(end, !0);
        }
        best.map(|(_, start)| start)
    }
}

#[cfg(test)]
mod tests {
    use super::Occupied;

    fn of(picture: &str) -> Occupied {
        let mut occupied = Occupied::none(picture.len());
        picture.bytes().enumerate().filter(|&(_, c)| c == b'#').for_each(|(i, _)| occupied.set(i));
        occupied
    }

    #[test]
    fn shortest_then_lowest() {
        let occupied = of("....#..#...#..#");
        assert_eq!(occupied.best_run(1), Some(5));
        assert_eq!(occupied.best_run(2), Some(5));
        assert_eq!(occupied.best_run(3), Some(8));
        assert_eq!(occupied.best_run(4), Some(0));
        assert_eq!(occupied.best_run(5), None);
        assert_eq!((occupied.count(), of(".").count()), (4, 0));
    }

    #[test]
    fn runs_cross_words_and_end_with_the_pool() {
        let mut occupied = Occupied::none(130);
        assert_eq!(occupied.best_run(130), Some(0));
        assert_eq!(occupied.best_run(131), None);
        occupied.set(60);
        assert_eq!(occupied.best_run(60), Some(0));
        assert_eq!(occupied.best_run(61), Some(61));
        assert_eq!(occupied.best_run(69), Some(61));
        assert_eq!(occupied.best_run(70), None);
    }

    #[test]
    fn full_pool_has_no_run() {
        assert_eq!(of("########").best_run(1), None);
        assert_eq!(of(&"#".repeat(64)).best_run(1), None);
    }
}

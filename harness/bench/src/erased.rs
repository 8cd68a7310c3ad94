//! What a shop keeps whose tills have the new chip, with memory that was added and erases to 255: by the rule from
//! before blank blocks were known, which the twin has, and by the proved store.

use crate::space::{CLOSINGS, TILLS};
use keeper::closings::{Shop, LENGTH};
use keeper::flash::Flash;
use lurdempos::{Capacities, Store, Tally, LONGEST_IMAGE, OWNER};
use std::fmt::Write;
use twin::Era;

/// Pages of the added memory, which begins at a block, and those written at each closing.
const PAGES: usize = LONGEST_IMAGE as usize / 64 - LENGTH.div_ceil(64);
const WRITTEN: usize = 3;

/// The shop, and the added memory of each till.
struct Tills {
    shop: Shop,
    added: Vec<Flash>,
}

impl Tills {
    fn new() -> Tills {
        let added = (0..TILLS).map(|till| Flash::new(till as u64, PAGES)).collect();
        Tills { shop: Shop::erased(1, TILLS), added }
    }

    /// The image of a till at this closing, the longest that a store takes.
    fn close(&mut self, till: usize) -> Vec<u8> {
        let mut image = self.shop.close(till).to_vec();
        image.resize(LENGTH.next_multiple_of(64), 255);
        image.extend_from_slice(self.added[till].write(WRITTEN));
        image
    }
}

/// Tallies after so many closings of every till.
struct Day {
    closings: usize,
    before: Tally,
    now: Tally,
}

/// A store by the rule from before.
struct Earlier {
    pool: Vec<u8>,
    table: Vec<u32>,
}

impl Earlier {
    fn new() -> Earlier {
        let largest = Capacities::LARGEST;
        let (mut pool, mut table) = (vec![0; largest.pool_bytes()], vec![0; largest.table_words()]);
        twin::lay_out(&mut pool, &mut table, largest).expect("good capacities");
        Earlier { pool, table }
    }

    fn backup(&mut self, till: usize, image: &[u8]) {
        twin::backup_by(Era::BeforeBlanks, &mut self.pool, &mut self.table, till as u32, image).expect("there is room");
    }

    fn tally(&self) -> Tally {
        twin::tally(&self.pool, &self.table, OWNER).expect("a sound store")
    }
}

pub fn report() -> String {
    let mut tills = Tills::new();
    let (mut earlier, mut store) = (Earlier::new(), Store::new(Capacities::LARGEST).expect("good capacities"));
    let mut days = Vec::new();
    for closings in 1..=CLOSINGS {
        for till in 0..TILLS {
            let image = tills.close(till);
            earlier.backup(till, &image);
            store.backup(OWNER, till as u32, &image).expect("there is room");
        }
        days.push(Day { closings, before: earlier.tally(), now: store.tally(OWNER).expect("a sound store") });
    }
    same_images(&earlier, &store);
    format!("{}\n{}", table(&days), next_closing(earlier, tills))
}

/// Every version comes back the same from both.
fn same_images(earlier: &Earlier, store: &Store) {
    let mut output = vec![0; LONGEST_IMAGE as usize];
    for (till, version) in (0..TILLS as u32).flat_map(|till| (1..=CLOSINGS as u32).map(move |n| (till, n))) {
        twin::restore(&earlier.pool, &earlier.table, OWNER, till, version, &mut output).expect("it is held");
        assert!(
            store.image(OWNER, till, version).is_ok_and(|image| image == output),
            "version {version} of till {till}"
        );
    }
}

/// The table, every eighth day.
fn table(days: &[Day]) -> String {
    let mut text = format!(
        "{TILLS} tills, images of {LONGEST_IMAGE} bytes: the shop's memory on a chip that erases to 255, and {PAGES} \
         pages of added memory, {WRITTEN} more of them written at each closing. Before: by the rule that stored blocks \
         of 255s.\n\n"
    );
    text += "| closings | cells before | cells now | saved | records before | records now |\n";
    text += "|---:|---:|---:|---:|---:|---:|\n";
    for Day { closings, before, now } in days.iter().filter(|day| day.closings == 1 || day.closings % 8 == 0) {
        let part = 100.0 * (1.0 - f64::from(now.cells) / f64::from(before.cells));
        let cells = format!("{} | {} | {part:.1} %", before.cells, now.cells);
        writeln!(text, "| {closings} | {cells} | {} | {} |", before.records, now.records).expect("a string takes all");
    }
    text
}

/// What the next closing frees in a store from before, once every till has made room for it.
fn next_closing(earlier: Earlier, mut tills: Tills) -> String {
    let mut store = Store::from_parts(earlier.pool, earlier.table).expect("a sound store");
    (0..TILLS as u32).for_each(|till| assert!(store.retire(OWNER, till, 1).is_ok(), "the oldest is held"));
    let before = store.tally(OWNER).expect("a sound store").cells;
    for till in 0..TILLS {
        store.backup(OWNER, till as u32, &tills.close(till)).expect("there is room");
    }
    let after = store.tally(OWNER).expect("a sound store").cells;
    let words = format!("the next one takes it from {before} cells to {after}");
    format!("A store from before goes on after {CLOSINGS} closings: {words}.\n")
}

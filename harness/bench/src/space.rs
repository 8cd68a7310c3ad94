//! Space: what the store keeps against whole images, closing by closing.

use crate::picture::{Chart, Curve};
use keeper::closings::{Shop, LENGTH};
use lurdempos::{Capacities, Store, OWNER};
use std::fmt::Write;

pub const TILLS: usize = 16;
pub const CLOSINGS: usize = 64;

/// After so many closings of every till.
pub struct Day {
    pub closings: usize,
    /// Bytes of all images.
    pub images: usize,
    /// Occupied cells, and records in use.
    pub cells: usize,
    pub records: usize,
}

impl Day {
    /// Bytes of the occupied cells.
    pub fn kept(&self) -> usize {
        64 * self.cells
    }
}

fn capacities() -> Capacities {
    Capacities::new(TILLS as u32, CLOSINGS as u32, LENGTH.div_ceil(64) as u32, 4_096, 32_768)
}

/// A shop's closings, filed by the proved store; every version is restored at the end.
pub fn days() -> Vec<Day> {
    let mut store = Store::new(capacities()).expect("good capacities");
    let mut shop = Shop::new(1, TILLS);
    let mut images = Vec::new();
    let mut days = Vec::new();
    for closings in 1..=CLOSINGS {
        for till in 0..TILLS {
            let image = shop.close(till).to_vec();
            let version = store.backup(OWNER, till as u32, &image).expect("there is room");
            images.push((till as u32, version, image));
        }
        let tally = store.tally(OWNER).expect("a sound store");
        let bytes = images.iter().map(|(_, _, image)| image.len()).sum();
        days.push(Day { closings, images: bytes, cells: tally.cells as usize, records: tally.records as usize });
    }
    for (till, version, image) in images {
        assert!(store.image(OWNER, till, version).is_ok_and(|restored| restored == image));
    }
    days
}

/// Bytes against closings, each tick ten times the one below.
pub fn svg(days: &[Day]) -> String {
    let curve = |bytes: fn(&Day) -> usize, colour, name| {
        let values: Vec<f64> = days.iter().map(|day| bytes(day) as f64).collect();
        let last = format!("{:.2} MB", values.last().copied().unwrap_or(0.0) / 1e6);
        Curve { values, colour, name, last }
    };
    let chart = Chart {
        title: "What 16 tills keep: whole images, and cells of the store",
        below: "closings of each till",
        up: |bytes| (bytes.log10() - 4.0) / 4.0,
        ticks: vec![(1e4, "10 kB"), (1e5, "100 kB"), (1e6, "1 MB"), (1e7, "10 MB"), (1e8, "100 MB")],
        curves: vec![
            curve(|day| day.images, "#b3452c", "whole images"),
            curve(Day::kept, "#1f5fa8", "the store's cells"),
        ],
    };
    chart.svg()
}

/// The table, every eighth day.
pub fn table(days: &[Day]) -> String {
    let words = lurdempos::table_length(capacities()).expect("good capacities");
    let mut text = format!(
        "{TILLS} tills, images of {LENGTH} bytes. The table beside the pool has {} bytes at these capacities, used or not.\n\n",
        4 * words
    );
    text += "| closings | bytes of whole images | cells | records | bytes kept in cells | of whole images |\n";
    text += "|---:|---:|---:|---:|---:|---:|\n";
    for day in days.iter().filter(|day| day.closings == 1 || day.closings % 8 == 0) {
        let Day { closings, images, cells, records } = *day;
        let part = 100.0 * day.kept() as f64 / images as f64;
        writeln!(text, "| {closings} | {images} | {cells} | {records} | {} | {part:.2} % |", day.kept())
            .expect("a string takes all");
    }
    text
}

//! Counts that fall, and step 3: positions whose count is 0 are removed.

use crate::layout::{ones, Place, Record};
use crate::rows::{BlocksMut, RecordsMut};
use crate::runs::Occupied;

/// Lowers the counts of positions let go of, then removes those that reach 0, record by record in rising number.
pub fn let_go(
    mut places: Vec<Place>,
    cells: &mut BlocksMut,
    records: &mut RecordsMut,
    occupied: &mut Occupied,
    percent: usize,
) {
    for place in &places {
        *Record::count(&mut records[place.record], place.position) -= 1;
    }
    places.sort_unstable_by_key(|place| place.record);
    places.dedup_by_key(|place| place.record);
    for Place { record, .. } in places {
        let swept = sweep(Record::read(&records[record]), cells, occupied, percent);
        swept.write(&mut records[record]);
    }
}

/// One record without its positions of count 0.
fn sweep(record: Record, cells: &mut BlocksMut, occupied: &mut Occupied, percent: usize) -> Record {
    let gone = ones(record.held).filter(|&i| record.counts[i] == 0).fold(0, |mask, i| mask | 1 << i);
    let kept = record.held & !gone;
    let (r, s) = (gone.count_ones() as usize, record.held.count_ones() as usize);
    if r == 0 {
        return record;
    }
    let mut after = record;
    let few = 100 * r < percent * s;
    let run = if few || r == s { None } else { occupied.best_run(s - r) };
    if let Some(start) = run {
        for (cell, i) in (start..).zip(ones(kept)) {
            cells.copy(record.cells[i] as usize, cell);
            occupied.set(cell);
            after.cells[i] = cell as u32;
        }
    }
    for i in ones(if run.is_some() { record.held } else { gone }) {
        cells[record.cells[i] as usize].fill(0);
        occupied.clear(record.cells[i] as usize);
    }
    ones(gone).for_each(|i| after.cells[i] = 0);
    after.held = kept;
    after.removed |= gone;
    if kept == 0 {
        Record::default()
    } else {
        after
    }
}

//! Step 1 of a backup: where each segment of the image goes. All is planned before a byte is written, so a refusal
//! alters nothing.

use crate::era::{Era, Masks};
use crate::layout::{ones, Layout, Place, Pointer, Record};
use crate::rows::{Blocks, BlocksMut, Records, RecordsMut, Rows};
use crate::runs::Occupied;
use terms::Refusal;

/// A segment as its blocks.
pub type Segment<'a> = Blocks<'a>;

/// The image filled up with zeros to whole segments.
pub fn fill_up(image: &[u8], layout: &Layout) -> Vec<u8> {
    let mut bytes = vec![0; image.len().next_multiple_of(layout.segment_bytes())];
    bytes[..image.len()].copy_from_slice(image);
    bytes
}

/// The segments of a filled up image.
pub fn segments<'a>(bytes: &'a [u8], layout: &Layout) -> Vec<Segment<'a>> {
    bytes.chunks_exact(layout.segment_bytes()).map(|part| Rows::new(part, layout.bytes)).collect()
}

/// A segment that takes a free record and a run of free cells.
struct Placing {
    segment: usize,
    masks: Masks,
    record: usize,
    cell: usize,
}

/// What a segment needs: the mask of its blank blocks, and a record unless all others are null.
struct Use {
    blank: u32,
    record: Option<usize>,
}

/// What each segment uses, and the records to be written first.
pub struct Plan {
    uses: Vec<Use>,
    placings: Vec<Placing>,
}

/// Plans all segments. The planned cells become occupied.
pub fn plan(
    segments: &[Segment],
    era: Era,
    cells: Blocks,
    records: Records,
    occupied: &mut Occupied,
) -> Result<Plan, Refusal> {
    let numbered = || records.iter().enumerate();
    let whole: Vec<(usize, Masks)> =
        numbered().filter(|(_, words)| Record::is_whole(words)).map(|(k, words)| (k, Record::masks(words))).collect();
    let mut free = numbered().filter(|(_, words)| Record::is_free(words)).map(|(k, _)| k);
    let mut plan = Plan { uses: Vec::with_capacity(segments.len()), placings: Vec::new() };
    for (n, &segment) in segments.iter().enumerate() {
        let masks = era.masks(segment);
        let equal = |&&(k, held): &&(usize, Masks)| held == masks && has_content(&records[k], cells, segment);
        let placed = || plan.placings.iter().find(|one| segments[one.segment] == segment).map(|one| one.record);
        let found = || whole.iter().find(equal).map(|&(k, _)| k).or_else(placed);
        let mut used = Use { blank: masks.blank, record: if masks.held == 0 { None } else { found() } };
        if masks.held != 0 && used.record.is_none() {
            let record = free.next().ok_or(Refusal::NoRecord)?;
            let need = masks.held.count_ones() as usize;
            let cell = occupied.best_run(need).ok_or(Refusal::NoRun)?;
            (cell..cell + need).for_each(|cell| occupied.set(cell));
            plan.placings.push(Placing { segment: n, masks, record, cell });
            used.record = Some(record);
        }
        plan.uses.push(used);
    }
    Ok(plan)
}

/// Whether the record's held positions, which are the segment's blocks that need a cell, have those blocks' bytes. To
/// a backup that knows blank blocks none of these is blank, so that a cell of 255s from before equals none.
fn has_content(words: &[u32], cells: Blocks, segment: Segment) -> bool {
    ones(words[0]).all(|i| cells.is_same(Record::cell(words, i), segment, i))
}

impl Plan {
    /// Writes the planned records and cells, counts every pointer and gives the new version's pointer words.
    pub fn carry_out(
        &self,
        layout: &Layout,
        segments: &[Segment],
        cells: &mut BlocksMut,
        records: &mut RecordsMut,
    ) -> Vec<u32> {
        for one in &self.placings {
            let record = write(segments[one.segment], one.masks, one.cell, cells);
            record.write(&mut records[one.record]);
        }
        let mut pointers = vec![Pointer::Null.word(); segments.len() * layout.positions];
        for (used, pointers) in self.uses.iter().zip(pointers.chunks_exact_mut(layout.positions)) {
            ones(used.blank).for_each(|i| pointers[i] = Pointer::Blank.word());
            if let Some(record) = used.record {
                use_record(record, &mut records[record], pointers);
            }
        }
        pointers
    }
}

/// Writes a segment's blocks that need a cell to consecutive ones; its record, nothing counted yet.
fn write(segment: Segment, Masks { held, blank }: Masks, cell: usize, cells: &mut BlocksMut) -> Record {
    let mut record = Record { held, blank, ..Record::default() };
    for (cell, i) in (cell..).zip(ones(record.held)) {
        cells[cell].copy_from_slice(&segment[i]);
        record.cells[i] = cell as u32;
    }
    record
}

/// The pointer words of a segment that uses this record, each counted.
fn use_record(record: usize, words: &mut [u32], pointers: &mut [u32]) {
    for position in ones(words[0]) {
        *Record::count(words, position) += 1;
        pointers[position] = Pointer::Direct(Place { record, position }).word();
    }
}

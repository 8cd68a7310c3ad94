//! The soundness check (refusal 10): one pass over the pool and one over the table.

use crate::layout::{Layout, Pointer, Record, TillWords, POSITIONS, RECORD_HEAD, SLOT_HEAD, TILL_HEAD};
use crate::rows::{is_null, Blocks, Records};
use crate::runs::Occupied;
use crate::trace::{trace, End};
use crate::users::is_word_of_rights;
use terms::{Capacities, Refusal, LAST_NUMBER};

/// What a call learns from the check of a sound store.
pub struct Found {
    pub layout: Layout,
    pub occupied: Occupied,
}

/// Finds a sound store, or refuses with 10.
pub fn check(pool: &[u8], table: &[u32]) -> Result<Found, Refusal> {
    survey(pool, table).ok_or(Refusal::Unsound)
}

/// Direct pointers that each position still has to get, 16 places for every record, as pointer words have it.
type Owed = [u32];

fn survey(pool: &[u8], table: &[u32]) -> Option<Found> {
    let layout = header(pool, table)?;
    let (records, cells) = (layout.records_of(table), layout.cells_of(pool));
    let mut occupied = Occupied::none(layout.cells);
    let mut owed = vec![0; POSITIONS * layout.records];
    for (words, owed) in records.iter().zip(owed.chunks_exact_mut(POSITIONS)) {
        record(words, &layout, &mut occupied, owed)?;
    }
    holds(cells_fit(cells, &occupied))?;
    for n in 0..layout.tills {
        till(&table[layout.till_at(n)..layout.till_at(n + 1)], &layout, &mut owed)?;
        tails(layout.till_of(table, n), records, cells, layout.bytes)?;
    }
    holds(empty(&owed))?;
    Some(Found { layout, occupied })
}

fn holds(condition: bool) -> Option<()> {
    condition.then_some(())
}

/// Whether all words are zero: sixteen at a time, so that they are read abreast.
fn empty(words: &[u32]) -> bool {
    words.chunks(16).all(|some| some.iter().fold(0, |all, word| all | word) == 0)
}

fn header(pool: &[u8], table: &[u32]) -> Option<Layout> {
    let capacities = Capacities::of_table(table)?;
    let layout = Layout::new(capacities)?;
    holds(pool.len() == capacities.pool_bytes() && table.len() == layout.table_words())?;
    Some(layout)
}

/// Masks and zero words of one record; its cells become occupied, its counts owed.
fn record(words: &[u32], layout: &Layout, occupied: &mut Occupied, owed: &mut Owed) -> Option<()> {
    let [held, removed, blank] = *words.first_chunk::<RECORD_HEAD>()?;
    holds(held & removed == 0 && blank & (held | removed) == 0)?;
    holds((held | removed | blank) >> layout.positions == 0)?;
    holds(held != 0 || removed | blank == 0)?;
    let (cells, counts) = Record::places(words);
    for (i, (&cell, &count)) in cells.iter().zip(counts).enumerate() {
        if held >> i & 1 == 0 {
            holds(cell == 0 && count == 0)?;
            continue;
        }
        let cell = cell as usize;
        holds(cell < layout.cells && !occupied.has(cell) && count > 0)?;
        occupied.set(cell);
        owed[i] = count;
    }
    Some(())
}

/// Whether the cells with a byte other than zero are the occupied ones.
fn cells_fit(cells: Blocks, occupied: &Occupied) -> bool {
    cells.groups(64).enumerate().all(|(n, some)| {
        let bits = some.iter().enumerate().fold(0, |bits, (i, cell)| bits | (!is_null(cell) as u64) << i);
        bits == occupied.word(n)
    })
}

/// Numbers, which rise up to the last given, rights, lengths, pointers and zero words of one till.
fn till(words: &[u32], layout: &Layout, owed: &mut Owed) -> Option<()> {
    let (head, slots) = words.split_first_chunk::<TILL_HEAD>()?;
    let [last, held, rights, 0] = *head else { return None };
    holds(last <= LAST_NUMBER && held as usize <= layout.versions && is_word_of_rights(rights))?;
    let (used, unused) = slots.split_at(held as usize * layout.slot_words());
    holds(empty(unused))?;
    let (mut above, mut newer): (u32, &[u32]) = (last + 1, &[]);
    for slot in used.chunks_exact(layout.slot_words()).rev() {
        holds((1..above).contains(&slot[0]))?;
        newer = version(slot, newer, owed, layout.bytes)?;
        above = slot[0];
    }
    Some(())
}

/// One version against the pointers of the next newer one; its own pointers if it is sound.
fn version<'a>(slot: &'a [u32], newer: &[u32], owed: &mut Owed, bytes: usize) -> Option<&'a [u32]> {
    let (head, words) = slot.split_first_chunk::<SLOT_HEAD>()?;
    // Any day is sound.
    let [_, length, _] = *head;
    let blocks = (length as usize).div_ceil(bytes);
    holds((1..=words.len()).contains(&blocks))?;
    let (pointers, unused) = words.split_at(blocks);
    holds(empty(unused))?;
    for &word in pointers {
        match Pointer::read(word)? {
            Pointer::Null | Pointer::Blank => {}
            Pointer::Direct(place) => {
                let count = owed.get_mut(POSITIONS * place.record + place.position)?;
                *count = count.checked_sub(1)?;
            }
            Pointer::Indirect(block) => holds(*newer.get(block)? != 0)?,
        }
    }
    Some(pointers)
}

/// Each version's last block, as traced, is zero after the version's length.
fn tails(till: TillWords, records: Records, cells: Blocks, bytes: usize) -> Option<()> {
    for slot in 0..till.held() {
        let length = till.length(slot);
        if !length.is_multiple_of(bytes) {
            match trace(till, slot, length / bytes).0 {
                End::Null => {}
                End::Blank => return None,
                End::Held(at) => {
                    let cell = &cells[Record::cell(&records[at.record], at.position)];
                    holds(cell[length % bytes..].iter().all(|&byte| byte == 0))?;
                }
            }
        }
    }
    Some(())
}

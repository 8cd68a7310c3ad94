//! The store once more in plain Rust, on the same two buffers: written from the page and docs/FORMAT.md alone, so that
//! the proved store has something to be compared with and raced against. Nothing here is proved.

mod bare;
mod bill;
mod chain;
mod closing;
mod dated;
mod era;
mod layout;
mod line;
mod place;
mod rows;
mod runs;
mod sent;
mod sha1;
mod sound;
mod stream;
mod sweep;
mod take_over;
mod trace;
mod turn;
mod users;

pub use bare::{earlier, Twin};
pub use bill::bill;
pub use closing::backup_all;
pub use dated::{backup_dated, version_on};
pub use era::Era;
use layout::{Layout, Place, Pointer, Record, HEADER, SLOT_HEAD, TILL_HEAD};
pub use line::take_turn;
use rows::Rows;
pub use sent::{backup_sent, offer};
pub use sha1::{fingerprint_of, sha1};
use sound::Found;
pub use stream::{read_stream, stream_of, write_stream};
use terms::{Capacities, Listing, Refusal, Restored, Right, Tally, LAST_NUMBER, OWNER};
use trace::End;
pub use users::set_rights;
use users::{owned, By};

/// Words of the table that these capacities need.
pub fn table_length(capacities: Capacities) -> Result<usize, Refusal> {
    Layout::new(capacities).map(|layout| layout.table_words()).ok_or(Refusal::Capacity)
}

/// Makes an empty store.
pub fn lay_out(pool: &mut [u8], table: &mut [u32], capacities: Capacities) -> Result<(), Refusal> {
    let words = table_length(capacities)?;
    if pool.len() != capacities.pool_bytes() || table.len() != words {
        return Err(Refusal::Lengths);
    }
    pool.fill(0);
    table.fill(0);
    table[..HEADER].copy_from_slice(&capacities.header());
    Ok(())
}

/// Whether pool and table are a sound store.
pub fn is_sound(pool: &[u8], table: &[u32]) -> bool {
    sound::check(pool, table).is_ok()
}

/// Oldest and newest held number of a till, and the last given.
pub fn listing(pool: &[u8], table: &[u32], user: u32, till: u32) -> Result<Listing, Refusal> {
    listing_in(&sound::check(pool, table)?.layout, table, By { user, till })
}

/// The same in a store that was found sound, as all that are named so.
fn listing_in(layout: &Layout, table: &[u32], by: By) -> Result<Listing, Refusal> {
    let till = layout.till_of(table, by.with(Right::List, layout, table)?);
    let [oldest, newest] = [till.numbers().next(), till.numbers().last()].map(|number| number.unwrap_or(0));
    Ok(Listing { oldest, newest, last: till.last() })
}

/// Occupied cells, records in use, sum of all counts; for the owner.
pub fn tally(pool: &[u8], table: &[u32], user: u32) -> Result<Tally, Refusal> {
    tally_in(&sound::check(pool, table)?.layout, table, user)
}

fn tally_in(layout: &Layout, table: &[u32], user: u32) -> Result<Tally, Refusal> {
    owned(user)?;
    Ok(layout.records_of(table).iter().fold(Tally::default(), |sum, words| Tally {
        cells: sum.cells + words[0].count_ones(),
        records: sum.records + (words[0] != 0) as u32,
        counts: sum.counts + Record::places(words).1.iter().sum::<u32>(),
    }))
}

/// Files an image as a till's next version and answers its number.
pub fn backup(pool: &mut [u8], table: &mut [u32], user: u32, till: u32, image: &[u8]) -> Result<u32, Refusal> {
    backup_in(&mut sound::check(pool, table)?, pool, table, By { user, till }, New::now(image))
}

/// The same by the rule of an era, as the owner makes it: an earlier one had no users.
pub fn backup_by(era: Era, pool: &mut [u8], table: &mut [u32], till: u32, image: &[u8]) -> Result<u32, Refusal> {
    let by = By { user: OWNER, till };
    backup_in(&mut sound::check(pool, table)?, pool, table, by, New { era, ..New::now(image) })
}

/// An image that is to be filed.
struct New<'a> {
    era: Era,
    /// None takes the day of the till's newest held version, or 0 if none is held.
    day: Option<u32>,
    image: &'a [u8],
}

impl New<'_> {
    /// By the rule of now, without a day.
    fn now(image: &[u8]) -> New<'_> {
        New { era: Era::WithBlanks, day: None, image }
    }
}

/// A backup in a store that was found sound. What was found then goes for the store that is left.
fn backup_in(found: &mut Found, pool: &mut [u8], table: &mut [u32], by: By, new: New) -> Result<u32, Refusal> {
    let till = by.with(Right::BackUp, &found.layout, table)?;
    if new.image.is_empty() || new.image.len() > found.layout.bytes * found.layout.blocks {
        return Err(Refusal::ImageLength);
    }
    room_in(&found.layout, table, till)?;
    file(found, pool, table, till, new)
}

/// Whether a till can take one more version.
fn room_in(layout: &Layout, table: &[u32], till: usize) -> Result<(), Refusal> {
    let till = layout.till_of(table, till);
    if till.held() == layout.versions {
        return Err(Refusal::TillFull);
    }
    if till.last() == LAST_NUMBER {
        return Err(Refusal::NumbersSpent);
    }
    Ok(())
}

/// Files an image that has a length, for a till that has room.
fn file(
    Found { layout, occupied }: &mut Found,
    pool: &mut [u8],
    table: &mut [u32],
    till: usize,
    New { era, day, image }: New,
) -> Result<u32, Refusal> {
    let old = layout.till_of(table, till);
    let (last, held, newest_day) = (old.last(), old.held(), old.newest_day());
    let day = day.unwrap_or(newest_day);
    if day < newest_day {
        return Err(Refusal::EarlierDay);
    }
    let mut cells = layout.cells_of_mut(pool);
    let (words, mut records) = layout.parts(table);
    let bytes = place::fill_up(image, layout);
    let segments = place::segments(&bytes, layout);
    let before = occupied.clone();
    let plan = place::plan(&segments, era, cells.read(), records.read(), occupied);
    // A refusal leaves the cells free that were planned before it.
    let plan = plan.inspect_err(|_| *occupied = before)?;
    let pointers = plan.carry_out(layout, &segments, &mut cells, &mut records);

    let blocks = image.len().div_ceil(layout.bytes);
    let (before, slot) = words[layout.till_at(till) + TILL_HEAD..].split_at_mut(held * layout.slot_words());
    if let Some(previous) = before.chunks_exact_mut(layout.slot_words()).last() {
        let used = (previous[1] as usize).div_ceil(layout.bytes);
        let image = Rows::new(&bytes[..blocks * layout.bytes], layout.bytes);
        let let_go = turn::turn(&mut previous[SLOT_HEAD..][..used], era, image, cells.read(), records.read());
        sweep::let_go(let_go, &mut cells, &mut records, occupied, layout.percent);
    }
    slot[..SLOT_HEAD].copy_from_slice(&[last + 1, image.len() as u32, day]);
    slot[SLOT_HEAD..][..blocks].copy_from_slice(&pointers[..blocks]);
    words[layout.till_at(till)..][..2].copy_from_slice(&[last + 1, held as u32 + 1]);
    Ok(last + 1)
}

/// Writes a held version's image to the output.
pub fn restore(
    pool: &[u8],
    table: &[u32],
    user: u32,
    till: u32,
    version: u32,
    output: &mut [u8],
) -> Result<Restored, Refusal> {
    restore_in(&sound::check(pool, table)?.layout, pool, table, By { user, till }, version, output)
}

fn restore_in(
    layout: &Layout,
    pool: &[u8],
    table: &[u32],
    by: By,
    version: u32,
    output: &mut [u8],
) -> Result<Restored, Refusal> {
    let till = layout.till_of(table, by.with(Right::Restore, layout, table)?);
    let slot = till.slot_with(version)?;
    let length = till.length(slot);
    let output = output.get_mut(..length).ok_or(Refusal::ShortOutput)?;
    let (cells, records) = (layout.cells_of(pool), layout.records_of(table));
    let mut longest = 0;
    for (n, part) in output.chunks_mut(layout.bytes).enumerate() {
        let (end, hops) = trace::trace(till, slot, n);
        match end {
            End::Held(at) => part.copy_from_slice(&cells[Record::cell(&records[at.record], at.position)][..part.len()]),
            End::Blank => part.fill(255),
            End::Null => part.fill(0),
        }
        longest = longest.max(hops);
    }
    Ok(Restored { length: length as u32, hops: longest })
}

/// Takes a held version away and answers its length.
pub fn retire(pool: &mut [u8], table: &mut [u32], user: u32, till: u32, version: u32) -> Result<u32, Refusal> {
    retire_in(sound::check(pool, table)?, pool, table, By { user, till }, version)
}

fn retire_in(found: Found, pool: &mut [u8], table: &mut [u32], by: By, version: u32) -> Result<u32, Refusal> {
    let Found { layout, mut occupied } = found;
    let till = by.with(Right::Retire, &layout, table)?;
    let before = layout.till_of(table, till);
    let slot = before.slot_with(version)?;
    let (length, held) = (before.length(slot), before.held());
    let (words, mut records) = layout.parts(table);
    let till = &mut words[layout.till_at(till)..];
    let slots = &mut till[TILL_HEAD..][..held * layout.slot_words()];
    let (older, from) = slots.split_at_mut(slot * layout.slot_words());
    let retired = &from[SLOT_HEAD..][..length.div_ceil(layout.bytes)];
    if let Some(neighbour) = older.chunks_exact_mut(layout.slot_words()).last() {
        let used = (neighbour[1] as usize).div_ceil(layout.bytes);
        take_over::take_over(&mut neighbour[SLOT_HEAD..][..used], retired, &mut records);
    }
    let let_go: Vec<Place> = retired.iter().filter_map(|&word| direct(word)).collect();
    sweep::let_go(let_go, &mut layout.cells_of_mut(pool), &mut records, &mut occupied, layout.percent);

    from.copy_within(layout.slot_words().., 0);
    let end = from.len() - layout.slot_words();
    from[end..].fill(0);
    till[1] -= 1;
    Ok(length as u32)
}

fn direct(word: u32) -> Option<Place> {
    match Pointer::read(word) {
        Some(Pointer::Direct(place)) => Some(place),
        _ => None,
    }
}

//! Versions by their day.

use crate::layout::Layout;
use crate::users::By;
use crate::{backup_in, sound, New};
use terms::{Refusal, Right};

/// Files an image with its day as a till's next version and answers its number.
pub fn backup_dated(
    pool: &mut [u8],
    table: &mut [u32],
    user: u32,
    till: u32,
    day: u32,
    image: &[u8],
) -> Result<u32, Refusal> {
    backup_in(
        &mut sound::check(pool, table)?,
        pool,
        table,
        By { user, till },
        New { day: Some(day), ..New::now(image) },
    )
}

/// The newest held version of a till that is not after a day. Days need not rise in a sound store, so that all are
/// looked at, the newest first.
pub fn version_on(pool: &[u8], table: &[u32], user: u32, till: u32, day: u32) -> Result<u32, Refusal> {
    version_on_in(&sound::check(pool, table)?.layout, table, By { user, till }, day)
}

pub fn version_on_in(layout: &Layout, table: &[u32], by: By, day: u32) -> Result<u32, Refusal> {
    let till = layout.till_of(table, by.with(Right::List, layout, table)?);
    let slot = (0..till.held()).rev().find(|&slot| till.day(slot) <= day);
    slot.map(|slot| till.number(slot)).ok_or(Refusal::NoneSoEarly)
}

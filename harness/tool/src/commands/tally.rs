//! `tally`: the space in use.

use super::capacities::{self, measures_in_words};
use crate::arguments::Arguments;
use crate::disk::Disk;
use crate::json::Json;
use crate::reply::Reply;
use crate::store::Store;
use crate::syntax::{Command, FILE, USER, WITH};
use crate::words::bytes;
use crate::{advice, table, Failure};
use lurdempos::{Tally, OWNER};
use std::path::Path;

pub static COMMAND: Command = Command {
    name: "tally",
    arguments: &[FILE],
    options: &[WITH, USER],
    about: "show the space in use",
    help: "
Occupied cells and records in use, each of how many there are; the sum of all counts, which is how many
blocks of all versions point straight to a cell; and the versions held, with what they take as whole
images and in cells. A store with other settings than 64, 8 and 20 has them in a last line: bytes of a block,
blocks of a segment, and the rebuild percentage; --json always has them. The tally is the owner's: other users
are refused.
",
    run,
};

fn run(arguments: &Arguments) -> Result<Reply, Failure> {
    let disk = Disk::asked(arguments)?;
    let (file, store) = (disk.file, disk.read()?);
    let tally = asked(file, &store, arguments.user()?)?;
    Ok(Reply::text(text(&store, tally), fields(file, &store, tally)))
}

/// The store's own tally, for whoever needs it within a run.
pub fn of(file: &Path, store: &Store) -> Result<Tally, Failure> {
    asked(file, store, OWNER)
}

/// The tally that a user asks for.
pub fn asked(file: &Path, store: &Store, user: u32) -> Result<Tally, Failure> {
    store.tally(user).map_err(|refusal| advice::of_the_owner(refusal, file, user))
}

/// How many versions are held, and their bytes as whole images.
fn whole(store: &Store) -> (usize, usize) {
    let versions = table::tills(store).into_iter().flatten();
    versions.fold((0, 0), |(held, bytes), version| (held + 1, bytes + version.bytes as usize))
}

fn text(store: &Store, Tally { cells, records, counts }: Tally) -> String {
    let (capacities, (held, whole)) = (store.capacities(), whole(store));
    let (whole, kept) = (bytes(whole), bytes(capacities.block_bytes as usize * cells as usize));
    let settings = measures_in_words(capacities).map(|words| format!("settings          {words}\n"));
    format!(
        "cells     {cells:>7} of {} occupied\n\
         records   {records:>7} of {} in use\n\
         counts    {counts:>7} in sum\n\
         versions  {held:>7} held: {whole} as whole images, {kept} in cells\n{}",
        capacities.cells,
        capacities.records,
        settings.unwrap_or_default()
    )
}

fn fields(file: &Path, store: &Store, Tally { cells, records, counts }: Tally) -> Json {
    let (held, whole) = whole(store);
    Json::object([
        ("file", file.into()),
        ("cells", cells.into()),
        ("records", records.into()),
        ("counts", counts.into()),
        ("versions", held.into()),
        ("bytes", whole.into()),
        ("capacities", capacities::fields(store.capacities())),
    ])
}

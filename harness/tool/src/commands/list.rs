//! `list`: the versions held.

use super::capacities;
use crate::advice::{By, Call};
use crate::arguments::Arguments;
use crate::disk::Disk;
use crate::json::Json;
use crate::reply::Reply;
use crate::store::Store;
use crate::syntax::{Argument, Command, Takes, FILE, USER, WITH};
use crate::table::{self, Version};
use crate::{calendar, numbers, Failure};
use lurdempos::{Listing, Refusal, Right};
use std::path::Path;

pub static COMMAND: Command = Command {
    name: "list",
    arguments: &[FILE, Argument::optional("TILL", Takes::Anything)],
    options: &[WITH, USER],
    about: "show the versions held",
    help: "
Of all tills, or of one. For each version, the oldest first: its number and bytes; the longest chain,
which is the most versions that a restore goes through for a block; and how many of its blocks lie in
the pool for it (direct), are borrowed from the next newer version held (indirect), are all zero (null),
or all 255 (blank). Numbers of versions that were retired are left out; they are not given again.

If a version of the till has a day, the last column shows it, with its date if that is in the years 2000 to
2099, and - for versions without one.

Another user than the owner needs the right list; without TILL those tills are shown on which the user has it.
",
    run,
};

/// A till with what the store lists for it.
struct Till {
    number: u32,
    listing: Listing,
    versions: Vec<Version>,
}

fn run(arguments: &Arguments) -> Result<Reply, Failure> {
    let (disk, user) = (Disk::asked(arguments)?, arguments.user()?);
    let file = disk.file;
    let asked = arguments.word(1).map(|_| arguments.number(1)).transpose()?;
    let store = disk.read()?;
    let tills = tills(file, &store, user, asked)?;
    let fields = Json::object([
        ("file", file.into()),
        ("tills", Json::list(&tills, fields)),
        ("capacities", capacities::fields(store.capacities())),
    ]);
    Ok(Reply::text(text(&tills), fields))
}

/// The till that is asked for, or all on which the user has the right; that of the first is told if there are none.
fn tills(file: &Path, store: &Store, user: u32, asked: Option<u32>) -> Result<Vec<Till>, Failure> {
    let refused = |till, refusal| Call::of_till(file, store, By { user, till }, Right::List).refused(refusal);
    let listing = |till| store.listing(user, till).map_err(|refusal| refused(till, refusal));
    if let Some(till) = asked {
        listing(till)?;
    }
    let is_asked = |till: u32| asked.is_none_or(|one| one == till);
    let may = |till: u32| store.listing(user, till) != Err(Refusal::NoRight);
    let mut tills = Vec::new();
    for (number, versions) in (0..).zip(table::tills(store)).filter(|(till, _)| is_asked(*till) && may(*till)) {
        tills.push(Till { number, listing: listing(number)?, versions });
    }
    match tills[..] {
        [] => Err(refused(0, Refusal::NoRight)),
        _ => Ok(tills),
    }
}

fn text(tills: &[Till]) -> String {
    let mut text = String::new();
    for Till { number, listing: Listing { oldest, newest, last }, versions } in tills {
        let held = numbers::shown(&versions.iter().map(|version| version.number).collect::<Vec<u32>>());
        match (oldest, last) {
            (0, 0) => text.push_str(&format!("till {number}: nothing yet\n")),
            (0, _) => text.push_str(&format!("till {number}: no version held, the last was {last}\n")),
            _ if newest == last => text.push_str(&format!("till {number}: {held}\n")),
            _ => text.push_str(&format!("till {number}: {held}; the last was {last}\n")),
        }
        let has_days = versions.iter().any(|version| version.day != 0);
        if !versions.is_empty() {
            let day = if has_days { "  day" } else { "" };
            text.push_str(&format!("  version   bytes  longest chain  direct  indirect  null  blank{day}\n"));
        }
        for version in versions {
            text.push_str(&line(version, has_days));
        }
    }
    text
}

fn line(version: &Version, has_days: bool) -> String {
    let Version { number, bytes, direct, indirect, null, blank, .. } = version;
    let (chain, day) = (version.chain(), if has_days { format!("  {}", day(version.day)) } else { String::new() });
    format!("  {number:>7}  {bytes:>6}  {chain:>13}  {direct:>6}  {indirect:>8}  {null:>4}  {blank:>5}{day}\n")
}

/// A day in its column. Day 0 is that of versions without one.
fn day(day: u32) -> String {
    match (day, calendar::date(day)) {
        (0, _) => "-".into(),
        (day, Some(date)) => format!("{day} ({date})"),
        (day, None) => day.to_string(),
    }
}

fn fields(till: &Till) -> Json {
    let Listing { oldest, newest, last } = till.listing;
    Json::object([
        ("till", till.number.into()),
        ("oldest", oldest.into()),
        ("newest", newest.into()),
        ("last", last.into()),
        ("versions", Json::list(&till.versions, version_fields)),
    ])
}

fn version_fields(version: &Version) -> Json {
    Json::object([
        ("version", version.number.into()),
        ("day", version.day.into()),
        ("date", calendar::field(version.day)),
        ("bytes", version.bytes.into()),
        ("chain", version.chain().into()),
        ("direct", version.direct.into()),
        ("indirect", version.indirect.into()),
        ("null", version.null.into()),
        ("blank", version.blank.into()),
    ])
}

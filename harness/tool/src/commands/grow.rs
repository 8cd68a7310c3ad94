//! `grow`: a store carried into a larger one.

use super::capacities::{self, any_asked, asked, described, empty_store, possible};
use super::tally;
use crate::advice::{self, By, Call};
use crate::arguments::{Arguments, Named};
use crate::json::Json;
use crate::names::shown;
use crate::patience::Patience;
use crate::reply::Reply;
use crate::store::Store;
use crate::syntax::{Argument, Command, Opt, Takes, USER};
use crate::table::{self, Layout};
use crate::words::counted;
use crate::{storefile, Failure};
use lurdempos::{Capacities, Right, Rights, OWNER, USERS};
use std::path::Path;

pub static COMMAND: Command = Command {
    name: "grow",
    arguments: &[Argument::needed("OLD", Takes::File), Argument::needed("NEW", Takes::File)],
    options: &OPTIONS,
    about: "carry a store into a new, larger one",
    help: "
Every version of OLD is backed up into NEW under its own number, the oldest first, with its day, and compared
at the end. OLD is not altered; NEW must not exist yet, and gets the group and permissions of OLD. A capacity
or setting that no option gives is OLD's; without any option the records and the cells are doubled, as far as a
store can have them. What each user may do on each till is carried too. This is for the owner.
",
    run,
};

/// The capacities, and who makes the calls.
static OPTIONS: [Opt; 11] = {
    let [a, b, c, d, e, f, g, h, i, wait] = capacities::OPTIONS;
    [a, b, c, d, e, f, g, h, i, USER, wait]
};

fn run(arguments: &Arguments) -> Result<Reply, Failure> {
    let (old_path, new_path, user) = (arguments.store()?, arguments.place(1)?, arguments.user()?);
    let patience = Patience::asked(arguments)?;
    let opened = storefile::open(old_path)?;
    let old = &opened.store;
    // Whoever carries the whole store is the owner, as whoever has its tally.
    tally::asked(old_path, old, user)?;
    storefile::refuse_existing(new_path)?;
    let capacities = larger(arguments, old.capacities())?;
    let mut new = empty_store(arguments, capacities)?;
    let order = order(old);
    for &(till, version) in &order {
        new = numbered(new_path, new, till, version)?;
        let (_, image) =
            Call::of_till(old_path, old, By { user, till }, Right::Restore).image_of(Named::Number(version))?;
        if let Err(refusal) = new.backup(user, till, &image) {
            return Err(Call {
                version,
                image: &image,
                ..Call::of_till(old_path, &new, By { user, till }, Right::BackUp)
            }
            .refused(refusal));
        }
    }
    new = dated(new_path, old, last_numbers(new_path, old, new)?)?;
    entitled(new_path, old, &mut new, user)?;
    compared(old, &new, &order)?;
    storefile::create(new_path, new, &patience, Some(opened.attributes()))?;
    let versions = counted(order.len() as u64, "version");
    let text = format!("{}: {versions} of {}, {}\n", shown(new_path), shown(old_path), described(capacities));
    let fields = Json::object([
        ("old", old_path.into()),
        ("new", new_path.into()),
        ("versions", order.len().into()),
        ("capacities", capacities::fields(capacities)),
    ]);
    Ok(Reply::done(text, fields))
}

/// The capacities of the new store. None may be smaller than the old one's, but the settings may be any.
fn larger(arguments: &Arguments, old: Capacities) -> Result<Capacities, Failure> {
    let new = if any_asked(arguments) { asked(arguments, old)? } else { doubled(old) };
    let names = ["tills", "versions", "bytes of an image", "records", "cells"];
    // Blocks may be of two sizes, so that images are compared in bytes.
    let image = |of: Capacities| of.blocks.saturating_mul(possible(of.block_bytes));
    let sizes = |of: Capacities| [of.tills, of.versions, image(of), of.records, of.cells];
    let pairs = sizes(old).into_iter().zip(sizes(new));
    match names.into_iter().zip(pairs).find(|(_, (old, new))| new < old) {
        Some((name, (old, new))) => Err(arguments.wrong(&format!("NEW would have {new} {name}, OLD has {old}"))),
        None => Ok(new),
    }
}

/// Twice the records and cells, as far as a store can have them.
fn doubled(old: Capacities) -> Capacities {
    let most = Capacities::LARGEST;
    Capacities { records: most.records.min(2 * old.records), cells: most.cells.min(2 * old.cells), ..old }
}

/// Tills and versions in the order in which they are backed up: those with as many newer ones of their till together,
/// the oldest first, so that tills share what they share now.
fn order(old: &Store) -> Vec<(u32, u32)> {
    let tills = table::tills(old);
    let most = tills.iter().map(Vec::len).max().unwrap_or(0);
    let mut order = Vec::new();
    for newer in (0..most).rev() {
        for (till, versions) in (0..).zip(&tills) {
            if let Some(at) = versions.len().checked_sub(newer + 1) {
                order.push((till, versions[at].number));
            }
        }
    }
    order
}

/// The store with the till's last number set so that its next version gets this one.
fn numbered(path: &Path, store: Store, till: u32, version: u32) -> Result<Store, Failure> {
    let last = store.listing(OWNER, till).map(|listing| listing.last).unwrap_or_default();
    if last + 1 == version {
        return Ok(store);
    }
    with_last(path, store, till, version - 1)
}

/// The last numbers of tills whose newest versions are gone.
fn last_numbers(path: &Path, old: &Store, mut new: Store) -> Result<Store, Failure> {
    for till in 0..old.capacities().tills {
        let [before, now] = [old, &new].map(|store| store.listing(OWNER, till).map_or(0, |listing| listing.last));
        if before != now {
            new = with_last(path, new, till, before)?;
        }
    }
    Ok(new)
}

/// The store with another last number of a till. The store itself judges whether that is sound.
fn with_last(path: &Path, store: Store, till: u32, last: u32) -> Result<Store, Failure> {
    let at = Layout { capacities: store.capacities() }.till(till as usize);
    let (pool, mut table) = store.into_parts();
    table[at] = last;
    Store::from_parts(pool, table).map_err(|refusal| advice::unsound(refusal, path))
}

/// The store with the old one's days, of the same versions. They are set as they are: those of a sound store may fall
/// from an older version to a newer one, and those of backups may not. The store itself judges the result.
fn dated(path: &Path, old: &Store, new: Store) -> Result<Store, Failure> {
    let (before, now) = (Layout { capacities: old.capacities() }, Layout { capacities: new.capacities() });
    let (pool, mut table) = new.into_parts();
    for till in 0..old.capacities().tills {
        for slot in 0..table::held(old, till) as usize {
            table[now.day(till as usize, slot)] = old.table()[before.day(till as usize, slot)];
        }
    }
    Store::from_parts(pool, table).map_err(|refusal| advice::unsound(refusal, path))
}

/// Gives every user of the new store the rights of the old one.
fn entitled(path: &Path, old: &Store, new: &mut Store, user: u32) -> Result<(), Failure> {
    for (till, subject) in users(old).filter(|&(till, subject)| table::rights(old, till, subject) != Rights::NONE) {
        let given = new.set_rights(user, subject, till, table::rights(old, till, subject));
        given.map_err(|refusal| advice::of_the_owner(refusal, path, user))?;
    }
    Ok(())
}

/// Every till with every user but the owner.
fn users(store: &Store) -> impl Iterator<Item = (u32, u32)> {
    (0..store.capacities().tills).flat_map(|till| (1..USERS).map(move |user| (till, user)))
}

/// Both have the same numbers, and under each the same bytes and day; and the same rights.
fn compared(old: &Store, new: &Store, order: &[(u32, u32)]) -> Result<(), Failure> {
    let tills = 0..old.capacities().tills;
    let day = |store: &Store, till, version| table::day(store, till, version);
    let same = tills.into_iter().all(|till| old.listing(OWNER, till) == new.listing(OWNER, till))
        && order.iter().all(|&(till, version)| old.image(OWNER, till, version) == new.image(OWNER, till, version))
        && order.iter().all(|&(till, version)| day(old, till, version) == day(new, till, version))
        && users(old).all(|(till, user)| table::rights(old, till, user) == table::rights(new, till, user));
    if same {
        return Ok(());
    }
    Err(Failure::file("the new store would not have the same versions, and was not written").advising("report it."))
}

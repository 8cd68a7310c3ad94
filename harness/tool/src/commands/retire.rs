//! `retire`: a version goes, or a till's oldest ones.

use super::dry_run::{tried, Cells};
use crate::advice::{By, Call};
use crate::arguments::Arguments;
use crate::disk::Disk;
use crate::json::Json;
use crate::patience::Patience;
use crate::reply::Reply;
use crate::store::Store;
use crate::storefile::Change;
use crate::syntax::{Argument, Command, Opt, Takes, DRY_RUN, FILE, TILL, USER, WAIT, WITH};
use crate::words::bytes;
use crate::{image, numbers, table, Failure};
use lurdempos::Right;
use std::path::Path;

pub static COMMAND: Command = Command {
    name: "retire",
    arguments: &[FILE, TILL, Argument::optional("VERSION", Takes::Anything)],
    options: &[
        Opt::with("--keep", "N", "in VERSION's place: retire the oldest versions until N are left, in one write"),
        DRY_RUN,
        WITH,
        USER,
        WAIT,
    ],
    about: "take a version away",
    help: "
VERSION is the number of any version that the till holds, also of its newest. The others keep their numbers
and images; the number that is gone is not given again. The reply tells the bytes of the image that is gone.
Another user than the owner needs the right retire on the till, and with --keep also list. No limit on the
cells of a disk refuses it, so that there is no --limit here.
",
    run,
};

/// Which versions are to go.
#[derive(Clone, Copy)]
enum Which {
    Version(u32),
    /// The oldest, until so many are left.
    AllBut(u32),
}

/// Versions that went, the oldest first, each with its bytes.
type Retired = Vec<(u32, u32)>;

fn run(arguments: &Arguments) -> Result<Reply, Failure> {
    let disk = Disk::asked(arguments)?;
    let file = disk.file;
    let by = By { user: arguments.user()?, till: arguments.number(1)? };
    let which = which(arguments)?;
    let patience = Patience::asked(arguments)?;
    let targets = disk.targets()?;
    if arguments.has("--dry-run") {
        let (retired, cells) = tried(&disk, by.user, |store| retire(file, store, by, which))?;
        return Ok(reply(file, by.till, &retired, Some(&cells)));
    }
    let mut change = Change::begin(&disk, &targets, &patience)?;
    let retired = retire(file, &mut change.store, by, which)?;
    if !retired.is_empty() {
        change.finish()?;
    }
    Ok(reply(file, by.till, &retired, None))
}

fn which(arguments: &Arguments) -> Result<Which, Failure> {
    match (arguments.word(2), arguments.option_number("--keep")?) {
        (Some(_), None) => arguments.number(2).map(Which::Version),
        (None, Some(keep)) => Ok(Which::AllBut(keep)),
        (Some(_), Some(_)) => Err(arguments.wrong("VERSION and --keep both say what goes; give one of them")),
        (None, None) => Err(arguments.missing("VERSION")),
    }
}

fn retire(file: &Path, store: &mut Store, by: By, which: Which) -> Result<Retired, Failure> {
    let mut retired = Vec::new();
    while let Some(version) = next(file, store, by, which, retired.len())? {
        let call = |store| Call { version, ..Call::of_till(file, store, by, Right::Retire) };
        let length = store.retire(by.user, by.till, version).map_err(|refusal| call(store).refused(refusal))?;
        retired.push((version, length));
    }
    Ok(retired)
}

/// The version that goes next, if one does.
fn next(file: &Path, store: &Store, by: By, which: Which, gone: usize) -> Result<Option<u32>, Failure> {
    match which {
        Which::Version(version) => Ok(Some(version).filter(|_| gone == 0)),
        Which::AllBut(keep) => {
            let call = Call::of_till(file, store, by, Right::List);
            let listing = store.listing(by.user, by.till).map_err(|refusal| call.refused(refusal))?;
            let held = table::held(store, by.till);
            Ok(Some(listing.oldest).filter(|_| held > keep))
        }
    }
}

/// In words and for programs; with cells if it was only tried.
fn reply(file: &Path, till: u32, retired: &Retired, cells: Option<&Cells>) -> Reply {
    let would = if cells.is_some() { "would be " } else { "" };
    let room = cells.map_or(String::new(), |cells| format!("; {cells}"));
    let sum = bytes(retired.iter().map(|(_, length)| *length as usize).sum());
    let text = match retired[..] {
        [] => format!("till {till}: no version {would}retired{room}\n"),
        _ => {
            let gone = numbers::shown(&retired.iter().map(|(version, _)| *version).collect::<Vec<u32>>());
            format!("till {till}: {gone} {would}retired, {sum}{room}\n")
        }
    };
    let one = |&(version, length): &(u32, u32)| image::fields(version, length as usize);
    let fields = Json::object([
        ("file", file.into()),
        ("till", till.into()),
        ("retired", Json::list(retired, one)),
        ("dry_run", cells.is_some().into()),
        ("cells", cells.map_or(Json::Null, Cells::fields)),
    ]);
    Reply::done(text, fields)
}

//! `backup`: the next version of a till.

use super::dry_run::{tried, Cells};
use crate::advice::{By, Call};
use crate::arguments::Arguments;
use crate::disk::Disk;
use crate::json::Json;
use crate::patience::Patience;
use crate::reply::Reply;
use crate::store::Store;
use crate::storefile::Change;
use crate::syntax::{Argument, Command, Opt, Takes, DAY, DRY_RUN, FILE, LIMIT, TILL, USER, WAIT, WITH};
use crate::words::bytes;
use crate::{calendar, image, table, Failure};
use lurdempos::{Refusal, Right, LONGEST_IMAGE};
use std::path::Path;

pub static COMMAND: Command = Command {
    name: "backup",
    arguments: &[FILE, TILL, Argument::needed("IMAGE", Takes::File)],
    options: &OPTIONS,
    about: "keep an image as the till's next version",
    help: "
TILL is the till's number, from 0. IMAGE is a file with the till's memory, or - for standard input.
The reply tells the number of the new version.

A version has a day, by which `restore --day` finds it. D is a number up to 4294967295, or a date as
2026-03-31: the days since 1970-01-01. It must not be before the day of the till's newest version. Without
--day the version takes that one's day, or 0, which is no day, if the till holds none.

With other stores on the disk of FILE, --with names each of them, and --limit says how many cells all may occupy
in the end; an image that would take more is refused. FILE alone is changed, and `chain` shows what each has.

Another user than the owner needs the right backup on the till; with --rotate also list and retire, and with
--unless-same also list and restore.
",
    run,
};

/// The options of commands that keep an image.
pub(super) static OPTIONS: [Opt; 9] = [
    Opt::with(DAY.name, DAY.value, "the version's day, a number or a date; else that of the till's newest version"),
    Opt::flag("--rotate", "retire the till's oldest version first if the till is full, in the same write"),
    Opt::flag("--unless-same", "keep no new version if the till's newest has the same bytes"),
    Opt::with("--bytes", "N", "keep the image only if it has exactly N bytes"),
    DRY_RUN,
    WITH,
    LIMIT,
    USER,
    WAIT,
];

/// What became of an image.
struct Outcome {
    /// Its version, or the newest if that has the same bytes.
    version: u32,
    day: u32,
    kept: bool,
    /// The version that made room, with its bytes.
    retired: Option<(u32, u32)>,
}

/// A backup that is asked for.
struct Asked<'a> {
    file: &'a Path,
    by: By,
    day: Option<u32>,
    image: &'a [u8],
    rotate: bool,
    unless_same: bool,
}

fn run(arguments: &Arguments) -> Result<Reply, Failure> {
    keep(arguments, image::read)
}

/// Keeps the image that is read from the third argument.
pub(super) fn keep(
    arguments: &Arguments,
    read: impl FnOnce(&Path) -> Result<Vec<u8>, Failure>,
) -> Result<Reply, Failure> {
    let (disk, day) = (Disk::asked(arguments)?, arguments.day()?);
    let by = By { user: arguments.user()?, till: arguments.number(1)? };
    let patience = Patience::asked(arguments)?;
    let targets = disk.targets()?;
    // Before the lock is taken: standard input may come slowly.
    let image = read(arguments.path(2)?)?;
    refuse_length(arguments, &image)?;
    let (rotate, unless_same) = (arguments.has("--rotate"), arguments.has("--unless-same"));
    let asked = Asked { file: disk.file, by, day, image: &image, rotate, unless_same };
    if arguments.has("--dry-run") {
        let (outcome, cells) = tried(&disk, by.user, |store| asked.keep(store))?;
        return Ok(asked.reply(&outcome, Some(&cells)));
    }
    let mut change = Change::begin(&disk, &targets, &patience)?;
    let outcome = asked.keep(&mut change.store)?;
    if outcome.kept {
        change.finish()?;
    }
    Ok(asked.reply(&outcome, None))
}

impl Asked<'_> {
    fn keep(&self, store: &mut Store) -> Result<Outcome, Failure> {
        if let Some(version) = self.same_version(store)? {
            return Ok(self.outcome(store, version, false, None));
        }
        match self.file(store) {
            Ok(version) => Ok(self.outcome(store, version, true, None)),
            Err(Refusal::TillFull) if self.rotate => self.rotate(store),
            Err(refusal) => Err(self.refused(store, Right::BackUp, refusal)),
        }
    }

    fn file(&self, store: &mut Store) -> Result<u32, Refusal> {
        match self.day {
            Some(day) => store.backup_dated(self.by.user, self.by.till, day, self.image),
            None => store.backup(self.by.user, self.by.till, self.image),
        }
    }

    fn outcome(&self, store: &Store, version: u32, kept: bool, retired: Option<(u32, u32)>) -> Outcome {
        Outcome { version, day: table::day(store, self.by.till, version), kept, retired }
    }

    fn rotate(&self, store: &mut Store) -> Result<Outcome, Failure> {
        let By { user, till } = self.by;
        let listing = store.listing(user, till).map_err(|refusal| self.refused(store, Right::List, refusal))?;
        let oldest = listing.oldest;
        let length = store.retire(user, till, oldest).map_err(|refusal| self.refused(store, Right::Retire, refusal))?;
        let version = self.file(store).map_err(|refusal| self.refused(store, Right::BackUp, refusal))?;
        Ok(self.outcome(store, version, true, Some((oldest, length))))
    }

    /// The till's newest version, if it has the same bytes and that matters.
    fn same_version(&self, store: &Store) -> Result<Option<u32>, Failure> {
        let By { user, till } = self.by;
        if !self.unless_same {
            return Ok(None);
        }
        let listing = store.listing(user, till).map_err(|refusal| self.refused(store, Right::List, refusal))?;
        match store.image(user, till, listing.newest) {
            Ok(image) => Ok((image == self.image).then_some(listing.newest)),
            Err(Refusal::NeverGiven) => Ok(None),
            Err(refusal) => Err(self.refused(store, Right::Restore, refusal)),
        }
    }

    fn refused(&self, store: &Store, right: Right, refusal: Refusal) -> Failure {
        let day = self.day.unwrap_or(0);
        Call { day, image: self.image, ..Call::of_till(self.file, store, self.by, right) }.refused(refusal)
    }

    /// In words and for programs; with cells if it was only tried.
    fn reply(&self, outcome: &Outcome, cells: Option<&Cells>) -> Reply {
        let (till, version, day) = (self.by.till, outcome.version, calendar::beside(outcome.day));
        let would = if cells.is_some() { "would be " } else { "" };
        let room = cells.map_or(String::new(), |cells| format!("; {cells}"));
        let mut text = String::new();
        if let Some((version, length)) = outcome.retired {
            text.push_str(&format!("till {till}: version {version} {would}retired, {}\n", bytes(length as usize)));
        }
        text.push_str(&match outcome.kept {
            true => format!("till {till}: version {version}{day} {would}kept, {}{room}\n", bytes(self.image.len())),
            false => format!("till {till}: the same as version {version}{day}, nothing {would}kept{room}\n"),
        });
        let retired = outcome.retired.map(|(version, length)| image::fields(version, length as usize));
        let fields = Json::object([
            ("file", self.file.into()),
            ("till", till.into()),
            ("version", version.into()),
            ("day", outcome.day.into()),
            ("date", calendar::field(outcome.day)),
            ("bytes", self.image.len().into()),
            ("kept", outcome.kept.into()),
            ("retired", retired.unwrap_or(Json::Null)),
            ("dry_run", cells.is_some().into()),
            ("cells", cells.map_or(Json::Null, Cells::fields)),
        ]);
        Reply::done(text, fields)
    }
}

/// An image of another length than asked for was cut on its way, or is another file.
fn refuse_length(arguments: &Arguments, image: &[u8]) -> Result<(), Failure> {
    let path = arguments.path(2)?;
    match arguments.option_number("--bytes")? {
        // Of an image that no store takes hardly more was read than a store takes; the store refuses it.
        Some(asked) if asked.min(LONGEST_IMAGE + 1) as usize != image.len() => {
            let (path, length) = (image::name(path), image::length(image));
            let failure = Failure::file(format!("{path}: has {length}, --bytes asks for {asked}; it was not kept"));
            Err(failure.advising("see that the image came over whole, and is this till's."))
        }
        _ => Ok(()),
    }
}

//! `backup-sent`: the next version of a till that sends only what the store lacks.

use super::dry_run::{tried, Cells};
use crate::advice::{By, Call};
use crate::arguments::Arguments;
use crate::disk::Disk;
use crate::json::Json;
use crate::patience::Patience;
use crate::reply::Reply;
use crate::store::Store;
use crate::storefile::Change;
use crate::syntax::{Argument, Command, Takes, DRY_RUN, FILE, LIMIT, TILL, USER, WAIT, WITH};
use crate::words::bytes;
use crate::{advice, image, Failure};
use lurdempos::{Message, Refusal, Right, LONGEST_MESSAGE};
use std::path::Path;

pub static COMMAND: Command = Command {
    name: "backup-sent",
    arguments: &[FILE, TILL, Argument::needed("MESSAGE", Takes::File)],
    options: &[DRY_RUN, WITH, LIMIT, USER, WAIT],
    about: "keep what a till has sent as its next version",
    help: "
MESSAGE is a file with a till's second message, or - for standard input: the image's length in four bytes,
lowest first; the fingerprints of all its segments; a byte for each segment, 1 if it follows, else 0; and the
segments that follow, each in full. The others are taken from what the store has, and the image is kept as
`backup` keeps one without --day.

There is no --rotate: with a version that goes, segments may go that `offer` has marked. Make room with
`lurdempos retire` before the fingerprints are offered.
",
    run,
};

/// A message that is to be kept.
struct Asked<'a> {
    file: &'a Path,
    by: By,
    name: String,
    bytes: &'a [u8],
}

fn run(arguments: &Arguments) -> Result<Reply, Failure> {
    let disk = Disk::asked(arguments)?;
    let by = By { user: arguments.user()?, till: arguments.number(1)? };
    let patience = Patience::asked(arguments)?;
    let targets = disk.targets()?;
    // Before the lock is taken: standard input may come slowly.
    let path = arguments.path(2)?;
    let bytes = image::read_beginning(path, LONGEST_MESSAGE + 1)?;
    let asked = Asked { file: disk.file, by, name: image::name(path), bytes: &bytes };
    if arguments.has("--dry-run") {
        let (version, cells) = tried(&disk, by.user, |store| asked.keep(store))?;
        return Ok(version.reply(&asked, Some(&cells)));
    }
    let mut change = Change::begin(&disk, &targets, &patience)?;
    let version = asked.keep(&mut change.store)?;
    change.finish()?;
    Ok(version.reply(&asked, None))
}

/// What became of it.
struct Kept {
    version: u32,
    length: u32,
    segments: usize,
    sent: usize,
}

impl Asked<'_> {
    fn keep(&self, store: &mut Store) -> Result<Kept, Failure> {
        let message = Message::of_bytes(self.bytes, store.capacities().segment_bytes());
        let By { user, till } = self.by;
        let version =
            store.backup_sent(user, till, message).map_err(|refusal| self.refused(store, message, refusal))?;
        let sent = message.marks.iter().filter(|&&mark| mark == 1).count();
        Ok(Kept { version, length: message.length, segments: message.marks.len(), sent })
    }

    fn refused(&self, store: &Store, message: Message, refusal: Refusal) -> Failure {
        // In a store without any cell in use all that the image has was sent.
        let call = Call { image: message.segments, ..Call::of_till(self.file, store, self.by, Right::BackUp) };
        match refusal {
            Refusal::ImageLength => advice::no_message(self.file, store, &self.name, message),
            Refusal::OtherSegment | Refusal::NoSegment | Refusal::TillFull => call.message_refused(refusal, &self.name),
            _ => call.refused(refusal),
        }
    }
}

impl Kept {
    /// In words and for programs; with cells if it was only tried.
    fn reply(&self, asked: &Asked, cells: Option<&Cells>) -> Reply {
        let Kept { version, length, segments, sent } = *self;
        let (till, would) = (asked.by.till, if cells.is_some() { "would be " } else { "" });
        let room = cells.map_or(String::new(), |cells| format!("; {cells}"));
        let of = bytes(length as usize);
        let text =
            format!("till {till}: version {version} {would}kept, {of}, {sent} of {segments} segments sent{room}\n");
        let fields = Json::object([
            ("file", asked.file.into()),
            ("till", till.into()),
            ("version", version.into()),
            ("bytes", length.into()),
            ("segments", segments.into()),
            ("sent", sent.into()),
            ("message_bytes", asked.bytes.len().into()),
            ("dry_run", cells.is_some().into()),
            ("cells", cells.map_or(Json::Null, Cells::fields)),
        ]);
        Reply::done(text, fields)
    }
}

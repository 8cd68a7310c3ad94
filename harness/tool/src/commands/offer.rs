//! `offer`: the box's reply to a till's first message.

use super::sent::OUT;
use crate::advice::{By, Call};
use crate::arguments::Arguments;
use crate::disk::Disk;
use crate::json::Json;
use crate::names::shown;
use crate::outlet::Outlet;
use crate::reply::Reply;
use crate::storefile::Opened;
use crate::syntax::{Argument, Command, Takes, FILE, FORCE, TILL, USER, WAIT, WITH};
use crate::{advice, image, Failure};
use lurdempos::{Refusal, Right, FINGERPRINT, MOST_SEGMENTS};

pub static COMMAND: Command = Command {
    name: "offer",
    arguments: &[FILE, TILL, Argument::needed("FINGERPRINTS", Takes::File), OUT],
    options: &[FORCE, WITH, USER, WAIT],
    about: "mark which segments of a till's image the store has",
    help: "
FINGERPRINTS is a file with a till's first message, or - for standard input: 20 bytes, the SHA-1, for each
segment of its image, the last one filled up with zeros. OUT is a file, or - for standard output. It gets a
byte for each: 1 if the store has the segment, so that the till need not send it, else 0. The store is not
changed. What the till then sends goes in with `lurdempos backup-sent`.
",
    run,
};

fn run(arguments: &Arguments) -> Result<Reply, Failure> {
    let (disk, user, till) = (Disk::asked(arguments)?, arguments.user()?, arguments.number(1)?);
    let file = disk.file;
    let (path, outlet) = (arguments.path(2)?, Outlet::asked(arguments, 3, "marks")?);
    // One byte more than there can be is enough to refuse them.
    let prints = image::read_beginning(path, FINGERPRINT * MOST_SEGMENTS + 1)?;
    let Opened { store, metadata, .. } = disk.open()?;
    let marks = store.offer(user, till, &prints).map_err(|refusal| match refusal {
        Refusal::ImageLength => advice::no_fingerprints(file, &store, &image::name(path), prints.len()),
        _ => Call::of_till(file, &store, By { user, till }, Right::BackUp).refused(refusal),
    })?;
    let (segments, had) = (marks.len(), marks.iter().filter(|&&mark| mark == 1).count());
    let text = format!("till {till}: the store has {had} of {segments} segments, marked in {}\n", shown(outlet.path));
    let fields = Json::object([
        ("file", file.into()),
        ("till", till.into()),
        ("output", outlet.path.into()),
        ("segments", segments.into()),
        ("had", had.into()),
    ]);
    outlet.put(marks, &metadata, Reply::done(text, fields))
}

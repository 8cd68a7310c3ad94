//! `sent`: a till's second message, made from an image and the marks that came back.

use crate::advice::{By, Call};
use crate::arguments::Arguments;
use crate::json::Json;
use crate::names::shown;
use crate::outlet::Outlet;
use crate::reply::Reply;
use crate::store::Store;
use crate::storefile::{self, Opened};
use crate::syntax::{Argument, Command, Takes, FILE, FORCE, WAIT};
use crate::words::{bytes, counted};
use crate::{image, Failure};
use lurdempos::{sending, Refusal, Right, MOST_SEGMENTS, OWNER};
use std::path::Path;

pub static COMMAND: Command = Command {
    name: "sent",
    arguments: &[FILE, Argument::needed("IMAGE", Takes::File), Argument::needed("MARKS", Takes::File), OUT],
    options: &[FORCE, WAIT],
    about: "write a till's second message: what the store lacks",
    help: "
This is the till's part, for trying it by hand. FILE is the store that the image is for. MARKS is what
`lurdempos offer` wrote for this image's fingerprints. IMAGE or MARKS can be - for standard input, and OUT -
for standard output. OUT gets the image's length in four bytes, all fingerprints, a mark for each segment, 1
if it follows, and the segments that are not marked in MARKS, one that comes again only once.
`lurdempos backup-sent` takes it.
",
    run,
};

/// Where a message goes.
pub(super) const OUT: Argument = Argument::needed("OUT", Takes::File);

fn run(arguments: &Arguments) -> Result<Reply, Failure> {
    let (file, path, marks) = (arguments.store()?, arguments.path(1)?, arguments.path(2)?);
    let outlet = Outlet::asked(arguments, 3, "a message")?;
    let (given, had) = (image::read(path)?, image::read_beginning(marks, MOST_SEGMENTS + 1)?);
    let Opened { store, metadata, .. } = storefile::open(file)?;
    let image = image_for(file, &store, &given)?;
    let whole = sending(image, store.capacities());
    refuse_marks(marks, &had, whole.marks.len())?;
    let message = whole.lacking(&had);
    let (segments, sent) = (message.marks.len(), message.marks.iter().filter(|&&mark| mark == 1).count());
    let message = message.to_bytes();
    let (name, to, length) = (image::name(path), shown(outlet.path), bytes(message.len()));
    let text = format!("{name}: {sent} of {segments} segments written to {to}, a message of {length}\n");
    let fields = Json::object([
        ("file", file.into()),
        ("image", path.into()),
        ("output", outlet.path.into()),
        ("bytes", image.len().into()),
        ("segments", segments.into()),
        ("sent", sent.into()),
        ("message_bytes", message.len().into()),
    ]);
    outlet.put(message, &metadata, Reply::done(text, fields))
}

/// The image, if the store can take one of its length.
pub(super) fn image_for<'a>(file: &Path, store: &Store, image: &'a [u8]) -> Result<&'a [u8], Failure> {
    match (1..=store.capacities().image_bytes()).contains(&image.len()) {
        true => Ok(image),
        false => {
            let by = By { user: OWNER, till: 0 };
            Err(Call { image, ..Call::of_till(file, store, by, Right::BackUp) }.refused(Refusal::ImageLength))
        }
    }
}

/// Marks that are not this image's.
fn refuse_marks(path: &Path, marks: &[u8], segments: usize) -> Result<(), Failure> {
    let name = image::name(path);
    let words = if marks.len() != segments {
        format!("{name}: has {}, the image has {}", bytes(marks.len()), counted(segments as u64, "segment"))
    } else if marks.iter().any(|&mark| mark > 1) {
        format!("{name}: has a byte other than 0 and 1")
    } else {
        return Ok(());
    };
    Err(Failure::file(words).advising("take the marks that `lurdempos offer` wrote for this image's fingerprints."))
}

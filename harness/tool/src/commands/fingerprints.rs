//! `fingerprints`: a till's first message, made from an image.

use super::sent::{image_for, OUT};
use crate::arguments::Arguments;
use crate::json::Json;
use crate::names::shown;
use crate::outlet::Outlet;
use crate::reply::Reply;
use crate::storefile::{self, Opened};
use crate::syntax::{Argument, Command, Takes, FILE, FORCE, WAIT};
use crate::words::counted;
use crate::{image, Failure};
use lurdempos::sending;

pub static COMMAND: Command = Command {
    name: "fingerprints",
    arguments: &[FILE, Argument::needed("IMAGE", Takes::File), OUT],
    options: &[FORCE, WAIT],
    about: "write a till's first message: its image's fingerprints",
    help: "
This is the till's part, for trying it by hand. FILE is the store that the image is for; it tells how long
a segment is. IMAGE and OUT are files, or - for standard input and output. OUT gets 20 bytes, the SHA-1, for
each segment of the image, the last one filled up with zeros. `lurdempos offer` takes them.
",
    run,
};

fn run(arguments: &Arguments) -> Result<Reply, Failure> {
    let (file, path) = (arguments.store()?, arguments.path(1)?);
    let outlet = Outlet::asked(arguments, 2, "fingerprints")?;
    let given = image::read(path)?;
    let Opened { store, metadata, .. } = storefile::open(file)?;
    let image = image_for(file, &store, &given)?;
    let prints = sending(image, store.capacities()).fingerprints;
    let (segments, segment) = (prints.len() / 20, store.capacities().segment_bytes());
    let (name, to) = (image::name(path), shown(outlet.path));
    let text = format!("{name}: {} written to {to}\n", counted(segments as u64, "fingerprint"));
    let fields = Json::object([
        ("file", file.into()),
        ("image", path.into()),
        ("output", outlet.path.into()),
        ("bytes", image.len().into()),
        ("segments", segments.into()),
        ("segment_bytes", segment.into()),
    ]);
    outlet.put(prints, &metadata, Reply::done(text, fields))
}

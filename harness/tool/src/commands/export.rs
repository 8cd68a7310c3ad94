//! `export`: a version as a stream, for another box.

use crate::advice::{By, Call};
use crate::arguments::Arguments;
use crate::disk::Disk;
use crate::json::Json;
use crate::names::shown;
use crate::outlet::Outlet;
use crate::reply::Reply;
use crate::storefile::Opened;
use crate::syntax::{Argument, Command, Takes, DAY, FILE, FORCE, TILL, USER, VERSION, WAIT, WITH};
use crate::words::bytes;
use crate::{calendar, table, Failure};
use lurdempos::Right;

pub static COMMAND: Command = Command {
    name: "export",
    arguments: &[FILE, TILL, VERSION, Argument::needed("OUT", Takes::File)],
    options: &[DAY, FORCE, WITH, USER, WAIT],
    about: "write a version as a stream, to move it to another box",
    help: "
VERSION is a number, or the word newest; --day stands in its place, as for `restore`. OUT is a file, or - for
standard output. A file that exists is replaced as a whole; nobody ever sees half of it. The stream has the
image's length and its blocks that are not all zero; `lurdempos import` reads it into any store, whatever that
store's measures:

  lurdempos export a.lur 0 3 - | lurdempos import b.lur 5 -

The stream has no day; `import --day` gives the version one. The bare image is what `restore` writes, and those
of all versions `export-all`.
",
    run,
};

fn run(arguments: &Arguments) -> Result<Reply, Failure> {
    let (disk, user, till) = (Disk::asked(arguments)?, arguments.user()?, arguments.number(1)?);
    let file = disk.file;
    let (version, outlet) = (arguments.version(2)?, Outlet::asked(arguments, 3, "a stream")?);
    let Opened { store, metadata, .. } = disk.open()?;
    let call = Call::of_till(file, &store, By { user, till }, Right::Restore);
    let version = call.number(version)?;
    let written = store.stream(user, till, version).map_err(|refusal| Call { version, ..call }.refused(refusal))?;
    // It begins with the image's length.
    let length = written.first_chunk().map_or(0, |&first| u32::from_le_bytes(first));
    let (to, of, as_stream) = (shown(outlet.path), bytes(length as usize), bytes(written.len()));
    let day = table::day(&store, till, version);
    let of_day = calendar::beside(day);
    let text = format!("till {till}: version {version}{of_day} of {of} written to {to}, a stream of {as_stream}\n");
    let fields = Json::object([
        ("file", file.into()),
        ("till", till.into()),
        ("version", version.into()),
        ("day", day.into()),
        ("date", calendar::field(day)),
        ("output", outlet.path.into()),
        ("bytes", length.into()),
        ("stream_bytes", written.len().into()),
    ]);
    outlet.put(written, &metadata, Reply::done(text, fields))
}

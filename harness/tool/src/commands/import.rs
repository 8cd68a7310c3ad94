//! `import`: a version that comes from another box as a stream.

use super::backup;
use crate::arguments::Arguments;
use crate::reply::Reply;
use crate::syntax::{Argument, Command, Takes, FILE, TILL};
use crate::{advice, image, Failure};
use lurdempos::{image_of_stream, LONGEST_STREAM};
use std::path::Path;

pub static COMMAND: Command = Command {
    name: "import",
    arguments: &[FILE, TILL, Argument::needed("IN", Takes::File)],
    options: &backup::OPTIONS,
    about: "keep a version from another box as the till's next",
    help: "
IN is a file with a stream that `lurdempos export` wrote, or - for standard input. The stream is read whole
before anything is kept: one that is cut short or altered is refused. Its image is then kept as `backup`
keeps one, under the till's next number. A stream has no day: --day gives the version one, as for `backup`.
",
    run,
};

fn run(arguments: &Arguments) -> Result<Reply, Failure> {
    backup::keep(arguments, read)
}

/// The image of a stream in a file, or on standard input for `-`.
fn read(path: &Path) -> Result<Vec<u8>, Failure> {
    // One byte more than a stream can have is enough to refuse it.
    let stream = image::read_beginning(path, LONGEST_STREAM + 1)?;
    image_of_stream(&stream).map_err(|refusal| advice::stream_refused(refusal, &image::name(path), &stream))
}

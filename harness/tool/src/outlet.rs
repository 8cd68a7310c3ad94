//! The output that a command line names for what comes out of a store: a file, or a descriptor.

use crate::arguments::Arguments;
use crate::output::{self, Output};
use crate::patience::Patience;
use crate::reply::Reply;
use crate::streams::Stream;
use crate::Failure;
use std::fs::Metadata;
use std::os::unix::fs::MetadataExt;
use std::path::Path;

pub struct Outlet<'a> {
    pub path: &'a Path,
    stream: Option<Stream>,
    force: bool,
    patience: Patience,
}

impl<'a> Outlet<'a> {
    /// The argument at this place, for an image, a stream or what else `what` calls it.
    pub fn asked(arguments: &'a Arguments, at: usize, what: &str) -> Result<Outlet<'a>, Failure> {
        let (path, patience) = (arguments.path(at)?, Patience::asked(arguments)?);
        let stream = Stream::named(path);
        if stream.is_some() && arguments.has("--json") {
            let words = format!("--json and {what} cannot go to one output; name a file for it");
            return Err(arguments.wrong(&words));
        }
        output::apart(arguments.store()?, "the store itself", path)?;
        for other in arguments.others()? {
            output::apart(other, "another store on the disk", path)?;
        }
        Ok(Outlet { path, stream, force: arguments.has("--force"), patience })
    }

    /// Puts the bytes there. The reply is for a file; a descriptor gets the bytes alone.
    pub fn put(self, bytes: Vec<u8>, store: &Metadata, reply: Reply) -> Result<Reply, Failure> {
        if let Some(stream) = self.stream {
            return Ok(Reply::data(stream, bytes));
        }
        // It is not for more eyes than the store.
        let mode = Some(store.mode());
        Output { path: self.path, force: self.force, mode, patience: self.patience }.put(&bytes)?;
        Ok(reply)
    }
}

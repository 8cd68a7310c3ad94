//! What a command answers, and how it gets to standard output.

use crate::failure::REFUSED;
use crate::json::Json;
use crate::streams::{self, Stream};
use crate::Failure;
use std::ffi::OsString;
use std::io::{self, ErrorKind, Write};
use std::sync::OnceLock;

/// The exit status of an answer that is not what one hopes for: what was compared differs, or not all is certain.
pub const DIFFERS: u8 = 5;

/// A command's whole answer, in words and for programs. It is printed only after the command has succeeded.
#[derive(Debug)]
pub struct Reply {
    pub text: String,
    fields: Json,
    kind: Kind,
    status: u8,
}

#[derive(Debug)]
enum Kind {
    /// A change that is made. It stands even if the words find no reader.
    Done,
    /// Text to read. A reader that goes away early has had enough.
    Text,
    /// The same where the text is a product, as a picture: `--quiet` does not hold it back.
    Document,
    /// Bytes that somebody needs to the last one.
    Data(Stream, Vec<u8>),
}

impl Reply {
    pub fn done(text: String, fields: Json) -> Reply {
        Reply { text, fields, kind: Kind::Done, status: 0 }
    }

    pub fn text(text: String, fields: Json) -> Reply {
        Reply { text, fields, kind: Kind::Text, status: 0 }
    }

    pub fn document(text: String, fields: Json) -> Reply {
        Reply { text, fields, kind: Kind::Document, status: 0 }
    }

    pub fn data(stream: Stream, bytes: Vec<u8>) -> Reply {
        Reply { text: String::new(), fields: Json::Null, kind: Kind::Data(stream, bytes), status: 0 }
    }

    /// The same answer, with exit status 5 if it is not what one hopes for.
    pub fn with_difference(self, differs: bool) -> Reply {
        Reply { status: if differs { DIFFERS } else { 0 }, ..self }
    }

    /// The same answer, with a refusal's exit status if the store refused a part of what was asked for.
    pub fn with_refusals(self, refused: bool) -> Reply {
        Reply { status: if refused { REFUSED } else { 0 }, ..self }
    }
}

/// How a run speaks.
#[derive(Clone, Copy, Default)]
struct Style {
    json: bool,
    quiet: bool,
}

static STYLE: OnceLock<Style> = OnceLock::new();

/// Takes the style from the command line, once for the whole process.
pub fn choose_style(arguments: &[OsString]) {
    let has = |option: &str| arguments.iter().take_while(|word| *word != "--").any(|word| word == option);
    let _ = STYLE.set(Style { json: has("--json"), quiet: has("--quiet") });
}

fn style() -> Style {
    STYLE.get().copied().unwrap_or_default()
}

/// Prints a reply and gives the exit status. The files are no longer touched, so a change that is made counts as
/// success from here on.
pub fn print(reply: Reply) -> Result<u8, Failure> {
    let Style { json, quiet } = style();
    let text = if json { format!("{}\n", reply.fields) } else { reply.text };
    let written = match &reply.kind {
        Kind::Data(stream, bytes) => stream.put(bytes),
        Kind::Done | Kind::Text if quiet => Ok(()),
        Kind::Done | Kind::Text => write(text.as_bytes()),
        Kind::Document => Stream::OUT.put(text.as_bytes()),
    };
    match (written, reply.kind) {
        (Ok(()), _) => Ok(reply.status),
        (Err(error), Kind::Done) => {
            warn(&format!("the change is made, but standard output could not be written: {error}"));
            Ok(reply.status)
        }
        (Err(error), Kind::Text | Kind::Document) if error.kind() == ErrorKind::BrokenPipe => Ok(reply.status),
        (Err(error), Kind::Data(stream, _)) => Err(Failure::file(format!("{stream} could not be written: {error}"))),
        (Err(error), _) => Err(Failure::file(format!("{} could not be written: {error}", Stream::OUT))),
    }
}

fn write(bytes: &[u8]) -> io::Result<()> {
    let mut out = io::stdout().lock();
    out.write_all(bytes)?;
    out.flush()
}

/// Says something on standard error. If even that is closed there is nobody left to tell.
pub fn warn(words: &str) {
    if !streams::error_is_muted() {
        let _ = writeln!(io::stderr(), "lurdempos: {words}");
    }
}

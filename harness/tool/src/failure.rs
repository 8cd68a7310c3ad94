//! Why a run ends without success. Nothing is altered in any of these cases.

use crate::names::shown;
use crate::reply::warn;
use lurdempos::Refusal;
use std::io;
use std::path::Path;
use std::process::ExitCode;

/// The exit status of what the store refused.
pub const REFUSED: u8 = 1;

#[derive(Debug)]
pub struct Failure {
    kind: Kind,
    words: String,
    /// What a refusal means for this call.
    here: Option<String>,
    advice: Option<String>,
}

#[derive(Debug)]
enum Kind {
    /// The store refused the call. Exit status 1.
    Refused,
    /// The command line is wrong. Exit status 2.
    Usage,
    /// A file could not be read or written. Exit status 3.
    File,
    /// Another process has the file. Exit status 4.
    Busy,
}

impl Failure {
    fn new(kind: Kind, words: impl Into<String>) -> Failure {
        Failure { kind, words: words.into(), here: None, advice: None }
    }

    /// With the particulars of this call and what to do.
    pub fn refused(refusal: Refusal, here: String, advice: String) -> Failure {
        let failure = Failure::new(Kind::Refused, refusal.to_string());
        Failure { here: Some(here), advice: Some(advice), ..failure }
    }

    pub fn usage(words: impl Into<String>) -> Failure {
        Failure::new(Kind::Usage, words)
    }

    pub fn file(words: impl Into<String>) -> Failure {
        Failure::new(Kind::File, words)
    }

    pub fn busy(words: impl Into<String>) -> Failure {
        Failure::new(Kind::Busy, words)
    }

    /// A file could not be read or written for a reason that the system gives.
    pub fn io(path: &Path, what: &str, error: &io::Error) -> Failure {
        Failure::file(format!("{}: {what}: {error}", shown(path)))
    }

    /// The same with what to do.
    pub fn advising(self, advice: impl Into<String>) -> Failure {
        Failure { advice: Some(advice.into()), ..self }
    }

    pub fn is_refusal(&self) -> bool {
        matches!(self.kind, Kind::Refused)
    }

    /// Says it on standard error and gives the exit status.
    pub fn tell(&self) -> ExitCode {
        warn(&self.words());
        ExitCode::from(self.status())
    }

    pub fn words(&self) -> String {
        let here = self.here.iter().map(|here| format!("\nHere: {here}."));
        let advice = self.advice.iter().map(|advice| format!("\nWhat to do: {advice}"));
        here.chain(advice).fold(self.words.clone(), |words, more| words + &more)
    }

    fn status(&self) -> u8 {
        match self.kind {
            Kind::Refused => REFUSED,
            Kind::Usage => 2,
            Kind::File => 3,
            Kind::Busy => 4,
        }
    }
}

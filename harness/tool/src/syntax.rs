//! What a command line can have. Help texts, the manual page and the completions are all made from this.

use crate::arguments::Arguments;
use crate::reply::Reply;
use crate::Failure;

/// A command of the tool.
pub struct Command {
    pub name: &'static str,
    pub arguments: &'static [Argument],
    /// Its own options; those of every command come on top.
    pub options: &'static [Opt],
    /// What it does, in one line.
    pub about: &'static str,
    /// What else is to be known.
    pub help: &'static str,
    pub run: fn(&Arguments) -> Result<Reply, Failure>,
}

/// An argument by its place.
pub struct Argument {
    pub name: &'static str,
    pub needed: bool,
    /// Whether it can stand several times. Then it is the last one.
    pub repeated: bool,
    /// The option that can stand in its place; empty if none can.
    pub instead: &'static str,
    pub takes: Takes,
}

/// An option by its name.
pub struct Opt {
    pub name: &'static str,
    /// What its value is called; empty for an option that has none.
    pub value: &'static str,
    pub takes: Takes,
    /// Whether it can be given several times.
    pub repeated: bool,
    pub about: &'static str,
}

/// What a word on the command line can be, for completions.
#[derive(Clone, Copy, PartialEq, Eq)]
pub enum Takes {
    File,
    Folder,
    Version,
    /// A till and a file, with an equals sign between them.
    TillAndFile,
    Right,
    Anything,
}

/// The options of every command.
pub const COMMON: [Opt; 3] = [
    Opt::flag("--json", "answer for programs"),
    Opt::flag("--quiet", "say nothing if all goes well; what is written to - is still written"),
    Opt::flag("--help", "show this text"),
];

/// The option of every command that may have to wait.
pub const WAIT: Opt = Opt::with("--wait", "SECONDS", "wait so long for another run at the file (default 10)");

/// The option of every command that can replace a file.
pub const FORCE: Opt = Opt::flag("--force", "replace the output even if it is a store or write-protected");

/// The option of commands that look a version up by its day.
pub const DAY: Opt =
    Opt::with("--day", "D", "in VERSION's place: the newest version not after the day D, a number or a date");

/// The option of every command that makes a call in somebody's name.
pub const USER: Opt = Opt::with("--user", "N", "make the call as user N, 0 to 7 (default 0, the owner)");

/// The option of every command that makes a call on a store, for the other stores on its disk.
pub const WITH: Opt = Opt {
    repeated: true,
    ..Opt::with_file("--with", "STORE", "another store on the disk of FILE; up to 7 of them, each after a --with")
};

/// The option of every command that backs up.
pub const LIMIT: Opt =
    Opt::with("--limit", "CELLS", "keep nothing if FILE and all others would then occupy more cells than this");

/// The options of commands that can be tried out.
pub const DRY_RUN: Opt = Opt::flag("--dry-run", "change nothing; tell what would come of it, with the cells in use");

pub const FILE: Argument = Argument::needed("FILE", Takes::File);
pub const TILL: Argument = Argument::needed("TILL", Takes::Anything);
/// A version of a command that has the option [`DAY`] too.
pub const VERSION: Argument = Argument { instead: DAY.name, ..Argument::needed("VERSION", Takes::Version) };

impl Argument {
    pub const fn needed(name: &'static str, takes: Takes) -> Argument {
        Argument { name, needed: true, repeated: false, instead: "", takes }
    }

    pub const fn optional(name: &'static str, takes: Takes) -> Argument {
        Argument { name, needed: false, repeated: false, instead: "", takes }
    }

    /// One that stands any number of times, or not at all.
    pub const fn repeated(name: &'static str, takes: Takes) -> Argument {
        Argument { name, needed: false, repeated: true, instead: "", takes }
    }

    /// One that stands once or several times.
    pub const fn several(name: &'static str, takes: Takes) -> Argument {
        Argument { repeated: true, ..Argument::needed(name, takes) }
    }

    /// As a usage line shows it.
    fn shown(&self) -> String {
        match (self.needed, self.repeated) {
            (true, false) => self.name.into(),
            (true, true) => format!("{}...", self.name),
            (false, false) => format!("[{}]", self.name),
            (false, true) => format!("[{}...]", self.name),
        }
    }
}

impl Opt {
    pub const fn flag(name: &'static str, about: &'static str) -> Opt {
        Opt { name, value: "", takes: Takes::Anything, repeated: false, about }
    }

    pub const fn with(name: &'static str, value: &'static str, about: &'static str) -> Opt {
        Opt { name, value, takes: Takes::Anything, repeated: false, about }
    }

    pub const fn with_file(name: &'static str, value: &'static str, about: &'static str) -> Opt {
        Opt { takes: Takes::File, ..Opt::with(name, value, about) }
    }

    pub const fn with_folder(name: &'static str, value: &'static str, about: &'static str) -> Opt {
        Opt { takes: Takes::Folder, ..Opt::with(name, value, about) }
    }

    pub fn has_value(&self) -> bool {
        !self.value.is_empty()
    }

    /// With its value, as help shows it.
    pub fn shown(&self) -> String {
        format!("{} {}", self.name, self.value).trim_end().into()
    }
}

impl Command {
    /// All options, its own first.
    pub fn all_options(&self) -> impl Iterator<Item = &'static Opt> {
        self.options.iter().chain(&COMMON)
    }

    /// Its name and arguments.
    pub fn call(&self) -> String {
        let words = self.arguments.iter().map(Argument::shown);
        std::iter::once(self.name.to_string()).chain(words).collect::<Vec<String>>().join(" ")
    }

    /// Whether its last argument can stand several times.
    pub fn repeats(&self) -> bool {
        self.arguments.last().is_some_and(|last| last.repeated)
    }

    /// The line that shows its use.
    pub fn usage(&self) -> String {
        format!("lurdempos {} [OPTIONS]", self.call())
    }
}

#[cfg(test)]
mod tests {
    use super::WAIT;
    use crate::patience;

    #[test]
    fn the_default_is_told() {
        assert!(WAIT.about.ends_with(&format!("(default {})", patience::DEFAULT)));
    }
}

//! The words of a command line, taken strictly.

use crate::calendar::{self, NoDay};
use crate::names::{quoted, shown};
use crate::syntax::{Argument, Command, Opt, Takes, DAY, USER, WITH};
use crate::{streams, Failure};
use lurdempos::OWNER;
use std::ffi::{OsStr, OsString};
use std::os::unix::ffi::OsStrExt;
use std::path::Path;

/// A command line, sorted into its parts.
pub struct Arguments {
    command: &'static Command,
    words: Vec<OsString>,
    values: Vec<(&'static str, OsString)>,
    flags: Vec<&'static str>,
}

/// A version as the command line names it.
#[derive(Clone, Copy)]
pub enum Named {
    Number(u32),
    Newest,
    /// The newest that is not after a day.
    OnDay(u32),
}

impl Arguments {
    /// Sorts what follows the command's name. Options may stand anywhere; `--` ends them; `-` alone is no option.
    pub fn parse(command: &'static Command, given: &[OsString]) -> Result<Arguments, Failure> {
        let mut arguments = Arguments { command, words: Vec::new(), values: Vec::new(), flags: Vec::new() };
        let mut rest = given.iter();
        while let Some(word) = rest.next() {
            if word == "--" {
                arguments.words.extend(rest.cloned());
                break;
            }
            if word.len() < 2 || !word.as_bytes().starts_with(b"-") {
                arguments.words.push(word.clone());
                continue;
            }
            arguments.option(word, &mut rest)?;
        }
        arguments.counted()
    }

    fn option<'a>(&mut self, word: &OsStr, rest: &mut impl Iterator<Item = &'a OsString>) -> Result<(), Failure> {
        let mut parts = word.as_bytes().splitn(2, |&byte| byte == b'=').map(OsStr::from_bytes);
        let (name, attached) = (parts.next().unwrap_or_default(), parts.next());
        let known = self.command.all_options().find(|option| name == option.name);
        match known.filter(|option| option.has_value() || attached.is_none()) {
            Some(option) if !option.repeated && (self.has(option.name) || self.value(option.name).is_some()) => {
                Err(self.wrong(&format!("option {} is given twice", option.name)))
            }
            Some(Opt { name, value: "", .. }) => {
                self.flags.push(name);
                Ok(())
            }
            Some(Opt { name, value, .. }) => {
                let given = attached.map(OsStr::to_owned).or_else(|| rest.next().cloned());
                let given = given.ok_or_else(|| self.wrong(&format!("option {name} needs a value, {value}")))?;
                self.values.push((name, given));
                Ok(())
            }
            None => Err(self.unknown(word)),
        }
    }

    /// The word may be a name that begins with a dash.
    fn unknown(&self, word: &OsStr) -> Failure {
        let command = self.command.name;
        self.wrong(&format!("unknown option {}", shown(word))).advising(format!(
            "see `lurdempos {command} --help`; a name that begins with a dash is written {}, or put after `--`.",
            quoted(word)
        ))
    }

    /// The arguments, if there are neither too few nor too many.
    fn counted(self) -> Result<Arguments, Failure> {
        let all = self.command.arguments;
        let (replaced, places): (Vec<_>, Vec<_>) = all.iter().partition(|argument| self.is_replaced(argument));
        match (self.words.get(places.len()), &replaced[..]) {
            (Some(_), [Argument { name, instead, .. }]) if self.words.len() == all.len() => {
                return Err(self.wrong(&format!("{name} and {instead} both say which version; give one of them")))
            }
            (Some(word), _) if !self.command.repeats() => {
                return Err(self.wrong(&format!("one argument too many: {}", shown(word))))
            }
            _ => {}
        }
        match places.iter().skip(self.words.len()).find(|argument| argument.needed) {
            Some(argument) => Err(self.missing(argument.name)),
            None => Ok(self),
        }
    }

    /// Whether an option stands in the argument's place.
    fn is_replaced(&self, argument: &Argument) -> bool {
        !argument.instead.is_empty() && self.value(argument.instead).is_some()
    }

    /// Wrong use of this command.
    pub fn wrong(&self, words: &str) -> Failure {
        let command = self.command;
        let failure = Failure::usage(format!("{}: {words}\nUsage: {}", command.name, command.usage()));
        failure.advising(format!("see `lurdempos {} --help`.", command.name))
    }

    pub fn missing(&self, name: &str) -> Failure {
        self.wrong(&format!("{name} is missing"))
    }

    /// The word of the command's argument at this place; none if an option stands for it.
    pub fn word(&self, at: usize) -> Option<&OsStr> {
        let all = self.command.arguments;
        let replaced = all.iter().take(at).filter(|argument| self.is_replaced(argument)).count();
        match all.get(at) {
            Some(argument) if self.is_replaced(argument) => None,
            _ => self.words.get(at - replaced).map(OsString::as_os_str),
        }
    }

    /// The words from this place on.
    pub fn words_from(&self, at: usize) -> &[OsString] {
        self.words.get(at..).unwrap_or_default()
    }

    pub fn has(&self, flag: &str) -> bool {
        self.flags.contains(&flag)
    }

    pub fn value(&self, option: &str) -> Option<&OsStr> {
        self.values.iter().find(|(name, _)| *name == option).map(|(_, value)| value.as_os_str())
    }

    /// The argument at this place as a path.
    pub fn path(&self, at: usize) -> Result<&Path, Failure> {
        match self.word(at) {
            Some(word) if !word.is_empty() => Ok(Path::new(word)),
            _ => Err(self.missing(self.name(at))),
        }
    }

    /// The store's file, always the first argument. No reply may go into it.
    pub fn store(&self) -> Result<&Path, Failure> {
        let path = self.place(0)?;
        streams::apart_from(path)?;
        Ok(path)
    }

    /// The files of several stores, which all arguments name.
    pub fn stores(&self) -> Result<Vec<&Path>, Failure> {
        let name = self.name(0);
        self.words.iter().map(|word| self.store_named(name, word)).collect()
    }

    /// The files of the other stores on the disk.
    pub fn others(&self) -> Result<Vec<&Path>, Failure> {
        let named = self.values.iter().filter(|(name, _)| *name == WITH.name);
        named.map(|(name, value)| self.store_named(name, value)).collect()
    }

    fn store_named<'a>(&self, name: &str, word: &'a OsStr) -> Result<&'a Path, Failure> {
        let path = Path::new(word);
        if word.is_empty() {
            return Err(self.wrong(&format!("{name} needs the name of a file")));
        }
        self.no_stream(name, Takes::File, path)?;
        streams::apart_from(path)?;
        Ok(path)
    }

    /// The argument at this place as a file or a folder, and not as a stream.
    pub fn place(&self, at: usize) -> Result<&Path, Failure> {
        let path = self.path(at)?;
        self.no_stream(self.name(at), self.command.arguments[at].takes, path)?;
        Ok(path)
    }

    fn no_stream(&self, name: &str, takes: Takes, path: &Path) -> Result<(), Failure> {
        let what = if takes == Takes::Folder { "folder" } else { "file" };
        match path == Path::new("-") {
            true => {
                Err(self.wrong(&format!("{name} has to be a {what}; `-` can stand for an image or an output only")))
            }
            false => Ok(()),
        }
    }

    /// The argument at this place as a number.
    pub fn number(&self, at: usize) -> Result<u32, Failure> {
        let word = self.word(at).ok_or_else(|| self.missing(self.name(at)))?;
        self.parsed(self.name(at), word)
    }

    /// The argument at this place as a version: a number, the word `newest`, or a day in its place.
    pub fn version(&self, at: usize) -> Result<Named, Failure> {
        match (self.word(at), self.day()?) {
            (None, Some(day)) => Ok(Named::OnDay(day)),
            (Some(word), _) if word == "newest" => Ok(Named::Newest),
            _ => self.number(at).map(Named::Number),
        }
    }

    /// The day that the command line names, if it does: a number, or a date.
    pub fn day(&self) -> Result<Option<u32>, Failure> {
        let Some(word) = self.value(DAY.name) else { return Ok(None) };
        let text = shown(word);
        match word.to_str().and_then(calendar::of_date) {
            Some(Ok(day)) => Ok(Some(day)),
            Some(Err(NoDay::NoDate)) => Err(self.wrong(&format!("there is no date {text}"))),
            Some(Err(NoDay::TooEarly)) => {
                Err(self.wrong(&format!("{text} is before 1970-01-01, the first date of a day")))
            }
            None if word.to_str().is_some_and(is_plain) => self.parsed(DAY.name, word).map(Some),
            None => {
                Err(self
                    .wrong(&format!("--day has to be a number in plain digits, or a date as 2026-03-31, not `{text}`")))
            }
        }
    }

    /// Who makes the call: the owner, unless another user is named.
    pub fn user(&self) -> Result<u32, Failure> {
        Ok(self.option_number(USER.name)?.unwrap_or(OWNER))
    }

    /// An option's number, if the option is given.
    pub fn option_number(&self, option: &str) -> Result<Option<u32>, Failure> {
        self.value(option).map(|value| self.parsed(option, value)).transpose()
    }

    /// What the argument at this place is called.
    fn name(&self, at: usize) -> &'static str {
        self.command.arguments.get(at).map_or("", |argument| argument.name)
    }

    /// A word as a number, or wrong use, where the word is called so.
    pub fn parsed(&self, name: &str, word: &OsStr) -> Result<u32, Failure> {
        let Some(text) = word.to_str().filter(|text| is_plain(text)) else {
            return Err(self.wrong(&format!("{name} has to be a number in plain digits, not `{}`", shown(word))));
        };
        text.parse().map_err(|_| self.wrong(&format!("{name} is larger than any number here: {text}")))
    }
}

/// Whether a text is a number in plain digits: no sign, no space, no leading zero.
pub fn is_plain(text: &str) -> bool {
    !text.is_empty() && text.bytes().all(|byte| byte.is_ascii_digit()) && (text == "0" || !text.starts_with('0'))
}

//! The commands, and the choice between them.

mod backup;
mod backup_sent;
mod bill;
mod capacities;
mod chain;
mod check;
mod closing;
mod demo;
mod diff;
mod dry_run;
mod export;
mod export_all;
mod fingerprints;
mod grant;
mod grow;
mod import;
mod init;
mod list;
mod map;
mod offer;
mod restore;
mod retire;
mod rights;
mod salvage;
mod sent;
mod tally;
mod verify;

use crate::arguments::Arguments;
use crate::json::Json;
use crate::names::shown;
use crate::reply::Reply;
use crate::syntax::Command;
use crate::{completions, help, manual, Failure};
use std::ffi::{OsStr, OsString};

pub static COMMANDS: [&Command; 26] = [
    &init::COMMAND,
    &backup::COMMAND,
    &closing::COMMAND,
    &restore::COMMAND,
    &verify::COMMAND,
    &diff::COMMAND,
    &retire::COMMAND,
    &list::COMMAND,
    &tally::COMMAND,
    &bill::COMMAND,
    &chain::COMMAND,
    &check::COMMAND,
    &map::COMMAND,
    &export::COMMAND,
    &import::COMMAND,
    &fingerprints::COMMAND,
    &offer::COMMAND,
    &sent::COMMAND,
    &backup_sent::COMMAND,
    &rights::COMMAND,
    &grant::GRANT,
    &grant::REVOKE,
    &export_all::COMMAND,
    &grow::COMMAND,
    &salvage::COMMAND,
    &demo::COMMAND,
];

/// Runs a command line, without the tool's own name.
pub fn run(arguments: &[OsString]) -> Result<Reply, Failure> {
    let Some((first, rest)) = arguments.split_first() else {
        return Err(Failure::usage(format!("a command is missing\n\n{}", help::overview().trim_end())));
    };
    match (first.to_str(), rest) {
        (Some("--help" | "-h" | "help"), []) => Ok(text(help::overview())),
        (Some("help"), [name]) => named(name).map(|command| text(help::of(command))),
        (Some("--version" | "-V"), []) => Ok(text(help::version())),
        (Some("--manual"), []) => Ok(text(manual::page())),
        (Some("--completions"), []) => Ok(text(completions::for_bash())),
        (Some("--help" | "-h" | "help" | "--version" | "-V" | "--manual" | "--completions"), [.., extra]) => {
            Err(Failure::usage(format!("one argument too many: {}", shown(extra))))
        }
        _ => run_command(named(first)?, rest),
    }
}

fn run_command(command: &'static Command, rest: &[OsString]) -> Result<Reply, Failure> {
    let mut options = rest.iter().take_while(|word| *word != "--");
    if options.any(|word| word == "--help" || word == "-h") {
        return Ok(text(help::of(command)));
    }
    (command.run)(&Arguments::parse(command, rest)?)
}

/// A text that is asked for itself; programs get it in one field.
fn text(text: String) -> Reply {
    let fields = Json::object([("text", text.as_str().into())]);
    Reply::document(text, fields)
}

fn named(name: &OsStr) -> Result<&'static Command, Failure> {
    COMMANDS.into_iter().find(|command| name == command.name).ok_or_else(|| {
        let known: Vec<&str> = COMMANDS.iter().map(|command| command.name).collect();
        let failure = Failure::usage(format!("there is no command `{}`", shown(name)));
        failure.advising(format!("choose one of {}.", known.join(", ")))
    })
}

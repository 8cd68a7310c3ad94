//! The box's tool: a till version store in one file, for people at a shell. `main` is the whole program; a test build
//! and the benchmark are the same program with somebody who watches its steps.

mod advice;
mod arguments;
mod attributes;
mod bakery;
mod calendar;
mod checksum;
mod commands;
mod completions;
mod day;
mod disk;
mod draft;
mod failure;
mod files;
mod folder;
mod form;
mod help;
mod image;
mod json;
mod leftovers;
mod locks;
mod manual;
mod memory;
mod names;
mod numbers;
mod outlet;
mod outline;
mod output;
mod palette;
mod patience;
mod picture;
mod ranges;
mod reply;
mod rights;
mod salvage;
mod shared;
mod signals;
mod steps;
mod store;
mod storefile;
mod streams;
mod syntax;
mod table;
mod target;
mod words;

use failure::Failure;
pub use memory::Careful;
use std::ffi::OsString;
use std::process::ExitCode;
use std::thread;
pub use steps::{watch, Watch};

/// A call of the store needs about 512 KiB of stack; this is enough whatever the shell's limit is.
const STACK: usize = 4 << 20;

/// Runs the process's command line.
pub fn main() -> ExitCode {
    let arguments: Vec<OsString> = std::env::args_os().skip(1).collect();
    memory::reserve();
    let started = signals::watch().and_then(|()| {
        let run = thread::Builder::new().stack_size(STACK);
        run.spawn(move || run_line(&arguments))
    });
    match started.map(|run| run.join()) {
        Ok(Ok(status)) => status,
        Ok(Err(_)) => ExitCode::from(3),
        Err(error) => Failure::file(format!("the run could not be started: {error}")).tell(),
    }
}

/// Runs a command line, without the tool's own name, prints its reply and gives the exit status.
pub fn run_line(arguments: &[OsString]) -> ExitCode {
    reply::choose_style(arguments);
    match commands::run(arguments).and_then(reply::print) {
        Ok(status) => ExitCode::from(status),
        Err(failure) => failure.tell(),
    }
}

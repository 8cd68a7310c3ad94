//! The texts of `--help` and `--version`.

use crate::commands::COMMANDS;
use crate::syntax::{Command, Opt, COMMON};
use crate::words::sentence;

/// What the tool is for.
pub const ABOUT: &str = "Keeps the versions of the tills' memory images in a store of one file.";

/// What each exit status means.
pub const STATUSES: [(u8, &str); 6] = [
    (0, "accepted"),
    (1, "refused by the store"),
    (2, "wrong use"),
    (3, "a file could not be read or written"),
    (4, "another process is writing the file"),
    (5, "compared, and not the same (diff, verify, bill), or salvaged, and not all is certain"),
];

/// What stays as it was.
pub const UNALTERED: &str =
    "With 1 to 4 nothing is altered; but `closing` keeps those of its images that are not refused.";

/// All commands, each in a line.
pub fn overview() -> String {
    let mut text = format!("{ABOUT}\n\nUsage: lurdempos COMMAND ARGUMENTS\n\n");
    for command in COMMANDS {
        text.push_str(&format!("  {:<33}  {}\n", command.call(), command.about));
    }
    text.push_str(
        "\n`lurdempos COMMAND --help` tells more of a command, `lurdempos --version` the version; `lurdempos --manual`\n\
         prints a manual page, `lurdempos --completions` completions for bash.\n\nExit status:\n",
    );
    for (status, meaning) in STATUSES {
        text.push_str(&format!("  {status}  {meaning}\n"));
    }
    text + UNALTERED + "\n"
}

/// What one command does.
pub fn of(command: &Command) -> String {
    let (usage, about, help) = (command.usage(), sentence(command.about), command.help);
    let options = listed(command.options.iter());
    let common = listed(COMMON.iter());
    let own = if options.is_empty() { String::new() } else { format!("\nOptions:\n{options}") };
    format!("Usage: {usage}\n\n{about}\n{help}{own}\nOptions of every command:\n{common}")
}

/// Options, each in a line.
fn listed<'a>(options: impl Iterator<Item = &'a Opt>) -> String {
    options.map(|option| format!("  {:<19}  {}\n", option.shown(), option.about)).collect()
}

pub fn version() -> String {
    format!("lurdempos {}\n", env!("CARGO_PKG_VERSION"))
}

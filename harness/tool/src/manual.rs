//! The manual page, for `man`, made from the same table as the help texts.

use crate::commands::COMMANDS;
use crate::help::{ABOUT, STATUSES, UNALTERED};
use crate::syntax::{Command, Opt, COMMON};
use crate::words::sentence;

pub fn page() -> String {
    let mut page = format!(".TH LURDEMPOS 1 \"\" \"lurdempos {}\"\n", env!("CARGO_PKG_VERSION"));
    page += ".SH NAME\nlurdempos \\- a till version store in one file\n.SH SYNOPSIS\n";
    page += ".B lurdempos\n.I COMMAND ARGUMENTS\n.RI [ OPTIONS ]\n";
    page += &format!(".SH DESCRIPTION\n{}\n", escaped(ABOUT));
    page += "Every call on the store is made by a proved library.\n";
    page += "Tills are numbered from 0, versions from 1.\n.SH COMMANDS\n";
    COMMANDS.iter().for_each(|command| page += &of(command));
    page += ".SH OPTIONS OF EVERY COMMAND\n";
    COMMON.iter().for_each(|option| page += &item(option));
    page += ".SH EXIT STATUS\n";
    for (status, meaning) in STATUSES {
        page += &format!(".TP\n.B {status}\n{}\n", escaped(&sentence(meaning)));
    }
    page + &format!(".PP\n{}\n", escaped(UNALTERED))
}

fn of(command: &Command) -> String {
    let mut text = format!(".SS {}\n{}\n", escaped(&command.call()), escaped(&sentence(command.about)));
    let paragraphs = command.help.trim().split("\n\n").map(|paragraph| paragraph.replace('\n', " "));
    paragraphs.for_each(|paragraph| text += &format!("{}\n", escaped(&paragraph)));
    command.options.iter().for_each(|option| text += &item(option));
    text
}

fn item(option: &Opt) -> String {
    format!(".TP\n.B {}\n{}\n", escaped(&option.shown()), escaped(&sentence(option.about)))
}

/// Text for roff: a dash is a minus sign, and no line begins with a sign of its own.
fn escaped(text: &str) -> String {
    let text = text.replace('\\', "\\e").replace('-', "\\-");
    if text.starts_with(['.', '\'']) {
        return format!("\\&{text}");
    }
    text
}

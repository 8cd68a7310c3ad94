//! `grant` and `revoke`: the owner sets what another user may do on a till.

use super::rights::each;
use crate::advice::{self, By, Call};
use crate::arguments::Arguments;
use crate::disk::Disk;
use crate::json::Json;
use crate::names::shown;
use crate::patience::Patience;
use crate::reply::Reply;
use crate::store::Store;
use crate::storefile::Change;
use crate::syntax::{Argument, Command, Opt, Takes, FILE, TILL, USER, WAIT, WITH};
use crate::{rights, table, Failure};
use lurdempos::{Refusal, Right, Rights, OWNER};
use std::path::Path;

pub static GRANT: Command = Command {
    name: "grant",
    arguments: &ARGUMENTS,
    options: &OPTIONS,
    about: "give a user rights on a till",
    help: "
USER is 1 to 7. RIGHT is list, backup, restore, retire, or all for the four of them. Rights that the user has
already stay. The reply tells what the user may do from now on; `rights` shows it for all. Only the owner, user
0, can do this.

  list     list, and the words newest and --day, which look a version up
  backup   backup, closing, import, offer, backup-sent
  restore  restore, verify, diff, export, export-all
  retire   retire
",
    run: |arguments| run(arguments, true),
};

pub static REVOKE: Command = Command {
    name: "revoke",
    arguments: &ARGUMENTS,
    options: &OPTIONS,
    about: "take rights on a till from a user",
    help: "
USER is 1 to 7. RIGHT is list, backup, restore, retire, or all for the four of them. Other rights of the user
stay. The reply tells what the user may do from now on; `rights` shows it for all. Only the owner, user 0, can
do this.
",
    run: |arguments| run(arguments, false),
};

static ARGUMENTS: [Argument; 4] =
    [FILE, TILL, Argument::needed("USER", Takes::Anything), Argument::several("RIGHT", Takes::Right)];

static OPTIONS: [Opt; 3] = [WITH, USER, WAIT];

/// A change that is asked for.
struct Asked<'a> {
    file: &'a Path,
    by: By,
    subject: u32,
    rights: Vec<Right>,
    given: bool,
}

fn run(arguments: &Arguments, given: bool) -> Result<Reply, Failure> {
    let disk = Disk::asked(arguments)?;
    let by = By { user: arguments.user()?, till: arguments.number(1)? };
    let asked = Asked { file: disk.file, by, subject: arguments.number(2)?, rights: named(arguments)?, given };
    let patience = Patience::asked(arguments)?;
    let targets = disk.targets()?;
    let mut change = Change::begin(&disk, &targets, &patience)?;
    let before = table::rights(&change.store, by.till, asked.subject);
    let after = asked.set(&mut change.store, before)?;
    if before != after {
        change.finish()?;
    }
    Ok(asked.reply(after))
}

/// The rights that the command line names.
fn named(arguments: &Arguments) -> Result<Vec<Right>, Failure> {
    let mut all = Vec::new();
    for word in arguments.words_from(3) {
        match word.to_str().and_then(rights::named) {
            Some(some) => all.extend(some),
            None => {
                let words = format!("RIGHT has to be list, backup, restore, retire or all, not `{}`", shown(word));
                return Err(arguments.wrong(&words));
            }
        }
    }
    Ok(all)
}

impl Asked<'_> {
    /// Sets what the user had before and what is given, or without what is taken.
    fn set(&self, store: &mut Store, before: Rights) -> Result<Rights, Failure> {
        let after = self.rights.iter().fold(before, |rights, &right| rights.with(right, self.given));
        let By { user, till } = self.by;
        let set = store.set_rights(user, self.subject, till, after);
        set.map_err(|refusal| self.refused(store, refusal)).map(|()| after)
    }

    fn refused(&self, store: &Store, refusal: Refusal) -> Failure {
        let choose = || "name a user from 1 to 7.".to_string();
        match (refusal, self.subject) {
            (Refusal::NoSuchTill, _) => Call::of_till(self.file, store, self.by, Right::List).refused(refusal),
            (Refusal::UnknownUser, OWNER) => {
                Failure::refused(refusal, "user 0 is the owner, who always may do all".into(), choose())
            }
            (Refusal::UnknownUser, subject @ 8..) => {
                Failure::refused(refusal, format!("there is no user {subject}, a store has users 0 to 7"), choose())
            }
            _ => advice::of_the_owner(refusal, self.file, self.by.user),
        }
    }

    fn reply(&self, after: Rights) -> Reply {
        let (till, subject) = (self.by.till, self.subject);
        let text = format!("till {till}: user {subject} may {}\n", rights::shown(after));
        let fields = Json::object([
            ("file", self.file.into()),
            ("till", till.into()),
            ("user", subject.into()),
            ("rights", each(after)),
        ]);
        Reply::done(text, fields)
    }
}

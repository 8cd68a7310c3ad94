//! `rights`: what each user may do on each till.

use crate::arguments::Arguments;
use crate::json::Json;
use crate::reply::Reply;
use crate::rights::{letters, word};
use crate::store::Store;
use crate::syntax::{Command, FILE};
use crate::{storefile, table, Failure};
use lurdempos::{Right, Rights, USERS};

pub static COMMAND: Command = Command {
    name: "rights",
    arguments: &[FILE],
    options: &[],
    about: "show what each user may do on each till",
    help: "
A row for each till and a column for each user from 1 to 7. User 0, the owner, may do all and sets what the
others may do, with `grant` and `revoke`; at first that is nothing. The store refuses a call that names a user
who has not the right for it. It does not hide the file: whoever can read that can read all of it.
",
    run,
};

fn run(arguments: &Arguments) -> Result<Reply, Failure> {
    let file = arguments.store()?;
    let store = storefile::read(file)?;
    let tills = Json::list(0..store.capacities().tills, |till| fields(&store, till));
    Ok(Reply::text(text(&store), Json::object([("file", file.into()), ("tills", tills)])))
}

fn text(store: &Store) -> String {
    let users: String = (1..USERS).map(|user| format!("  user {user}")).collect();
    let mut text = format!("till{users}\n");
    for till in 0..store.capacities().tills {
        let rights: String =
            (1..USERS).map(|user| format!("    {}", letters(table::rights(store, till, user)))).collect();
        text.push_str(&format!("{till:>4}{rights}\n"));
    }
    text + "l list, b backup, r restore, t retire; user 0, the owner, may do all\n"
}

fn fields(store: &Store, till: u32) -> Json {
    let user = |user: u32| Json::object([("user", user.into()), ("rights", each(table::rights(store, till, user)))]);
    Json::object([("till", till.into()), ("users", Json::list(1..USERS, user))])
}

/// The four rights for programs.
pub(super) fn each(rights: Rights) -> Json {
    Json::object(Right::ALL.map(|right| (word(right), rights.has(right).into())))
}

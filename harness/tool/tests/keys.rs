//! Keys for staff: calls in a user's name, what each user may do, and who may change it.

mod common;
use common::{file_of, kept_file, letters, refused, Bench};
use lurdempos::{Capacities, Right, Rights, Store, OWNER, USERS};

/// The store `s`, both of whose tills have versions, with what the tills sent.
fn shop(name: &str) -> Bench {
    let bench = Bench::with_store(name);
    [("a", "ABCDEFGH"), ("b", "ABCDEFGZ")].iter().for_each(|(name, text)| bench.write(name, letters(text)));
    ["backup s 0 a --day 5", "backup s 0 b --day 6", "backup s 1 a"].iter().for_each(|line| {
        bench.run(line).accepted();
    });
    bench
}

/// Every command that makes calls on till 0, with the rights that it takes.
const COMMANDS: [(&str, &[&str]); 16] = [
    ("list s 0", &["list"]),
    ("backup s 0 a", &["backup"]),
    ("backup s 0 a --day 9", &["backup"]),
    ("backup s 0 b --unless-same", &["list", "backup", "restore"]),
    ("backup s 0 a --dry-run", &["backup"]),
    ("import s 0 stream", &["backup"]),
    ("offer s 0 prints -", &["backup"]),
    ("backup-sent s 0 message", &["backup"]),
    ("restore s 0 1 -", &["restore"]),
    ("restore s 0 newest -", &["list", "restore"]),
    ("restore s 0 --day 5 -", &["list", "restore"]),
    ("verify s 0 1 a", &["restore"]),
    ("diff s 0 1 1", &["restore"]),
    ("export s 0 1 -", &["restore"]),
    ("retire s 0 1", &["retire"]),
    ("retire s 0 --keep 1", &["list", "retire"]),
];

/// Each command is accepted with the rights that it takes and no others, and refused if one of them is missing; so it is
/// with another store on the disk, on which the user has none.
#[test]
fn every_command() {
    let bench = shop("keys-commands");
    bench.run("init other --tills 1 --cells 1 --blocks 1").accepted();
    for line in ["export s 0 1 stream", "fingerprints s a prints", "offer s 0 prints marks", "sent s a marks message"] {
        bench.run(line).accepted();
    }
    let before = bench.read("s");
    let both = |(line, rights)| ["", " --with other"].map(|with| (format!("{line}{with}"), rights));
    for (line, rights) in COMMANDS.into_iter().flat_map(both) {
        bench.write("s", &before);
        bench.run(&format!("grant s 0 3 {}", rights.join(" "))).accepted();
        let granted = bench.read("s");
        for missing in rights {
            bench.run(&format!("revoke s 0 3 {missing}")).accepted();
            let advice = format!("`lurdempos grant s 0 3 {missing}`");
            // With --unless-same nothing is kept, so that the right to keep it is not asked for.
            if !(line.contains("--unless-same") && *missing == "backup") {
                refused(&bench, &format!("{line} --user 3"), 23, &["user 3 has not the right", &advice]);
            }
            bench.write("s", &granted);
        }
        bench.run(&format!("{line} --user=3")).accepted();
        bench.write("s", &granted);
        refused(&bench, &format!("{line} --user 4"), 23, &["user 4 has not the right", "on till 0"]);
        refused(&bench, &format!("{line} --user 8"), 22, &["there is no user 8, a store has users 0 to 7"]);
        bench.run(&format!("{line} --user 0")).accepted();
    }
    bench.run("list s --user x").fails(2, &["--user has to be a number in plain digits, not `x`"]);
    bench.run("init t --user 0").fails(2, &["unknown option --user"]);
}

/// Rotating takes three rights, and nothing is done if one is missing.
#[test]
fn rotating() {
    let bench = shop("keys-rotating");
    ["backup s 0 a", "backup s 0 a", "grant s 0 3 all"].iter().for_each(|line| {
        bench.run(line).accepted();
    });
    let granted = bench.read("s");
    for missing in ["list", "backup", "retire"] {
        bench.run(&format!("revoke s 0 3 {missing}")).accepted();
        refused(&bench, "backup s 0 a --rotate --user 3", 23, &[&format!("grant s 0 3 {missing}`")]);
        bench.write("s", &granted);
    }
    bench.run("backup s 0 a --rotate --user 3").accepted().says("version 1 retired").says("version 5 (day 6) kept");
}

/// What is the owner's, whatever rights another user has.
#[test]
fn of_the_owner() {
    let bench = shop("keys-owner");
    ["grant s 0 3 all", "grant s 1 3 all"].iter().for_each(|line| {
        bench.run(line).accepted();
    });
    let words = &["this is for the owner, user 0, and not for user 3"];
    for line in ["tally s", "bill s --price 25", "grow s t", "grant s 0 4 list", "revoke s 0 3 list"] {
        refused(&bench, &format!("{line} --user 3"), 23, words);
        refused(&bench, &format!("{line} --user 9"), 22, &["there is no user 9"]);
    }
    bench.run("tally s --user 0").accepted();
    // The cells of a dry run are the tally's.
    let tried = bench.run("backup s 0 a --dry-run --user 3").accepted().out.clone();
    assert!(
        tried.ends_with("; the cells in use are told to the owner alone\n") && !tried.contains("before"),
        "{tried}"
    );
    assert!(bench.run("backup s 0 a --dry-run --user 3 --json").accepted().out.contains("\"cells\": null"));
}

#[test]
fn granted_and_revoked() {
    let bench = shop("keys-granted");
    let said = |line: &str| bench.run(line).accepted().out.clone();
    assert_eq!(said("grant s 0 3 list"), "till 0: user 3 may list\n");
    assert_eq!(said("grant s 0 3 retire backup list"), "till 0: user 3 may list, backup, retire\n");
    assert_eq!(said("grant s 1 7 all"), "till 1: user 7 may list, backup, restore, retire\n");
    assert_eq!(said("revoke s 0 3 backup restore"), "till 0: user 3 may list, retire\n");
    let table = "till  user 1  user 2  user 3  user 4  user 5  user 6  user 7\n   \
                 0    ----    ----    l--t    ----    ----    ----    ----\n   \
                 1    ----    ----    ----    ----    ----    ----    lbrt\n\
                 l list, b backup, r restore, t retire; user 0, the owner, may do all\n";
    assert_eq!(said("rights s"), table);
    let three = r#"{"user": 3, "rights": {"list": true, "backup": false, "restore": false, "retire": true}}"#;
    assert!(said("rights s --json").contains(three));
    let json = r#"{"file": "s", "till": 0, "user": 3, "rights": {"list": false, "backup": false, "restore": false, "retire": false}}"#;
    assert_eq!(said("revoke s 0 3 all --json"), format!("{json}\n"));
    assert_eq!(said("revoke s 0 3 all"), "till 0: user 3 may do nothing\n");

    // The file is the one that the library leaves.
    let mut store = Store::new(Capacities::new(2, 4, 16, 8, 64)).unwrap();
    for (till, day, text) in [(0, 5, "ABCDEFGH"), (0, 6, "ABCDEFGZ"), (1, 0, "ABCDEFGH")] {
        store.backup_dated(OWNER, till, day, &letters(text)).unwrap();
    }
    store.set_rights(OWNER, 7, 1, Rights::ALL).unwrap();
    assert_eq!(bench.read("s"), file_of(store.pool(), store.table()));
}

#[test]
fn wrong_changes() {
    let bench = shop("keys-wrong");
    for command in ["grant", "revoke"] {
        refused(&bench, &format!("{command} s 2 3 list"), 3, &["there is no till 2"]);
        refused(&bench, &format!("{command} s 0 0 list"), 22, &["user 0 is the owner", "name a user from 1 to 7."]);
        refused(&bench, &format!("{command} s 0 8 all"), 22, &["there is no user 8", "name a user from 1 to 7."]);
        refused(&bench, &format!("{command} s 9 9 all --user 9"), 3, &["there is no till 9"]);
        bench.run(&format!("{command} s 0 3")).fails(2, &["RIGHT is missing", "USER RIGHT..."]);
        bench.run(&format!("{command} s 0 3 write")).fails(2, &["RIGHT has to be list, backup", "not `write`"]);
        bench.run(&format!("{command} s 0 x list")).fails(2, &["USER has to be a number"]);
    }
}

/// Without a till those are listed on which the user may; none at all is a refusal.
#[test]
fn listed_for_a_user() {
    let bench = shop("keys-listed");
    refused(&bench, "list s --user 3", 23, &["user 3 has not the right list on till 0"]);
    bench.run("grant s 1 3 list").accepted();
    let listed = bench.run("list s --user 3").accepted().out.clone();
    assert!(listed.starts_with("till 1: version 1\n") && !listed.contains("till 0"), "{listed}");
    refused(&bench, "list s 0 --user 3", 23, &["on till 0"]);
    assert_eq!(bench.run("list s 1 --user 3").accepted().out, listed);
    refused(&bench, "list s --user 8", 22, &["there is no user 8"]);
    // The same of a folder of images.
    bench.run("grant s 1 3 restore").accepted();
    refused(&bench, "export-all s out --user 3", 23, &["user 3 has not the right restore on till 0"]);
    bench.run("retire s 0 --keep 0").accepted();
    bench.run("export-all s out --user 3").accepted().says("1 version written");
}

/// In a closing each image is refused by itself; the others are kept.
#[test]
fn in_a_closing() {
    let bench = shop("keys-closing");
    bench.run("grant s 1 3 backup").accepted();
    let run = bench.run("closing s 0=a 1=b 2=a --user 3");
    assert!(run.out.starts_with("till 0: refused, 23: a missing right\ntill 1: version 2 kept"), "{}", run.out);
    for words in ["till 0, a: refused, 23: ", "`lurdempos grant s 0 3 backup`", "till 2, a: refused, 3: "] {
        assert!(run.status == Some(1) && run.err.contains(words), "{words}: {}", run.err);
    }
    let before = bench.read("s");
    let run = bench.run("closing s 0=a --user 8");
    assert!(
        run.err.contains("refused, 22: ") && run.err.contains("no image is kept; nothing was altered"),
        "{}",
        run.err
    );
    assert_eq!((run.status, bench.read("s")), (Some(1), before));
}

/// Rights go along into a larger store, and stay with all that is done to a till.
#[test]
fn carried_along() {
    let bench = shop("keys-carried");
    for (till, user, rights) in [(0, 1, "list"), (0, 7, "all"), (1, 2, "restore retire")] {
        bench.run(&format!("grant s {till} {user} {rights}")).accepted();
    }
    let shown = bench.run("rights s").accepted().out.clone();
    for line in ["backup s 0 b", "closing s 0=a 1=b", "retire s 0 --keep 0", "retire s 1 1", "grow s t --tills 2"] {
        bench.run(line).accepted();
        assert_eq!(bench.run("rights s").accepted().out, shown, "{line}");
    }
    assert_eq!(bench.run("rights t").accepted().out, shown);
    bench.run("grow t u --tills 3").accepted();
    assert!(bench.run("rights u").accepted().out.starts_with(shown.rsplit_once("\nl list").unwrap().0));
    bench.run("restore t 1 2 - --user 2").accepted();
}

/// Files that the tool made before there were users have no rights, and are used on.
#[test]
fn files_from_before() {
    for (name, till, version) in [("form1-versions.lur", 2, 1), ("before-blanks.lur", 0, 1)] {
        let bench = Bench::new(&format!("keys-{name}"));
        let old = kept_file(name);
        bench.write("s", &old);
        let rights = bench.run("rights s").accepted().out.clone();
        let rows = rights.lines().filter(|line| line.starts_with(' '));
        assert!(rows.clone().count() > 1 && rows.clone().all(|row| !row.contains(['l', 'b', 'r', 't'])), "{rights}");
        for user in 1..USERS {
            refused(&bench, &format!("restore s {till} {version} - --user {user}"), 23, &["has not the right restore"]);
        }
        let image = bench.run(&format!("restore s {till} {version} -")).accepted().bytes.clone();
        bench.run(&format!("grant s {till} 5 restore")).accepted();
        assert_eq!(bench.run(&format!("restore s {till} {version} - --user 5")).accepted().bytes, image);
        bench.run(&format!("list s {till} --user 5")).fails(1, &["refused, 23: "]);
        bench.run(&format!("revoke s {till} 5 all")).accepted();
    }
}

/// A word of rights that no store has is damage: the file is not a sound store, and no checksum tells of it.
#[test]
fn no_sound_rights() {
    let bench = shop("keys-unsound");
    let mut store = Store::new(Capacities::new(2, 4, 16, 8, 64)).unwrap();
    store.backup(OWNER, 0, &letters("A")).unwrap();
    store.set_rights(OWNER, 7, 0, Rights::only(Right::Retire)).unwrap();
    let (pool, mut table) = store.into_parts();
    assert_eq!(table[10], 1 << 27);
    bench.write("s", file_of(&pool, &table));
    bench.run("check s").accepted();
    table[10] = 1 << 28;
    bench.write("s", file_of(&pool, &table));
    for line in ["check s", "rights s", "list s --user 99", "grant s 9 9 all"] {
        bench.run(line).fails(1, &["refused, 10: "]);
    }
}

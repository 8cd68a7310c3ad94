//! Several stores on one disk: a command on one of them counts the cells of all, and changes that one alone.

mod common;
use common::{draft_of, file_of, letters, refused, Bench, Random, Run};
use lurdempos::{Capacities, Chain, Refusal, Store, NO_LIMIT, OWNER};
use std::fs::{self, File};
use std::os::unix::fs::MetadataExt;
use std::thread;
use std::time::{Duration, Instant};

/// The stores `s`, `t` and `u`, of which `t` has 8 cells occupied and `u` 3, and some images.
fn disk(name: &str) -> Bench {
    let bench = Bench::with_store(name);
    bench.run("init t --tills 1 --versions 4 --blocks 16 --records 8 --cells 64").accepted();
    bench.run("init u --tills 3 --versions 2 --blocks 16 --records 5 --cells 40").accepted();
    for (name, text) in [("a", "ABCDEFGH"), ("b", "ABCDEFGZ"), ("c", "xyz"), ("same", "ABCDEFGH")] {
        bench.write(name, letters(text));
    }
    bench.run("backup t 0 a").accepted();
    bench.run("backup u 2 c").accepted();
    bench
}

/// What a file is: which one, its times, and its bytes.
fn state(bench: &Bench, name: &str) -> ([u64; 5], Vec<u8>) {
    let found = fs::metadata(bench.path(name)).unwrap();
    let times = [found.mtime(), found.mtime_nsec(), found.ctime(), found.ctime_nsec()].map(|time| time as u64);
    ([found.ino(), times[0], times[1], times[2], times[3]], bench.read(name))
}

/// Cells occupied in all three.
fn occupied(bench: &Bench) -> u32 {
    let shown = bench.run("chain s t u").accepted().out.clone();
    shown.lines().last().unwrap().split_whitespace().next().unwrap().parse().unwrap()
}

#[test]
fn just_at_the_limit_and_one_below() {
    let bench = disk("chain-limit");
    let [t, u] = ["t", "u"].map(|name| state(&bench, name));
    // 11 are occupied, and the image takes 8.
    let here = "with this image the 3 stores together would occupy more than the 18 cells of --limit; \
                before this run they occupied 11.\n";
    let advice = "What to do: retire old versions of any of them, which frees cells, or give a higher --limit; \
                  `--dry-run` without --limit tells how many it takes.\n";
    for line in ["backup s 0 a", "backup s 0 a --day 7", "backup s 0 a --dry-run", "backup s 0 a --rotate"] {
        refused(&bench, &format!("{line} --with t --with u --limit 18"), 21, &[here, advice]);
    }
    refused(&bench, "backup s 0 a --with t --with u --limit 0", 21, &["more than the 0 cells of --limit"]);
    let mut alone = bench.read("s");
    bench.write("alone", &alone);
    bench.run("backup alone 0 a").accepted();
    alone = bench.read("alone");
    let kept = bench.run("backup s 0 a --with t --with=u --limit=19");
    assert_eq!(kept.accepted().out, "till 0: version 1 kept, 512 bytes\n");
    assert!(bench.read("s") == alone, "another file than without the others");
    assert_eq!((state(&bench, "t"), state(&bench, "u")), (t, u), "the others stay the very same files");
    // No more than that; what is there already takes nothing.
    refused(&bench, "backup s 1 c --with t --with u --limit 19", 21, &["before this run they occupied 19"]);
    bench.run("backup s 1 same --with u --with t --limit 19").accepted().says("till 1: version 1 kept");
    bench.run("backup s 1 c --with u --with t").accepted().says("till 1: version 2 kept");
    assert_eq!((occupied(&bench), bench.drafts()), (22, vec![]));
}

/// What counts are the cells at the end: those that the backup frees make room for it.
#[test]
fn freed_cells_make_room() {
    let bench = disk("chain-freed");
    bench.run("backup s 0 a --with t --with u --limit 19").accepted();
    // Seven blocks of the version before are borrowed from the new one, and their cells are freed: 8 + 8 - 7 = 9.
    refused(&bench, "backup s 0 b --with t --with u --limit 19", 21, &["more than the 19 cells"]);
    let tried = bench.run("backup s 0 b --with t --with u --dry-run").accepted().out.clone();
    let told = "till 0: version 2 would be kept, 512 bytes; cells 8 before, 9 after, of 64; the 3 stores together 19 before, 20 after\n";
    assert_eq!(tried, told);
    bench.run("backup s 0 b --with t --with u --limit 20").accepted();
    assert_eq!(occupied(&bench), 20);
    // The oldest version goes in the same write, and its cell counts no longer.
    bench.run("backup s 0 b").accepted();
    bench.run("backup s 0 b").accepted();
    refused(&bench, "backup s 0 b --with t --with u --limit 18 --rotate", 21, &["before this run they occupied 20"]);
    let rotated = bench.run("backup s 0 b --with t --with u --limit 19 --rotate");
    rotated.accepted().says("version 1 retired").says("version 5 kept");
    assert_eq!(occupied(&bench), 19);
}

#[test]
fn a_retire_is_above_every_limit() {
    let bench = disk("chain-retire");
    bench.run("backup s 0 a").accepted();
    bench.run("backup s 0 b").accepted();
    refused(
        &bench,
        "backup s 1 c --with t --limit 3",
        21,
        &["the 2 stores together", "before this run they occupied 17"],
    );
    let [t, u] = ["t", "u"].map(|name| state(&bench, name));
    bench.run("retire s 0 1 --with t --limit 3").fails(2, &["unknown option --limit"]);
    bench.run("retire s 0 1 --with t --with u").accepted().says("version 1 retired, 512 bytes");
    bench
        .run("retire s 0 --keep 0 --with t --dry-run")
        .accepted()
        .says("; cells 8 before, 0 after, of 64; the 2 stores together 16");
    bench.run("retire s 0 --keep 0 --with u").accepted().says("version 2 retired, 512 bytes");
    assert_eq!((state(&bench, "t"), state(&bench, "u"), occupied(&bench)), (t, u, 11));
}

/// A limit alone: a chain of one.
#[test]
fn a_store_by_itself() {
    let bench = disk("chain-one");
    bench.run("backup s 0 a --limit 8").accepted();
    let words = [
        "with this image the store would occupy more than the 8 cells of --limit; before this run it occupied 8",
        "What to do: retire old versions, which frees cells, or give a higher --limit; ",
    ];
    refused(&bench, "backup s 0 c --limit 8", 21, &words);
    refused(&bench, "backup s 0 c --limit 1", 21, &["more than the 1 cell of --limit"]);
    bench.run("backup s 0 c --limit 4294967295").accepted();
    let tried = bench.run("backup s 0 c --limit 11 --dry-run").accepted().out.clone();
    assert!(tried.ends_with("; cells 11 before, 11 after, of 64\n"), "{tried}");
}

/// 21 comes after all others.
#[test]
fn other_refusals_first() {
    let bench = disk("chain-order");
    bench.run("init cells --tills 1 --versions 2 --blocks 8 --records 8 --cells 9");
    bench.fed("backup cells 0 -", &letters("AB")).accepted();
    bench.write("wide", letters("CDEFGHIJ"));
    let words = ["does not fit beside the others into the store's 9 cells"];
    refused(&bench, "backup cells 0 wide --with t --limit 0", 16, &words);
    bench.run("init records --tills 1 --blocks 8 --records 1 --cells 64").accepted();
    bench.fed("backup records 0 -", &letters("AB")).accepted();
    refused(&bench, "backup records 0 wide --with t --limit 0", 14, &["the store's 1 segment record"]);
    bench.write("empty", "");
    refused(&bench, "backup s 0 empty --with t --limit 0", 4, &["the image has 0 bytes"]);
    refused(&bench, "backup s 2 a --with t --limit 0", 3, &["there is no till 2, this store has tills 0 to 1"]);
    refused(&bench, "backup s 0 a --with t --limit 0 --user 8", 22, &["there is no user 8"]);
    refused(&bench, "backup s 0 a --with t --limit 0 --user 3", 23, &["user 3 has not the right backup on till 0"]);
    bench.run("backup s 0 a --day 7").accepted();
    refused(&bench, "backup s 0 a --day 6 --with t --limit 0", 28, &["day 6 is before day 7"]);
    (0..3).for_each(|_| assert_eq!(bench.run("backup s 0 a").status, Some(0)));
    refused(&bench, "backup s 0 c --with t --limit 0", 11, &["till 0 holds 4 already"]);
}

/// Of a closing each image is held against the limit by itself, with the cells that are occupied then.
#[test]
fn a_closing() {
    let bench = disk("chain-closing");
    let [t, u] = ["t", "u"].map(|name| state(&bench, name));
    bench.write("alone", bench.read("s"));
    bench.run("closing alone 0=a 1=same").accepted();
    let run = bench.run("closing s 0=a 0=c 1=same 3=a --with t --with u --limit 19");
    let over = "refused, 21: a backup after which the chain would have more cells occupied than its limit";
    let said = format!(
        "till 0: version 1 kept, 512 bytes\ntill 0: {over}\ntill 1: version 1 kept, 512 bytes\n\
         till 3: refused, 3: till number not below the tills\n"
    );
    assert_eq!((run.status, run.out.as_str()), (Some(1), said.as_str()), "{run:?}");
    for words in [
        &format!("lurdempos: till 0, c: {over}\nHere: with this image the 3 stores together would occupy more than the \
                  19 cells of --limit; before this run they occupied 11.\nWhat to do: retire old versions of any of them"),
        "lurdempos: s: 2 of 4 images are kept\nWhat to do: send the others again by themselves; ",
    ] {
        assert!(run.err.contains(words), "{words:?} is not in {run:?}");
    }
    assert!(bench.read("s") == bench.read("alone"), "another file than that of the images kept");
    assert_eq!((state(&bench, "t"), state(&bench, "u")), (t, u));
    let tried = bench.run("closing s 0=c 1=same --with t --with u --limit 19 --dry-run --json");
    assert_eq!(tried.status, Some(1), "{tried:?}");
    tried.says("\"version\": null, \"refusal\": 21}").says("\"version\": 2, \"refusal\": null}], \"kept\": 1,").says(
        "\"cells\": {\"before\": 8, \"after\": 8, \"of\": 64, \
         \"chain\": {\"stores\": 3, \"before\": 19, \"after\": 19, \"limit\": 19}}}",
    );
    // If all are refused the file is not written.
    let before = state(&bench, "s");
    let run = bench.run("closing s 0=c 1=c --with t --limit 1");
    assert_eq!(run.status, Some(1), "{run:?}");
    assert!(run.err.ends_with("lurdempos: s: no image is kept; nothing was altered\n"), "{run:?}");
    assert_eq!(state(&bench, "s"), before);
}

/// The other commands that back up.
#[test]
fn from_streams_and_messages() {
    let bench = disk("chain-others");
    for line in
        ["export t 0 1 stream", "fingerprints s a prints", "offer s 0 prints marks --with t", "sent s a marks message"]
    {
        bench.run(line).accepted();
    }
    // What other stores have is not asked for: the message has it all.
    assert_eq!(bench.read("marks"), [0]);
    for line in ["import s 0 stream", "import s 0 stream --day 7", "backup-sent s 0 message"] {
        refused(&bench, &format!("{line} --with t --with u --limit 18"), 21, &["before this run they occupied 11"]);
        let before = bench.read("s");
        bench
            .run(&format!("{line} --with t --with u --limit 19 --dry-run"))
            .accepted()
            .says("the 3 stores together 11 before, 19");
        bench.run(&format!("{line} --with t --with u --limit 19")).accepted().says("kept, 512 bytes");
        bench.write("s", before);
    }
    for line in [
        "restore t 0 1 x",
        "list s",
        "tally s",
        "grant s 0 3 all",
        "offer s 0 prints marks",
        "export t 0 1 x",
        "chain s",
    ] {
        bench.run(&format!("{line} --limit 9")).fails(2, &["unknown option --limit"]);
    }
    for line in [
        "init n",
        "check s",
        "map s",
        "rights s",
        "fingerprints s a x",
        "sent s a marks x",
        "salvage s x",
        "grow s x",
        "chain s",
    ] {
        bench.run(&format!("{line} --with t")).fails(2, &["unknown option --with"]);
    }
}

/// Readers answer the same with others beside them, and the owner's commands too.
#[test]
fn readers() {
    let bench = disk("chain-readers");
    bench.run("backup s 0 a --day 5").accepted();
    bench.run("backup s 0 b --day 6").accepted();
    bench.run("fingerprints s b prints").accepted();
    let lines = ["list s", "list s 0 --json", "tally s", "tally s --json", "bill s --price 25", "restore s 0 1 -"];
    let more = ["restore s 0 newest -", "restore s 0 --day 5 -", "verify s 0 2 b", "verify s 0 2 a", "diff s 0 1 2"];
    let most = ["export s 0 1 -", "offer s 0 prints -", "restore s 0 7 -", "list s 2", "bill s --price 10001"];
    let files = ["s", "t", "u"].map(|name| state(&bench, name));
    for line in lines.into_iter().chain(more).chain(most) {
        let (alone, with) = (bench.run(line), bench.run(&format!("{line} --with t --with u")));
        assert_eq!((alone.status, &alone.bytes, &alone.err), (with.status, &with.bytes, &with.err), "{line}");
    }
    bench.run("export-all s one").accepted();
    bench.run("export-all s two --with t").accepted();
    for name in ["till-0-version-1.img", "till-0-version-2.img"] {
        assert_eq!(bench.read(&format!("one/{name}")), bench.read(&format!("two/{name}")));
    }
    assert_eq!(["s", "t", "u"].map(|name| state(&bench, name)), files);
    bench.run("grant s 0 3 list --with t --with u").accepted().says("till 0: user 3 may list");
    bench.run("revoke s 0 3 list --with t").accepted().says("till 0: user 3 may do nothing");
    assert_eq!(["t", "u"].map(|name| state(&bench, name))[..], files[1..]);
}

/// A file among the others that is no sound store is named, and nothing is done.
#[test]
fn unsound_others() {
    let bench = disk("chain-unsound");
    let (mut pool, table) = Store::new(Capacities::new(1, 4, 16, 8, 64)).unwrap().into_parts();
    pool[64 * 60] = 1; // a free cell that is not zero
    bench.write("odd", file_of(&pool, &table));
    let lines = [
        "backup s 0 a --limit 50",
        "backup s 0 a --limit 0 --dry-run",
        "closing s 0=a",
        "retire s 0 9",
        "list s",
        "tally s",
    ];
    for line in
        lines.into_iter().chain(["restore t 0 1 out", "grant s 0 3 all", "bill s --price 10001", "offer s 0 a -"])
    {
        let words = ["odd has been damaged or was never whole; nothing was altered", "lurdempos salvage odd FOLDER"];
        refused(&bench, &format!("{line} --with u --with odd"), 10, &words);
    }
    refused(&bench, "chain s odd t", 10, &["odd has been damaged"]);
    refused(&bench, "backup odd 0 a --with s", 10, &["odd has been damaged"]);
    let mut bytes = bench.read("t");
    bytes[40] ^= 1;
    bench.write("flipped", &bytes);
    bench.write("cut", &bytes[..1000]);
    let before = bench.read("s");
    for (other, words) in [
        ("flipped", "flipped: damaged: the checksum of bytes 32 to 543 does not hold; nothing was altered"),
        ("cut", "cut: its lengths do not fit"),
        ("a", "a: not a store's file"),
        ("missing", "missing: cannot be read"),
        (".", ".: not a regular file"),
    ] {
        for line in ["backup s 0 a --limit 50", "list s", "backup s 0 a --dry-run"] {
            bench.run(&format!("{line} --with t --with {other}")).fails(3, &[words]);
        }
        bench.run(&format!("chain t {other}")).fails(3, &[words]);
    }
    // The store itself comes first.
    bench.run("backup cut 0 a --with flipped").fails(3, &["cut: its lengths do not fit"]);
    bench.run("list missing --with gone").fails(3, &["missing: cannot be read"]);
    assert_eq!((bench.read("s"), bench.drafts()), (before, vec![]));
}

/// A store that is named twice, whatever it is called, would be counted twice.
#[test]
fn named_twice() {
    let bench = disk("chain-twice");
    std::os::unix::fs::symlink("t", bench.path("link")).unwrap();
    std::os::unix::fs::symlink("s", bench.path("own")).unwrap();
    fs::hard_link(bench.path("t"), bench.path("hard")).unwrap();
    fs::create_dir(bench.path("folder")).unwrap();
    let before = bench.read("s");
    for (others, words) in [
        ("--with s", "s is named twice"),
        ("--with t --with t", "t is named twice"),
        ("--with ./s", "s and ./s are one file"),
        ("--with own", "s and own are one file"),
        ("--with t --with u --with link", "t and link are one file"),
        ("--with t --with hard", "t and hard are one file"),
        ("--with folder/../t --with t", "folder/../t and t are one file"),
    ] {
        for line in ["backup s 0 a --limit 50", "list s", "closing s 0=a --dry-run"] {
            bench.run(&format!("{line} {others}")).fails(2, &[words, "; name each store once\nUsage: lurdempos "]);
        }
        bench.run(&format!("chain s {}", others.replace("--with ", ""))).fails(2, &[words]);
    }
    bench.run("backup own 0 a --with s").fails(2, &["own and s are one file"]);
    // Each by one name, links too.
    bench.run("backup own 0 a --with link --limit 16").accepted();
    assert!(bench.read("s") != before && fs::symlink_metadata(bench.path("own")).unwrap().is_symlink());
}

#[test]
fn eight_and_no_more() {
    let bench = disk("chain-eight");
    let names: Vec<String> = (0..8).map(|n| format!("n{n}")).collect();
    for name in &names {
        bench.run(&format!("init {name} --tills 1 --versions 1 --blocks 1 --records 1 --cells 1")).accepted();
        bench.fed(&format!("backup {name} 0 -"), &letters("A")).accepted();
    }
    let with = |others: &[String]| others.iter().map(|name| format!(" --with {name}")).collect::<String>();
    refused(
        &bench,
        &format!("backup s 0 a --limit 14{}", with(&names[..7])),
        21,
        &["the 8 stores together", "they occupied 7"],
    );
    bench.run(&format!("backup s 0 a --limit 15{}", with(&names[..7]))).accepted();
    let words = "9 stores are named; a disk has at most 8\nUsage: ";
    bench.run(&format!("backup s 0 a --limit 99{}", with(&names))).fails(2, &[words]);
    bench.run(&format!("list s{}", with(&names))).fails(2, &[words]);
    bench.run(&format!("chain s {}", names.join(" "))).fails(2, &[words]);
    bench.run(&format!("chain {}", names.join(" "))).accepted().says("      8        8        8        8  all\n");
}

#[test]
fn as_a_table_and_for_programs() {
    let bench = disk("chain-table");
    let table = "  cells       of  records       of  store\n      \
                       0       64        0        8  s\n      \
                       8       64        1        8  t\n      \
                       3       40        1        5  ./u\n     \
                      11      168        2       21  all\n";
    assert_eq!(bench.run("chain s t ./u").accepted().out, table);
    let json = "{\"stores\": [\n  \
                {\"file\": \"t\", \"cells\": {\"occupied\": 8, \"of\": 64}, \"records\": {\"in_use\": 1, \"of\": 8}},\n  \
                {\"file\": \"s\", \"cells\": {\"occupied\": 0, \"of\": 64}, \"records\": {\"in_use\": 0, \"of\": 8}}], \
                \"cells\": {\"occupied\": 8, \"of\": 128}, \"records\": {\"in_use\": 1, \"of\": 16}}\n";
    assert_eq!(bench.run("chain t s --json").accepted().out, json);
    bench
        .run("chain t")
        .accepted()
        .says("      8       64        1        8  t\n      8       64        1        8  all\n");
    assert_eq!(bench.run("chain s t u --quiet").accepted().out, "");
    for (line, name) in [("list s --with t >> t", "t"), ("chain s t 2>> s", "s"), ("list s --with t 2>> t", "t")] {
        let before = bench.read(name);
        let run = bench.shell(&format!("lurdempos {line}"));
        assert!(run.status == Some(2) && bench.read(name) == before, "{run:?}");
    }
}

#[test]
fn the_help_tells_it_all() {
    let bench = Bench::new("chain-help");
    let (with, limit) =
        ("  --with STORE         another store on the disk of FILE; up to 7", "  --limit CELLS        keep nothing if");
    let backing_up = ["backup", "import", "closing", "backup-sent"];
    let others = ["restore", "verify", "diff", "retire", "list", "tally", "bill", "export", "offer", "grant", "revoke"];
    for name in backing_up.into_iter().chain(others).chain(["export-all"]) {
        let help = bench.run(&format!("{name} --help")).accepted().out.clone();
        assert_eq!((help.contains(with), help.contains(limit)), (true, backing_up.contains(&name)), "{name}");
    }
    bench.run("backup --help").accepted().says("FILE alone is changed, and `chain` shows what each has.");
    bench.run("retire --help").accepted().says("so that there is no --limit here.");
    bench
        .run("chain --help")
        .accepted()
        .says("Usage: lurdempos chain FILE... [OPTIONS]\n")
        .says("one to eight of them");
}

/// An output must not be one of the stores, even if it may replace one.
#[test]
fn outputs_are_apart() {
    let bench = disk("chain-outputs");
    let before = bench.read("u");
    for line in ["restore t 0 1 u --force", "export t 0 1 ./u --force", "offer t 0 a u --force"] {
        bench
            .run(&format!("{line} --with s --with u"))
            .fails(2, &["u is another store on the disk; the output needs another"]);
    }
    assert_eq!(bench.read("u"), before);
    bench.run("restore t 0 1 t --with s --force").fails(2, &["t is the store itself"]);
}

/// Rights are those on the store that the command is about; what others hold, and the cells, are not told.
#[test]
fn users() {
    let bench = disk("chain-users");
    refused(&bench, "backup s 0 a --with t --user 3", 23, &["`lurdempos grant s 0 3 backup`"]);
    bench.run("grant s 0 3 backup").accepted();
    let over = "Here: with this image the 2 stores together would occupy more than the 15 cells of --limit.\n\
                What to do: retire old versions of any of them, which frees cells, or give a higher --limit.\n";
    refused(&bench, "backup s 0 a --with t --limit 15 --user 3", 21, &[over]);
    let tried = bench.run("backup s 0 a --with t --limit 16 --dry-run --user 3").accepted().out.clone();
    assert!(tried.ends_with("; the cells in use are told to the owner alone\n"), "{tried}");
    bench.run("backup s 0 a --with t --limit 16 --user 3").accepted();
    refused(&bench, "backup s 1 a --with t --limit 16 --user 3", 23, &["on till 1"]);
    bench.run("grant t 0 3 all").accepted();
    refused(&bench, "restore s 0 1 - --with t --user 3", 23, &["user 3 has not the right restore on till 0"]);
    bench.run("restore t 0 1 - --with s --user 3").accepted();
    refused(&bench, "chain s t --user 3", 23, &["this is for the owner, user 0, and not for user 3"]);
    refused(&bench, "chain s t --user 8", 22, &["there is no user 8"]);
    bench.run("chain s t --user 0").accepted();
    refused(&bench, "tally s --with t --user 3", 23, &["this is for the owner"]);
}

/// The others are held while one is changed: a run waits for whoever writes them, and is told of at the end.
#[test]
fn others_are_held() {
    let bench = disk("chain-held");
    let before = bench.read("s");
    let held = File::open(bench.path("t")).unwrap();
    held.lock().unwrap();
    let words = format!("t: being written by another process (process id {})", std::process::id());
    for line in ["backup s 0 a --limit 99", "closing s 0=a", "retire s 0 --keep 0", "grant s 0 3 all"] {
        bench.run(&format!("{line} --with u --with t --wait 0")).fails(4, &[&words, "nothing was altered"]);
    }
    // Who only reads takes no lock.
    for line in ["list s", "tally s", "backup s 0 a --limit 99 --dry-run"] {
        bench.run(&format!("{line} --with t")).accepted();
    }
    bench.run("chain s t u").accepted();
    assert_eq!((bench.read("s"), bench.drafts()), (before, vec![]));
    held.unlock().unwrap();
    // Who wants it to stay as it is can do so together with others; who wants to change it cannot.
    held.lock_shared().unwrap();
    bench.run("backup s 0 a --with t --with u --wait 0").accepted();
    bench.run("backup t 0 b --with s --wait 0").fails(4, &["t: being written by another process"]);
    held.unlock().unwrap();
    // A draft of the other, which a run that changes it begins with, keeps nobody from reading it.
    let draft = File::create(bench.path(&draft_of("t"))).unwrap();
    draft.lock().unwrap();
    bench.run("backup s 0 b --with t --wait 0").accepted();
    draft.unlock().unwrap();
    // It may be closed to changes by this user.
    let mut permissions = fs::metadata(bench.path("t")).unwrap().permissions();
    permissions.set_readonly(true);
    fs::set_permissions(bench.path("t"), permissions).unwrap();
    bench.run("backup s 1 a --with t").accepted();
}

/// A run that has waited for another store goes by what is then there.
#[test]
fn waits_for_others() {
    let bench = disk("chain-waits");
    bench.write("larger", bench.read("t"));
    bench.run("backup larger 0 b").accepted();
    let held = File::open(bench.path("t")).unwrap();
    held.lock().unwrap();
    let children = [16, 17].map(|limit| bench.spawn(&format!("backup s 0 a --with t --limit {limit}")));
    thread::sleep(Duration::from_millis(400));
    fs::rename(bench.path("larger"), bench.path("t")).unwrap();
    held.unlock().unwrap();
    let [over, kept] = children.map(|child| Run::of("backup", child.wait_with_output().unwrap()));
    over.fails(1, &["refused, 21: ", "before this run they occupied "]);
    kept.accepted();
    assert_eq!(occupied(&bench), 9 + 8 + 3);
}

/// Whether nobody has a file locked.
fn is_free(bench: &Bench, name: &str) -> bool {
    let file = File::open(bench.path(name)).unwrap();
    let free = file.try_lock().is_ok();
    free && file.unlock().is_ok()
}

/// Files are locked by where they lie, whichever is the one to be changed: else two runs could wait for each other.
#[test]
fn locked_in_one_order() {
    let bench = disk("chain-order-of-locks");
    for (line, has, has_not) in
        [("backup u 0 a --with t --with s", "s", "u"), ("backup s 0 a --with u --with t", "s", "u")]
    {
        let held = File::open(bench.path("t")).unwrap();
        held.lock().unwrap();
        let child = bench.spawn(line);
        let begin = Instant::now();
        while is_free(&bench, has) {
            assert!(begin.elapsed() < Duration::from_secs(8), "{line}");
            thread::sleep(Duration::from_millis(5));
        }
        // It waits for the second, and has not asked for the third.
        thread::sleep(Duration::from_millis(100));
        assert!(is_free(&bench, has_not) && !bench.path(&draft_of(has_not)).exists(), "{line}");
        held.unlock().unwrap();
        Run::of(line, child.wait_with_output().unwrap()).accepted();
    }
}

/// Runs on overlapping chains, each with another store as the one that it changes: none hangs, none is turned away, and
/// the limit holds for all together.
#[test]
fn many_at_once() {
    let bench = disk("chain-many");
    let mut lines = Vec::new();
    for n in 0..12 {
        bench.write(&format!("i{n}"), [75 + n; 192]);
        lines.push(format!("backup s {} i{n} --with t --with u --limit 14", n % 2));
        lines.push(format!("backup t 0 i{n} --with u --with s --limit 14 --rotate"));
        lines.push(format!("retire s {} --keep 1 --with u", n % 2));
    }
    let begin = Instant::now();
    let children: Vec<_> = lines.iter().map(|line| (line, bench.spawn(&format!("{line} --wait 60")))).collect();
    let (mut kept, mut over) = (0, 0);
    for (line, child) in children {
        let run = Run::of(line, child.wait_with_output().unwrap());
        match run.status {
            Some(0) => kept += u32::from(run.out.contains("kept")),
            Some(1) if run.err.contains("refused, 21: ") => over += 1,
            Some(1) if run.err.contains("refused, 11: ") => {}
            _ => panic!("{run:?}"),
        }
    }
    assert!(begin.elapsed() < Duration::from_secs(50), "{:?}", begin.elapsed());
    assert!(kept >= 1 && over >= 1, "{kept} kept, {over} over the limit");
    assert!((11..=14).contains(&occupied(&bench)) && bench.drafts().is_empty());
    ["s", "t", "u"].iter().for_each(|name| assert_eq!(bench.run(&format!("check {name}")).status, Some(0)));
}

/// Many random calls; each file is the library's store of a chain after each.
#[test]
fn as_the_library_has_it() {
    let bench = Bench::new("chain-random");
    let names = ["s", "t", "u"];
    let capacities = [(2, 4, 30, 90), (1, 5, 30, 90), (3, 3, 12, 60)]
        .map(|(tills, versions, records, cells)| Capacities::new(tills, versions, 16, records, cells));
    let mut chain = Chain::of(capacities.map(|capacities| Store::new(capacities).unwrap())).unwrap();
    for (name, store) in names.iter().zip(chain.clone().into_stores()) {
        bench.write(name, file_of(store.pool(), store.table()));
    }
    let mut random = Random(8);
    let (mut kept, mut over) = (0, 0);
    for _ in 0..200 {
        let (store, till) = (random.below(3), random.below(2) as u32);
        let (name, named) = (names[store], store as u32);
        let image: Vec<u8> = (0..1 + random.below(16)).flat_map(|_| [random.below(6) as u8; 64]).collect();
        let limit = [30 + random.below(40) as u32, NO_LIMIT][usize::from(random.below(4) == 0)];
        bench.write("image", &image);
        let version = chain.listing(named, OWNER, till).map_or(7, |listing| listing.oldest);
        let (line, answer) = match random.below(5) {
            0 | 1 => (format!("retire {name} {till} {version}"), chain.retire(named, OWNER, till, version)),
            2 => (
                format!("backup {name} {till} image --day 7 --limit {limit}"),
                chain.backup_dated(named, limit, OWNER, till, 7, &image),
            ),
            3 => (
                format!("closing {name} {till}=image --limit {limit}"),
                chain.backup_all(named, limit, OWNER, &[(till, &image)]).unwrap()[0],
            ),
            _ => {
                (format!("backup {name} {till} image --limit {limit}"), chain.backup(named, limit, OWNER, till, &image))
            }
        };
        let others: String =
            names.iter().filter(|other| **other != name).map(|other| format!(" --with {other}")).collect();
        let run = bench.run(&format!("{line}{others}"));
        match answer {
            Ok(_) => kept += u32::from(run.accepted().out.contains("kept")),
            Err(refusal) => {
                assert!(run.status == Some(1) && run.err.contains(&format!("{refusal}\n")), "{refusal}: {run:?}");
                over += u32::from(refusal == Refusal::OverLimit);
            }
        }
        for (name, number) in names.iter().zip(0..) {
            let (pool, table) = chain.part(number).unwrap();
            assert!(bench.read(name) == file_of(pool, table), "{name} after {line}");
        }
    }
    assert!(kept > 30 && over > 10, "{kept} kept, {over} over the limit");
}

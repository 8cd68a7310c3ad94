//! Versions by their day: kept with one, found by one, listed, carried along.

mod common;
use common::{file_of, kept_file, letters, refused, Bench};
use lurdempos::{Capacities, Store, OWNER};

/// The store `s`, whose till 0 has three versions, the first without a day, and some images.
fn shop(name: &str) -> Bench {
    let bench = Bench::with_store(name);
    for (name, text) in [("a", "ABCDEFGH"), ("b", "ABCDEFGZ"), ("c", "A.CDEFGZ"), ("d", "Q")] {
        bench.write(name, letters(text));
    }
    bench.run("backup s 0 a").accepted();
    bench.run("backup s 0 b --day 2026-03-28").accepted();
    bench.run("backup s 0 c --day 20543").accepted();
    bench
}

#[test]
fn kept_with_a_day() {
    let bench = shop("days-kept");
    let said = bench.run("backup s 0 d --day 2026-03-31");
    assert_eq!(said.accepted().out, "till 0: version 4 (day 20543, 2026-03-31) kept, 64 bytes\n");
    assert_eq!(bench.run("backup s 1 a --day=7").accepted().out, "till 1: version 1 (day 7) kept, 512 bytes\n");
    // Without a day it is the newest's, and says so; day 0 is none.
    assert_eq!(bench.run("backup s 1 b").accepted().out, "till 1: version 2 (day 7) kept, 512 bytes\n");
    bench.run("retire s 1 --keep 0").accepted();
    assert_eq!(bench.run("backup s 1 b").accepted().out, "till 1: version 3 kept, 512 bytes\n");
    assert_eq!(bench.run("backup s 1 b --day 0").accepted().out, "till 1: version 4 kept, 512 bytes\n");
    let last = bench.run("backup s 1 c --day 4294967295 --dry-run").accepted().out.clone();
    assert!(last.starts_with("till 1: version 5 (day 4294967295) would be kept, 512 bytes; cells "), "{last}");
    // The file is the one that the library leaves.
    let mut store = Store::new(Capacities::new(2, 4, 16, 8, 64)).unwrap();
    for (day, text) in [(0, "ABCDEFGH"), (20_540, "ABCDEFGZ"), (20_543, "A.CDEFGZ"), (20_543, "Q")] {
        store.backup_dated(OWNER, 0, day, &letters(text)).unwrap();
    }
    let (pool, table) = store.into_parts();
    let bench = shop("days-kept-again");
    bench.run("backup s 0 d --day 20543").accepted();
    assert_eq!(bench.read("s"), file_of(&pool, &table));
}

#[test]
fn found_by_a_day() {
    let bench = shop("days-found");
    let found = [
        ("0", "ABCDEFGH"),
        ("20539", "ABCDEFGH"),
        ("2026-03-28", "ABCDEFGZ"),
        ("2026-03-30", "ABCDEFGZ"),
        ("2026-03-31", "A.CDEFGZ"),
        ("9999-12-31", "A.CDEFGZ"),
        ("4294967295", "A.CDEFGZ"),
    ];
    for (day, text) in found {
        let same = bench.run(&format!("restore s 0 --day {day} -")).accepted().bytes == letters(text);
        assert!(same, "restore of day {day}");
        bench.run(&format!("export s 0 --day {day} stream")).accepted();
        bench.run("init other --tills 1 --blocks 16 --records 8 --cells 64").accepted();
        bench.run("import other 0 stream").accepted();
        assert!(bench.run("restore other 0 1 -").accepted().bytes == letters(text), "export of day {day}");
        std::fs::remove_file(bench.path("other")).unwrap();
    }
    let said = bench.run("restore s 0 out --day 2026-03-30").accepted().out.clone();
    assert_eq!(said, "till 0: version 2 (day 20540, 2026-03-28) restored to out, 512 bytes, longest chain 1\n");
    let said = bench.run("restore s 0 1 out").accepted().out.clone();
    assert_eq!(said, "till 0: version 1 restored to out, 512 bytes, longest chain 2\n");
    let said = bench.run("verify s 0 --day 2026-03-30 b").accepted().out.clone();
    assert_eq!(said, "till 0: version 2 (day 20540, 2026-03-28) and b are the same, 512 bytes\n");
    let said = bench.run("verify --day 2026-03-30 s 0 c");
    assert_eq!((said.status, said.err.as_str()), (Some(5), ""));
    said.says(
        "till 0: version 2 (day 20540, 2026-03-28) with 512 bytes and c with 512 bytes differ, first at byte 64\n",
    );
    bench.run("export s 0 --day 20543 -").accepted();
}

#[test]
fn listed() {
    let bench = shop("days-listed");
    bench.run("backup s 1 a").accepted();
    let list = "till 0: versions 1 to 3
  version   bytes  longest chain  direct  indirect  null  blank  day
        1     512              2       1         7     0      0  -
        2     512              1       1         7     0      0  20540 (2026-03-28)
        3     512              0       7         0     1      0  20543 (2026-03-31)
till 1: version 1
  version   bytes  longest chain  direct  indirect  null  blank
        1     512              0       8         0     0      0
";
    assert_eq!(bench.run("list s").accepted().out, list);
    bench.run("list s 0 --json").accepted().says("{\"version\": 1, \"day\": 0, \"date\": null, \"bytes\": 512,");
    bench.run("list s --json").says("{\"version\": 2, \"day\": 20540, \"date\": \"2026-03-28\", \"bytes\": 512,");
    // Numbers that are no date of our years stand alone.
    for (day, shown) in [(7, "  7\n"), (10_956, "  10956\n"), (10_957, "  10957 (2000-01-01)\n")] {
        bench.run(&format!("backup s 1 a --rotate --day {day}")).accepted();
        bench.run("list s 1").accepted().says(shown);
    }
    bench.run("backup s 1 a --rotate --day 20260331").accepted();
    bench.run("list s 1").accepted().says("  20260331\n");
    bench.run("list s 1 --json").accepted().says("\"day\": 20260331, \"date\": null");
}

#[test]
fn told_to_programs() {
    let bench = shop("days-json");
    let dated = "\"version\": 2, \"day\": 20540, \"date\": \"2026-03-28\", ";
    for line in ["restore s 0 --day 20542 out", "export s 0 --day 20542 out", "verify s 0 --day 20542 b"] {
        bench.run(&format!("{line} --json")).accepted().says(dated);
    }
    let kept = bench.run("backup s 0 d --day 2026-04-01 --json").accepted().out.clone();
    let said =
        "{\"file\": \"s\", \"till\": 0, \"version\": 4, \"day\": 20544, \"date\": \"2026-04-01\", \"bytes\": 64, \
                \"kept\": true, \"retired\": null, \"dry_run\": false, \"cells\": null}\n";
    assert_eq!(kept, said);
    bench.run("export-all s images --json").accepted().says(dated);
    let salvaged = bench.run("salvage s saved --json");
    salvaged.accepted().says(dated).says("\"version\": 1, \"day\": 0, \"date\": null, ");
}

#[test]
fn a_day_too_early_28() {
    let bench = shop("days-28");
    let words = [
        "refused, 28: a day before that of the till's newest held version\n",
        "Here: day 20542 (2026-03-30) is before day 20543 (2026-03-31) of version 3, the newest that till 0 holds.\n",
        "What to do: give day 20543 (2026-03-31) or a later one, or no --day at all, which takes that one; ",
        "if the day of version 3 itself is wrong, restore its image, retire it with `lurdempos retire s 0 3`, and keep",
    ];
    bench.run("export s 0 1 stream").accepted();
    for line in ["backup s 0 d --day 2026-03-30", "backup s 0 d --day 20542 --dry-run", "import s 0 stream --day 20542"]
    {
        refused(&bench, line, 28, &words);
    }
    refused(&bench, "backup s 0 d --day 0 --rotate", 28, &["Here: day 0 is before day 20543 (2026-03-31)"]);
    // A full till is said first; with --rotate the oldest would go, but nothing does if the day is refused.
    bench.run("backup s 0 d").accepted().says("version 4 (day 20543, 2026-03-31) kept");
    refused(&bench, "backup s 0 a --day 1", 11, &["till 0 holds 4 already"]);
    refused(&bench, "backup s 0 a --day 1 --rotate", 28, &["of version 4, the newest that till 0 holds"]);
    bench.run("list s 0").accepted().says("till 0: versions 1 to 4\n");
    let said = bench.run("backup s 0 a --day 20543 --rotate").accepted().out.clone();
    let kept = "till 0: version 1 retired, 512 bytes\ntill 0: version 5 (day 20543, 2026-03-31) kept, 512 bytes\n";
    assert_eq!(said, kept);
    // What is the same is not kept again, and keeps its day.
    let said = bench.run("backup s 0 a --day 20999 --unless-same").accepted().out.clone();
    assert_eq!(said, "till 0: the same as version 5 (day 20543, 2026-03-31), nothing kept\n");
    // The newest goes: its older neighbour has the day to beat.
    bench.run("retire s 0 --keep 4").accepted();
    (3..=5).rev().for_each(|version| assert_eq!(bench.run(&format!("retire s 0 {version}")).status, Some(0)));
    refused(&bench, "backup s 0 d --day 2026-03-27", 28, &["of version 2, the newest that till 0 holds"]);
    bench.run("backup s 0 d --day 2026-03-28").accepted().says("version 6 (day 20540, 2026-03-28) kept");
}

#[test]
fn no_version_so_early_29() {
    let bench = shop("days-29");
    bench.run("retire s 0 1").accepted();
    let words = [
        "refused, 29: no held version is as early as that day\n",
        "Here: the earliest that till 0 holds is version 2 of day 20540 (2026-03-28), which is after day 20539 (2026-03-27).\n",
        "What to do: give day 20540 (2026-03-28) or a later one: `lurdempos list s 0` shows them all; a retired version is in \
         older copies of the file only.\n",
    ];
    for line in ["restore s 0 --day 2026-03-27 out", "restore s 0 --day 20539 -", "export s 0 --day 20539 out"] {
        refused(&bench, line, 29, &words);
    }
    refused(&bench, "verify s 0 --day 0 a", 29, &["which is after day 0.\n"]);
    refused(&bench, "restore s 1 --day 20543 out", 29, &["till 1 holds no version", "`lurdempos list s`."]);
    bench.run("backup s 1 a --day 7").accepted();
    refused(&bench, "restore s 1 --day 6 out", 29, &["version 1 of day 7, which is after day 6", "shows them all.\n"]);
    refused(&bench, "restore s 2 --day 20543 out", 3, &["there is no till 2"]);
    assert!(!bench.names().contains(&"out".to_string()));
}

/// Wrong use, and what is said about it.
const WRONG: [(&str, &str); 17] = [
    ("backup s 0 a --day", "option --day needs a value, D"),
    ("backup s 0 a --day today", "--day has to be a number in plain digits, or a date as 2026-03-31, not `today`"),
    ("backup s 0 a --day 2026-3-31", "or a date as 2026-03-31, not `2026-3-31`"),
    ("backup s 0 a --day 31.03.2026", "or a date as 2026-03-31, not `31.03.2026`"),
    ("backup s 0 a --day 007", "or a date as 2026-03-31, not `007`"),
    ("backup s 0 a --day=-1", "or a date as 2026-03-31, not `-1`"),
    ("backup s 0 a --day=", "or a date as 2026-03-31, not ``"),
    ("backup s 0 a --day 10000-01-01", "or a date as 2026-03-31, not `10000-01-01`"),
    ("backup s 0 a --day 2026-02-29", "there is no date 2026-02-29"),
    ("backup s 0 a --day 1969-12-31", "1969-12-31 is before 1970-01-01, the first date of a day"),
    ("import s 0 a --day 4294967296", "--day is larger than any number here: 4294967296"),
    ("restore s 0 1 out --day 7", "VERSION and --day both say which version; give one of them"),
    ("export s 0 newest out --day 7", "VERSION and --day both say which version; give one of them"),
    ("restore s 0 --day 7", "OUTPUT is missing"),
    ("verify s 0 1 a b --day 7", "one argument too many: a"),
    ("closing s 0=a --day 7", "unknown option --day"),
    ("diff s 0 --day 7 1 2", "unknown option --day"),
];

#[test]
fn wrong_lines() {
    let bench = shop("days-wrong");
    let before = (bench.names(), bench.read("s"));
    for (line, words) in WRONG {
        bench.run(line).fails(2, &[words, "\nUsage: lurdempos "]);
    }
    assert_eq!((bench.names(), bench.read("s")), before);
}

/// A store goes into a larger one with its days, also such as no calls leave.
#[test]
fn grown_with_days() {
    let bench = shop("days-grown");
    bench.run("grow s larger --segment-blocks 4 --versions 9").accepted();
    let days = |file: &str| -> Vec<String> {
        let listed = bench.run(&format!("list {file}")).accepted().out.clone();
        listed.lines().map(|line| line.rsplit("   ").next().unwrap().to_string()).collect()
    };
    assert_eq!(days("larger"), days("s"));
    bench.run("list larger 0").accepted().says("  20540 (2026-03-28)\n").says("  20543 (2026-03-31)\n").says("  -\n");
    let mut store = Store::new(Capacities::new(2, 4, 16, 8, 64)).unwrap();
    [7, 8, 9].iter().for_each(|&day| assert!(store.backup_dated(OWNER, 1, day, &letters("AB")).is_ok()));
    let (pool, mut table) = store.into_parts();
    // The first slot of till 1, of 19 words.
    let at = 8 + (4 + 4 * 19) + 4 + 2;
    assert_eq!((table[at], table[at + 19], table[at + 38]), (7, 8, 9));
    (table[at], table[at + 19]) = (u32::MAX, 5);
    bench.write("falling", file_of(&pool, &table));
    bench.run("check falling").accepted();
    bench.run("grow falling grown").accepted();
    bench.run("list grown 1").accepted().says("  4294967295\n").says("  5\n").says("  9\n");
    let found = bench.run("restore grown 1 --day 8 out").accepted().out.clone();
    assert!(found.starts_with("till 1: version 2 (day 5) restored"), "{found}");
    // A slot that is not in use has no day.
    table[at + 57] = 1;
    bench.write("unsound", file_of(&pool, &table));
    bench.run("check unsound").fails(1, &["refused, 10"]);
}

/// Files from before there were days: they are listed as ever, and go on.
#[test]
fn stores_from_before() {
    for name in ["form1-versions.lur", "before-blanks.lur"] {
        let bench = Bench::new(&format!("days-{name}"));
        bench.write("s", kept_file(name));
        let listed = bench.run("list s 0").accepted().out.clone();
        assert!(!listed.contains("day"), "{listed}");
        let newest = bench.run("restore s 0 newest -").accepted().bytes.clone();
        assert!(bench.run("restore s 0 --day 0 -").accepted().bytes == newest);
        bench.write("image", &newest[..newest.len() / 2 + 1]);
        bench.run("backup s 0 image --day 2026-03-31 --rotate").accepted();
        bench.run("list s 0").accepted().says("blank  day\n").says("  -\n").says("  20543 (2026-03-31)\n");
        assert!(bench.run("restore s 0 --day 2026-03-30 -").accepted().bytes == newest);
        assert!(bench.run("restore s 0 --day 2026-03-31 -").accepted().bytes == newest[..newest.len() / 2 + 1]);
    }
}

/// Backups that can have no day take the newest's.
#[test]
fn closings_and_messages() {
    let bench = shop("days-others");
    bench.run("closing s 0=d 1=d").accepted();
    bench
        .run("list s 0")
        .accepted()
        .says("        4      64              0       1         0     0      0  20543 (2026-03-31)\n");
    bench.run("retire s 0 1").accepted();
    for line in
        ["fingerprints s a prints", "offer s 0 prints marks", "sent s a marks message", "backup-sent s 0 message"]
    {
        bench.run(line).accepted();
    }
    bench.run("list s 0 --json").accepted().says("{\"version\": 5, \"day\": 20543, ");
    bench.run("list s 1 --json").accepted().says("{\"version\": 1, \"day\": 0, ");
}

/// What is salvaged tells its day, if the words that have it can be relied on.
#[test]
fn salvaged_days() {
    let bench = shop("days-salvaged");
    let said = bench.run("salvage s saved").accepted().out.clone();
    assert!(said.contains("till-0-version-1.img: 512 bytes, certain\n"), "{said}");
    assert!(said.contains("till-0-version-2.img: 512 bytes (day 20540, 2026-03-28), certain\n"), "{said}");
    // The table begins behind the head and 64 cells; this is the first bit of the day of version 2.
    let mut bytes = bench.read("s");
    bytes[32 + 64 * 64 + 4 * (12 + 19 + 2)] ^= 1;
    bench.write("s", bytes);
    let run = bench.run("salvage s again --json");
    assert_eq!(run.status, Some(5));
    run.says("\"version\": 2, \"day\": null, \"date\": null, ");
}

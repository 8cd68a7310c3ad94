//! Help, versions, and wrong command lines: exit status 2, and nothing altered.

mod common;
use common::Bench;

const COMMANDS: [&str; 26] = [
    "init",
    "backup",
    "closing",
    "restore",
    "verify",
    "diff",
    "retire",
    "list",
    "tally",
    "bill",
    "chain",
    "check",
    "map",
    "export",
    "import",
    "fingerprints",
    "offer",
    "sent",
    "backup-sent",
    "rights",
    "grant",
    "revoke",
    "export-all",
    "grow",
    "salvage",
    "demo",
];

#[test]
fn help_and_version() {
    let bench = Bench::new("help");
    let overview = bench.run("--help").accepted().out.clone();
    COMMANDS.iter().for_each(|name| assert!(overview.contains(&format!("\n  {name} ")), "{name}"));
    assert_eq!(bench.run("-h").accepted().out, overview);
    assert_eq!(bench.run("help").accepted().out, overview);
    for name in COMMANDS {
        let help = bench.run(&format!("{name} --help")).accepted().out.clone();
        assert!(help.starts_with(&format!("Usage: lurdempos {name}")), "{help}");
        assert_eq!(bench.run(&format!("help {name}")).accepted().out, help);
        assert_eq!(bench.run(&format!("{name} some words -h")).accepted().out, help);
    }
    let version = format!("lurdempos {}\n", env!("CARGO_PKG_VERSION"));
    assert_eq!(bench.run("--version").accepted().out, version);
    assert_eq!(bench.run("-V").accepted().out, version);
    assert!(bench.names().is_empty());
}

#[test]
fn no_command() {
    let bench = Bench::new("no-command");
    bench.run("").fails(2, &["a command is missing", "Usage: lurdempos COMMAND"]);
    bench.run("bakcup").fails(2, &["there is no command `bakcup`", "choose one of init, backup,"]);
    bench.run("--halp").fails(2, &["there is no command `--halp`"]);
    bench.run("help bakcup").fails(2, &["there is no command `bakcup`"]);
    bench.run("--version now").fails(2, &["one argument too many: now"]);
    bench.run("help list tally").fails(2, &["one argument too many: tally"]);
}

/// Wrong lines, and what is said about them.
const WRONG: [(&str, &str); 88] = [
    ("init", "FILE is missing"),
    ("init n m", "one argument too many: m"),
    ("init n --till 3", "unknown option --till"),
    ("init n --tills", "option --tills needs a value, N"),
    ("init n --tills 3 --tills=3", "option --tills is given twice"),
    ("init n --blocks 3 --image-bytes 3", "--image-bytes and --blocks say the same"),
    ("init n --output m", "unknown option --output"),
    ("init n -t", "unknown option -t"),
    ("backup s 0", "IMAGE is missing"),
    ("backup s 0 image more", "one argument too many: more"),
    ("backup s -1 image", "unknown option -1"),
    ("backup - 0 image", "FILE has to be a file"),
    ("closing", "FILE is missing"),
    ("closing s", "TILL=IMAGE is missing"),
    ("closing s image", "`image` is not TILL=IMAGE"),
    ("closing s 0=image 1=", "`1=` is not TILL=IMAGE"),
    ("closing s 0=image 01=image", "TILL has to be a number in plain digits, not `01`"),
    ("closing s =image", "TILL has to be a number in plain digits, not ``"),
    ("closing s 4294967296=image", "TILL is larger than any number here"),
    ("closing s 0=- 1=-", "`-` can stand for one image only"),
    ("closing s 0=image --folder .", "TILL=IMAGE and --folder both say what is kept"),
    ("closing s --folder=", "option --folder needs a folder"),
    ("closing s 0=image --rotate", "unknown option --rotate"),
    ("closing - 0=image", "FILE has to be a file"),
    ("restore s 0 1", "OUTPUT is missing"),
    ("restore s 0 1 s", "is the store itself"),
    ("restore s 0 1 ./s", "is the store itself"),
    ("map s --output s", "is the store itself"),
    ("retire s 0", "VERSION is missing"),
    ("retire s 0 1 --keep 1", "VERSION and --keep both say what goes"),
    ("retire s 0 newest", "VERSION has to be a number"),
    ("restore s 0 latest out", "VERSION has to be a number"),
    ("restore s 0 1 - --json", "--json and an image cannot go to one output"),
    ("verify s 0 1", "IMAGE is missing"),
    ("diff s 0 1", "OTHER is missing"),
    ("export s 0 1", "OUT is missing"),
    ("export s 0 1 s", "is the store itself"),
    ("export s 0 1 - --json", "--json and a stream cannot go to one output"),
    ("import s 0", "IN is missing"),
    ("import s 0 image --force", "unknown option --force"),
    ("fingerprints s image", "OUT is missing"),
    ("fingerprints s image s", "is the store itself"),
    ("fingerprints s image - --json", "--json and fingerprints cannot go to one output"),
    ("offer s 0 image", "OUT is missing"),
    ("offer s 0 image - --json", "--json and marks cannot go to one output"),
    ("offer - 0 image out", "FILE has to be a file"),
    ("sent s image", "MARKS is missing"),
    ("sent s image marks s", "is the store itself"),
    ("backup-sent s 0", "MESSAGE is missing"),
    ("backup-sent s 0 image --rotate", "unknown option --rotate"),
    ("export-all s", "FOLDER is missing"),
    ("salvage s", "FOLDER is missing"),
    ("grow s", "NEW is missing"),
    ("grow s -", "NEW has to be a file"),
    ("salvage s -", "FOLDER has to be a folder"),
    ("init n --rebuild-percent -1", "--rebuild-percent"),
    ("init n --block-bytes many", "--block-bytes"),
    ("grow s n --image-bytes 960", "NEW would have 960 bytes of an image, OLD has 1024"),
    ("grow s n --cells 63", "NEW would have 63 cells, OLD has 64"),
    ("backup s 0 image --wait soon", "--wait has to be a number"),
    ("backup s 0 image --keep 3", "unknown option --keep"),
    ("list", "FILE is missing"),
    ("list s 0 1", "one argument too many: 1"),
    ("list s --json --json", "option --json is given twice"),
    ("list s --json=yes", "unknown option --json=yes"),
    ("tally s 0", "one argument too many: 0"),
    ("bill s", "--price is missing"),
    ("bill s --price", "option --price needs a value, P"),
    ("bill s --price 2.5", "--price has to be a number in plain digits, not `2.5`"),
    ("bill s 0 --price 25", "one argument too many: 0"),
    ("chain", "FILE is missing"),
    ("chain -", "FILE has to be a file"),
    ("chain s s", "s is named twice; name each store once"),
    ("chain s --limit 9", "unknown option --limit"),
    ("list s --with", "option --with needs a value, STORE"),
    ("list s --with=", "--with needs the name of a file"),
    ("list s --with -", "--with has to be a file"),
    ("list s --with ./s", "s and ./s are one file; name each store once"),
    ("backup s 0 image --limit many", "--limit has to be a number in plain digits, not `many`"),
    ("backup s 0 image --limit 1 --limit 2", "option --limit is given twice"),
    ("retire s 0 1 --limit 9", "unknown option --limit"),
    ("check", "FILE is missing"),
    ("check -", "FILE has to be a file"),
    ("map s --output", "option --output needs a value"),
    ("map s --output=", "option --output needs a file"),
    ("demo now", "one argument too many: now"),
    ("init x.lurdempos-draft-0123abcd", "are for the tool's drafts"),
    ("restore s 0 1 s.lurdempos-draft-0123abcd", "are for the tool's drafts"),
];

#[test]
fn wrong_lines() {
    let bench = Bench::with_store("wrong-lines");
    bench.write("image", "x");
    let before = bench.read("s");
    bench.run("backup s 0 image").accepted();
    let kept = bench.read("s");
    assert_ne!(before, kept);
    for (line, words) in WRONG {
        let run = bench.run(line);
        run.fails(2, &[words]);
        // What the right line is, wherever it is the line that is wrong and not the file.
        if !["the store itself", "drafts"].iter().any(|end| words.ends_with(end)) {
            let command = line.split(' ').next().unwrap();
            run.fails(2, &[&format!("\nUsage: lurdempos {command} "), &format!("`lurdempos {command} --help`")]);
        }
    }
    assert_eq!((bench.read("s"), bench.names()), (kept, vec!["image".to_string(), "s".into()]));
}

#[test]
fn numbers_are_strict() {
    let bench = Bench::with_store("numbers");
    for word in ["", " 1", "1 ", "+1", "1.0", "1e1", "0x1", "01", "1_0", "1,0", "one", "١", "1\n"] {
        let run = |words: &[&str]| common::Run::of(word, bench.command("").args(words).output().unwrap());
        run(&["list", "s", word]).fails(2, &["TILL has to be a number in plain digits"]);
        run(&["backup", "s", word, "-"]).fails(2, &["TILL has to be a number in plain digits"]);
        run(&["restore", "s", "0", word, "out"]).fails(2, &["VERSION has to be a number in plain digits"]);
        run(&["retire", "s", "0", word]).fails(2, &["VERSION has to be a number in plain digits"]);
        run(&["init", "n", "--tills", word]).fails(2, &["--tills has to be a number in plain digits"]);
    }
    bench.run("list s 4294967296").fails(2, &["TILL is larger than any number here"]);
    bench.run("init n --cells 99999999999999999999999").fails(2, &["--cells is larger than any number here"]);
    assert_eq!(bench.names(), ["s"]);
}

#[test]
fn options_anywhere_and_odd_names() {
    use std::os::unix::ffi::OsStrExt;
    let bench = Bench::new("odd-names");
    bench.run("init --tills 1 --cells 4 --blocks 4 -- --tills").accepted();
    bench.run("check -- --tills").accepted().says("--tills: sound");
    bench.run("init ./- --cells 4 --blocks 4").accepted();
    bench.run("check ./-").accepted();
    let odd = std::ffi::OsStr::from_bytes(b"\xff\xfe <&>");
    let run = |words: &[&str]| bench.command("").args(words).arg(odd).output().unwrap();
    assert!(run(&["init", "--cells", "4"]).status.success());
    assert!(run(&["list", "--json"]).status.success());
    assert!(String::from_utf8(run(&["map"]).stdout).unwrap().contains("&lt;&amp;&gt;"));
    assert_eq!(bench.command("list").arg("--").arg(odd).arg(odd).output().unwrap().status.code(), Some(2));
}

/// Names that begin with a dash or have control characters: what is said can be read, and copied.
#[test]
fn names_in_messages() {
    let bench = Bench::with_store("names");
    bench.write("image", "x");
    bench.run("backup s 0 image").accepted().says("version 1 kept, 1 byte\n");
    bench.run("backup s 0 image").accepted();
    let said = |words: &[&str]| common::Run::of("", bench.command("").args(words).output().unwrap());
    std::fs::copy(bench.path("s"), bench.path("-x")).unwrap();
    said(&["retire", "--", "-x", "0", "3"]).fails(1, &["`lurdempos list ./-x 0`"]);
    bench.run("retire ./-x 0 1").accepted().says("version 1 retired, 1 byte\n");
    said(&["check", "-x"]).fails(2, &["unknown option -x", "written ./-x, or put after `--`"]);
    let odd = "a\u{1b}[31m\nb";
    std::fs::copy(bench.path("s"), bench.path(odd)).unwrap();
    let refused = said(&["retire", odd, "0", "3"]);
    refused.fails(1, &[r"`lurdempos list $'a\x1b[31m\x0ab' 0`"]);
    let checked = said(&["check", odd]);
    checked.accepted().says(r"a\x1b[31m\x0ab: sound");
    let missing = said(&["check", "\u{1b}]0;title\u{7}"]);
    missing.fails(3, &[r"\x1b]0;title\x07: cannot be read"]);
    let unknown = said(&["\u{1b}c"]);
    unknown.fails(2, &[r"there is no command `\x1bc`"]);
    let turned = said(&["check", "\u{202e}rul.pohs"]);
    turned.fails(3, &[r"\xe2\x80\xaerul.pohs: cannot be read"]);
    std::fs::copy(bench.path("s"), bench.path("back\\n\n")).unwrap();
    said(&["retire", "back\\n\n", "0", "3"]).fails(1, &[r"`lurdempos list $'back\\n\x0a' 0`"]);
    for run in [refused, checked, missing, unknown] {
        assert!(!run.err.contains('\u{1b}') && !run.out.contains('\u{1b}'), "{run:?}");
    }
    // The command that is advised does what it says, in a shell that knows such names.
    let mut bash = std::process::Command::new("bash");
    bash.args(["-c", r"cat $'a\x1b[31m\x0ab' | wc -c"]);
    let counted = bash.current_dir(bench.path("")).output().unwrap();
    assert_eq!(String::from_utf8_lossy(&counted.stdout).trim(), bench.read("s").len().to_string());
}

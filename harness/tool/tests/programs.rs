//! Answers for programs, quiet runs, the manual page and the completions.

mod common;
use common::{letters, Bench, Run};
use std::process::Command;

/// Every command that answers, in an order in which all succeed.
const LINES: [&str; 36] = [
    "init n --tills 1",
    "backup s 0 image",
    "backup s 0 image --unless-same",
    "backup s 0 image --dry-run",
    "backup s 0 other --rotate",
    "restore s 0 newest out",
    "restore s 0 --day 2026-03-31 out",
    "verify s 0 --day 7 other",
    "export s 0 newest stream",
    "import s 1 stream",
    "import s 1 stream --day 2026-03-31",
    "fingerprints s image prints",
    "offer s 1 prints marks",
    "sent s image marks message",
    "backup-sent s 1 message --dry-run",
    "backup-sent s 1 message",
    "closing s 1=image 0=other --dry-run",
    "closing s 1=image 0=other",
    "verify s 0 newest other",
    "verify s 0 newest image",
    "diff s 0 1 2",
    "list s",
    "list s 1",
    "tally s",
    "bill s --price 25",
    "chain s n",
    "tally n --with s",
    "backup n 0 image --with s --limit 99 --dry-run",
    "backup n 0 image --with s --limit 99",
    "check s",
    "map s",
    "map s --output m.svg",
    "export-all s images",
    "grow s larger",
    "salvage s salvaged",
    "retire s 0 --keep 1",
];

fn bench(name: &str) -> Bench {
    let bench = Bench::with_store(name);
    bench.write("image", letters("ABC"));
    bench.write("other", letters("ABD"));
    bench
}

/// The rest of a text after one value of JSON; none if there is no such value.
fn after_value(text: &str) -> Option<&str> {
    let text = text.trim_start();
    if let Some(rest) = text.strip_prefix('"') {
        let mut escaped = false;
        let end = rest.char_indices().find(|(_, c)| {
            let ends = *c == '"' && !escaped;
            escaped = *c == '\\' && !escaped;
            ends
        })?;
        return Some(&rest[end.0 + 1..]);
    }
    for (open, close) in [('{', '}'), ('[', ']')] {
        if let Some(rest) = text.strip_prefix(open) {
            return after_items(rest, open == '{', close);
        }
    }
    let word = text.find(|c: char| !c.is_ascii_alphanumeric()).unwrap_or(text.len());
    let known = ["true", "false", "null"].contains(&&text[..word]);
    (known || (word > 0 && text[..word].bytes().all(|byte| byte.is_ascii_digit()))).then(|| &text[word..])
}

fn after_items(text: &str, named: bool, close: char) -> Option<&str> {
    let mut rest = text.trim_start();
    while !rest.starts_with(close) {
        if named {
            rest = after_value(rest.strip_prefix('"').map(|_| rest)?)?.trim_start().strip_prefix(':')?;
        }
        rest = after_value(rest)?.trim_start();
        rest = match rest.strip_prefix(',') {
            Some(next) => next.trim_start(),
            None if rest.starts_with(close) => rest,
            None => return None,
        };
    }
    rest.strip_prefix(close)
}

#[test]
fn json_from_every_command() {
    let (bench, words) = (bench("json-all"), bench("json-words"));
    for line in LINES {
        let run = bench.run(&format!("{line} --json"));
        assert!(run.out.starts_with('{') && after_value(&run.out) == Some("\n"), "{run:?}");
        assert!(run.err.is_empty(), "{run:?}");
        // The same is done, and the same is the exit status.
        assert_eq!(run.status, words.run(line).status, "{line}");
    }
    let demo = bench.run("demo --json");
    demo.accepted()
        .says("{\"day\": \"Saturday\", \"versions\": 18, \"whole_bytes\": 598824, \"cell_bytes\": 26048}]}\n");
    assert_eq!(after_value(&demo.out), Some("\n"));
    assert_eq!(bench.names(), words.names());
    assert_eq!(bench.read("s"), words.read("s"));
}

#[test]
fn what_programs_are_told() {
    let bench = bench("json-fields");
    let kept = bench.run("backup s 0 image --json").accepted().out.clone();
    assert_eq!(
        kept,
        "{\"file\": \"s\", \"till\": 0, \"version\": 1, \"day\": 0, \"date\": null, \"bytes\": 192, \"kept\": true, \
         \"retired\": null, \"dry_run\": false, \"cells\": null}\n"
    );
    let tried = bench.run("backup s 0 other --dry-run --json").accepted().out.clone();
    assert!(tried.ends_with("\"dry_run\": true, \"cells\": {\"before\": 3, \"after\": 4, \"of\": 64}}\n"), "{tried}");
    bench.run("backup s 0 other").accepted();
    let differ = bench.run("diff s 0 1 2 --json");
    assert_eq!(differ.status, Some(5));
    differ.says("\"same\": false, \"differing\": [\n  {\"from\": 128, \"to\": 191}]}\n");
    bench.run("verify s 0 2 image --json").says("\"same\": false, \"first_difference\": 128}");
    bench
        .run("retire s 0 1 --json")
        .accepted()
        .says("\"retired\": [\n  {\"version\": 1, \"bytes\": 192}], \"dry_run\"");
    bench.run("check s --json").accepted().says("\"sound\": true, \"checksums\": true, \"capacities\": {\"tills\": 2");
    bench.run("restore s 0 2 out --json").accepted().says("\"output\": \"out\", \"bytes\": 192, \"chain\": 0}");
    bench.run("map s --json").accepted().says("\"records\": {\"of\": 8, \"in_use\": 1, \"whole\": 1}}");
    // What fails is told in words, with the exit status.
    bench.run("restore s 0 7 out --json").fails(1, &["refused, 17"]);
    bench.run("restore s 0 1 out --json").fails(1, &["refused, 18"]);
}

#[test]
fn quiet_runs_say_nothing() {
    let (bench, words) = (bench("quiet"), bench("quiet-words"));
    for line in LINES.into_iter().chain(["demo"]) {
        let run = bench.run(&format!("{line} --quiet"));
        let product = line == "map s";
        assert_eq!((run.out.is_empty(), run.err.as_str()), (!product, ""), "{line}");
        assert_eq!(run.status, words.run(line).status, "{line}");
    }
    assert!(bench.run("restore s 0 newest - --quiet").accepted().bytes == letters("ABD"));
    bench.run("restore s 0 9 out --quiet").fails(1, &["refused, 17"]);
    let warned = bench.run("init w --cells 3 --quiet");
    assert!(warned.status == Some(0) && warned.out.is_empty() && warned.err.contains("not even one image"));
}

#[test]
fn the_manual_page_has_all() {
    let bench = bench("manual");
    let page = bench.run("--manual").accepted().out.clone();
    let shown = page.replace("\\-", "-");
    let overview = bench.run("--help").out;
    let commands: Vec<&str> =
        overview.lines().filter_map(|line| line.strip_prefix("  ")?.split("   ").next()).collect();
    assert!(commands.len() > 12);
    for command in commands.iter().filter(|command| !command.starts_with(|c: char| c.is_ascii_digit())) {
        assert!(shown.contains(&format!(".SS {}\n", command.trim_end())), "{command}");
        let help = bench.run(&format!("{} --help", command.split(' ').next().unwrap())).out;
        for option in help.lines().filter_map(|line| line.strip_prefix("  --")) {
            let option = option.split("  ").next().unwrap();
            assert!(shown.contains(&format!(".B --{option}\n")), "{option}");
        }
    }
    // Where there is a formatter it has nothing to complain about.
    bench.write("page", page);
    let formatted = bench.shell("if type groff > /dev/null 2>&1; then groff -man -Tascii -ww -z page; fi");
    assert_eq!((formatted.out.as_str(), formatted.err.as_str()), ("", ""));
}

/// What bash offers for a line, of which the last word is being typed.
fn offered(bench: &Bench, line: &[&str]) -> Vec<String> {
    let words: Vec<String> = line.iter().map(|word| format!("'{word}'")).collect();
    let script = format!(
        "source completions; COMP_WORDS=({}); COMP_CWORD={}; _lurdempos; printf '%s\\n' \"${{COMPREPLY[@]}}\"",
        words.join(" "),
        line.len() - 1
    );
    let output = Command::new("bash").args(["-c", &script]).current_dir(bench.path("")).output().unwrap();
    let run = Run::of(&script, output);
    let mut offered: Vec<String> = run.out.lines().filter(|line| !line.is_empty()).map(str::to_string).collect();
    offered.sort();
    offered
}

#[test]
fn completions_for_bash() {
    let bench = bench("completions");
    std::fs::create_dir(bench.path("folder")).unwrap();
    let completions = bench.run("--completions").accepted().out.clone();
    bench.write("completions", completions);
    assert_eq!(offered(&bench, &["lurdempos", "re"]), ["restore", "retire", "revoke"]);
    assert!(offered(&bench, &["lurdempos", ""]).len() > 14);
    assert_eq!(offered(&bench, &["lurdempos", "help", "t"]), ["tally"]);
    assert_eq!(offered(&bench, &["lurdempos", "backup", "--r"]), ["--rotate"]);
    assert_eq!(offered(&bench, &["lurdempos", "backup", "s", "0", "im"]), ["image"]);
    assert_eq!(offered(&bench, &["lurdempos", "backup", "--bytes", "7", "s", "0", "im"]), ["image"]);
    assert_eq!(offered(&bench, &["lurdempos", "backup", "--rotate", "s", "0", "im"]), ["image"]);
    assert!(offered(&bench, &["lurdempos", "backup", "--bytes", ""]).is_empty());
    assert_eq!(offered(&bench, &["lurdempos", "restore", "s", "0", ""]), ["newest"]);
    // With a day there is no version, and the output follows the till.
    assert_eq!(offered(&bench, &["lurdempos", "restore", "s", "0", "--d"]), ["--day"]);
    assert_eq!(offered(&bench, &["lurdempos", "restore", "s", "0", "--day", "7", "ot"]), ["other"]);
    assert_eq!(offered(&bench, &["lurdempos", "verify", "--day", "7", "s", "0", "im"]), ["image"]);
    assert!(offered(&bench, &["lurdempos", "restore", "s", "0", "--day", ""]).is_empty());
    // To bash an equals sign is a word.
    for words in [&["0", "=", "im"][..], &["0", "=", "image", "1", "=", "im"], &["--wait", "3", "0", "=", "im"]] {
        assert_eq!(offered(&bench, &[&["lurdempos", "closing", "s"], words].concat()), ["image"]);
    }
    assert!(offered(&bench, &["lurdempos", "closing", "s", "0", "="]).contains(&"other".to_string()));
    assert!(offered(&bench, &["lurdempos", "closing", "s", "0", "=", "image", ""]).is_empty());
    assert_eq!(offered(&bench, &["lurdempos", "closing", "s", "--folder", ""]), ["folder"]);
    assert_eq!(offered(&bench, &["lurdempos", "closing", "im"]), ["image"]);
    assert_eq!(offered(&bench, &["lurdempos", "map", "s", "--output", "ot"]), ["other"]);
    assert_eq!(offered(&bench, &["lurdempos", "export-all", "s", ""]), ["folder"]);
    assert!(offered(&bench, &["lurdempos", "tally", "--"]).contains(&"--json".to_string()));
    // Stores can come again.
    assert_eq!(offered(&bench, &["lurdempos", "chain", "im"]), ["image"]);
    assert_eq!(offered(&bench, &["lurdempos", "chain", "s", "image", "--user", "0", "ot"]), ["other"]);
    assert_eq!(offered(&bench, &["lurdempos", "backup", "s", "--with", "ot"]), ["other"]);
    assert_eq!(offered(&bench, &["lurdempos", "backup", "s", "--with", "x", "0", "--with", "y", "im"]), ["image"]);
    assert!(offered(&bench, &["lurdempos", "backup", "s", "--limit", ""]).is_empty());
    assert!(offered(&bench, &["lurdempos", "check", "s", ""]).is_empty());
    // Rights can come again.
    let rights = ["all", "backup", "list", "restore", "retire"];
    for words in
        [&["s", "0", "3", ""][..], &["s", "0", "3", "list", ""], &["--user", "0", "s", "0", "3", "list", "all", ""]]
    {
        assert_eq!(offered(&bench, &[&["lurdempos", "grant"], words].concat()), rights);
    }
    assert_eq!(offered(&bench, &["lurdempos", "revoke", "s", "0", "3", "re"]), ["restore", "retire"]);
    assert!(offered(&bench, &["lurdempos", "grant", "s", "0", ""]).is_empty());
    // A name stays one name.
    bench.write("my shop * .lur", "");
    bench.write("my *", "");
    std::fs::create_dir(bench.path("my folder")).unwrap();
    assert_eq!(offered(&bench, &["lurdempos", "check", "my"]), ["my *", "my folder", "my shop * .lur"]);
    assert_eq!(offered(&bench, &["lurdempos", "map", "s", "--output", "my s"]), ["my shop * .lur"]);
    assert_eq!(offered(&bench, &["lurdempos", "salvage", "s", "my"]), ["my folder"]);
}

/// Test hooks are in the test build alone.
#[test]
fn no_test_hooks() {
    let bench = bench("hooks");
    bench.run("backup s 0 image").accepted();
    for variable in ["LURDEMPOS_KILL_AT", "LURDEMPOS_FAIL_AT"] {
        for step in 1..9 {
            bench.run_with("restore s 0 1 out", variable, step).accepted();
        }
    }
    let tool = std::fs::read(common::TOOL).unwrap();
    assert!(!tool.windows(10).any(|bytes| bytes == b"LURDEMPOS_"), "no variable of that kind is known");
}

//! The sessions that docs/TOOL.md and the README show are true: every command is run, and its output compared.

mod common;
use common::Bench;
use std::fs;

/// The blocks of a page that show sessions with the tool: fenced as `console`, with a command in the first line.
fn sessions(page: &str) -> Vec<Vec<&str>> {
    let mut sessions = Vec::new();
    let mut lines = page.lines();
    while lines.by_ref().any(|line| line == "```console") {
        let session: Vec<&str> = lines.by_ref().take_while(|line| *line != "```").collect();
        if session.iter().any(|line| line.contains("lurdempos")) && session[0].starts_with("$ ") {
            sessions.push(session);
        }
    }
    sessions
}

/// Runs the commands of a page one after the other in one folder. Answers how many there were.
fn told_truly(name: &str, page: &str) -> usize {
    let bench = Bench::new(&format!("docs-{name}"));
    let mut commands = 0;
    for session in sessions(page) {
        // The demo shows commands itself; they are part of its output.
        let demo = session[0].starts_with("$ lurdempos demo");
        for part in session.chunk_by(|_, next| demo || !next.starts_with("$ ")) {
            let run = bench.shell(&format!("exec 2>&1; {}", part[0].strip_prefix("$ ").unwrap()));
            let shown: String = part[1..].iter().map(|line| format!("{line}\n")).collect();
            assert!(run.out == shown, "{name}: {}\nis shown with\n{shown}but says\n{}", part[0], run.out);
            commands += 1;
        }
    }
    commands
}

#[test]
fn sessions_are_true() {
    let root = concat!(env!("CARGO_MANIFEST_DIR"), "/../../");
    let page = fs::read_to_string(format!("{root}docs/TOOL.md")).unwrap();
    assert!(told_truly("tool", &page) >= 20);
    told_truly("readme", &fs::read_to_string(format!("{root}README.md")).unwrap());
}

//! What goes over the line: a till that speaks the two messages with the tool as a child process, over pipes, for 64
//! closings. docs/PERFORMANCE.md has the counts.

mod common;
use common::{Bench, TOOL};
use keeper::closings::Shop;
use lurdempos::{sending, Capacities};
use std::fs;
use std::io::{Read, Write};
use std::process::{Child, Stdio};

/// The tool's default store.
const CAPACITIES: Capacities = Capacities::new(16, 64, 520, 4_096, 32_768);

/// Bytes in a second: ten bits for each.
const SPEED: f64 = 115_200.0 / 10.0;

/// Bytes on the line so far.
#[derive(Clone, Copy, Default)]
struct Counts {
    /// Of whole images.
    full: usize,
    /// Of the till's first messages, of the marks that come back, and of the second messages.
    first: usize,
    marks: usize,
    second: usize,
}

impl Counts {
    /// As a row of the page has it.
    fn row(&self, closings: usize) -> String {
        let Counts { full, first, marks, second } = *self;
        let all = first + marks + second;
        let (part, whole, lacking) = (100.0 * all as f64 / full as f64, full as f64 / SPEED, all as f64 / SPEED);
        let bytes = format!("| {closings} | {full} | {first} | {marks} | {second} | {all} |");
        format!("{bytes} {part:.1} % | {whole:.1} | {lacking:.1} |")
    }
}

/// The tool at one end of the line; its standard input and output are the other.
struct Line(Child);

impl Line {
    fn to(bench: &Bench, line: &str) -> Line {
        let mut command = bench.command(line);
        Line(command.stdin(Stdio::piped()).stdout(Stdio::piped()).spawn().expect(TOOL))
    }

    /// Puts a message on the line and takes what comes back.
    fn exchange(mut self, message: &[u8]) -> Vec<u8> {
        let mut back = Vec::new();
        // The pipe is closed behind the message, which the tool reads to its end.
        self.0.stdin.take().expect("a pipe").write_all(message).expect("it is read");
        self.0.stdout.take().expect("a pipe").read_to_end(&mut back).expect("it is written");
        assert!(self.0.wait().expect("it ends").success());
        back
    }
}

/// One closing: fingerprints out, marks back, what is lacking out.
fn close(bench: &Bench, image: &[u8], counts: &mut Counts) {
    let whole = sending(image, CAPACITIES);
    let marks = Line::to(bench, "offer s 0 - -").exchange(&whole.fingerprints);
    let message = whole.lacking(&marks).to_bytes();
    let reply = Line::to(bench, "backup-sent s 0 -").exchange(&message);
    assert!(String::from_utf8_lossy(&reply).contains(" kept, 33268 bytes, "));
    counts.full += image.len();
    counts.first += whole.fingerprints.len();
    counts.marks += marks.len();
    counts.second += message.len();
}

#[test]
fn as_the_page_counts() {
    let bench = Bench::new("line");
    bench.run("init s").accepted();
    bench.run("init full").accepted();
    let page = fs::read_to_string(concat!(env!("CARGO_MANIFEST_DIR"), "/../../docs/PERFORMANCE.md")).unwrap();
    let (mut shop, mut counts, mut missing) = (Shop::new(1, 1), Counts::default(), Vec::new());
    for closings in 1..=64 {
        let image = shop.close(0).to_vec();
        close(&bench, &image, &mut counts);
        bench.fed("backup full 0 -", &image).accepted();
        let row = counts.row(closings);
        if (closings == 1 || closings % 8 == 0) && !page.lines().any(|line| line == row) {
            missing.push(row);
        }
    }
    assert!(missing.is_empty(), "docs/PERFORMANCE.md lacks\n{}", missing.join("\n"));
    // The file is the one that whole images leave.
    assert!(bench.read("s") == bench.read("full"));
}

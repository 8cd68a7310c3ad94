//! What a till puts on the line: whole images, or the two messages of a till that sends only what the box lacks.
//! harness/tool/tests/line.rs counts the same over pipes.

use crate::picture::{Chart, Curve};
use keeper::closings::{Shop, LENGTH};
use lurdempos::{sending, Capacities, Store, OWNER};
use std::fmt::Write;

const CLOSINGS: usize = 64;

/// The tool's default store.
const CAPACITIES: Capacities = Capacities::new(16, 64, 520, 4_096, 32_768);

/// Bytes in a second: ten bits for each.
const SPEED: f64 = 115_200.0 / 10.0;

/// Bytes of one closing.
pub struct Closing {
    /// The till's first message, the marks that come back, and the second message.
    first: usize,
    marks: usize,
    second: usize,
}

impl Closing {
    fn all(&self) -> usize {
        self.first + self.marks + self.second
    }
}

/// The closings of one till, filed by the proved store.
pub fn closings() -> Vec<Closing> {
    let mut store = Store::new(CAPACITIES).expect("good capacities");
    let mut shop = Shop::new(1, 1);
    let mut next = |_| {
        let image = shop.close(0);
        let whole = sending(image, CAPACITIES);
        let marks = store.offer(OWNER, 0, &whole.fingerprints).expect("fingerprints of an image");
        let lacking = whole.lacking(&marks);
        let version = store.backup_sent(OWNER, 0, lacking.message()).expect("there is room");
        assert!(store.image(OWNER, 0, version).is_ok_and(|kept| kept == image));
        Closing { first: whole.fingerprints.len(), marks: marks.len(), second: lacking.to_bytes().len() }
    };
    (0..CLOSINGS).map(&mut next).collect()
}

/// The sums after every eighth closing.
pub fn table(closings: &[Closing]) -> String {
    let mut text =
        String::from("| closings | whole images | fingerprints | marks back | second messages | together | ");
    text += "of whole images | seconds, whole | seconds, lacking |\n|---:|---:|---:|---:|---:|---:|---:|---:|---:|\n";
    for n in (1..=closings.len()).filter(|&n| n == 1 || n.is_multiple_of(8)) {
        let sum = |part: fn(&Closing) -> usize| closings[..n].iter().map(part).sum::<usize>();
        let (first, marks, second) = (sum(|one| one.first), sum(|one| one.marks), sum(|one| one.second));
        let (full, all) = (n * LENGTH, sum(Closing::all));
        let (part, whole, lacking) = (100.0 * all as f64 / full as f64, full as f64 / SPEED, all as f64 / SPEED);
        write!(text, "| {n} | {full} | {first} | {marks} | {second} | {all} | ").expect("a string takes all");
        writeln!(text, "{part:.1} % | {whole:.1} | {lacking:.1} |").expect("a string takes all");
    }
    text
}

/// Seconds on the line at each closing.
pub fn svg(closings: &[Closing]) -> String {
    let seconds = |bytes: usize| bytes as f64 / SPEED;
    let curve = |values: Vec<f64>, colour, name| {
        let last = format!("{:.2} s", values.last().copied().unwrap_or(0.0));
        Curve { values, colour, name, last }
    };
    let lacking = closings.iter().map(|one| seconds(one.all())).collect();
    let chart = Chart {
        title: "Seconds on a line of 115,200 baud at each closing of a till",
        below: "closing",
        up: |seconds| seconds / 3.0,
        ticks: vec![(0.0, "0"), (1.0, "1 s"), (2.0, "2 s"), (3.0, "3 s")],
        curves: vec![
            curve(vec![seconds(LENGTH); closings.len()], "#b3452c", "the whole image"),
            curve(lacking, "#1f5fa8", "what the box lacks"),
        ],
    };
    chart.svg()
}

//! Timing one call of the proved store and of the twin, turn about.

use crate::cases::{Case, What};
use lurdempos::Proved;
use std::fmt;
use std::hint::black_box;
use std::time::{Duration, Instant};
use terms::{Calls, LONGEST_IMAGE, LONGEST_STREAM, OWNER};
use twin::Twin;

/// Most that the proved store may take of the twin's time, and a stream of a restore's and a pass over the image.
const MOST: f64 = 1.25;

/// Most that a bill may take of a tally's time.
const MOST_OF_TALLY: f64 = 1.5;

/// Most that a call on a chain may take of a tally of each store, which is little but its check, and the call on one
/// alone.
const MOST_OF_CHECKS: f64 = 1.1;

/// The best times of one call.
pub struct Line {
    store: &'static str,
    call: String,
    proved: f64,
    twin: f64,
    pass: f64,
    most_passes: Option<f64>,
    /// Of a stream: a restore of the same version by the proved store and one pass over the image.
    restored: Option<f64>,
    beside: Option<Beside>,
}

/// Other calls of the proved store on the same store, which a call is set beside: a closing beside its images in a call
/// each, a bill beside a tally, a call on a chain beside calls on its stores.
struct Beside {
    name: &'static str,
    time: f64,
    /// The part of that time that the call may take, if it has such a target.
    most: Option<f64>,
}

/// The place of the case that this one is set beside, what it is called, and the target.
fn beside(what: &What, cases: &[Case]) -> Option<(usize, &'static str, Option<f64>)> {
    let place = |of: fn(&What) -> bool| cases.iter().position(|case| of(&case.what));
    match what {
        What::Closing { most, .. } => {
            place(|other| matches!(other, What::Singles { .. })).map(|at| (at, "single calls", *most))
        }
        What::Bill { .. } => place(|other| matches!(other, What::Tally)).map(|at| (at, "a tally", Some(MOST_OF_TALLY))),
        _ => None,
    }
}

/// The buffers that calls are made on.
struct Work {
    pool: Vec<u8>,
    table: Vec<u32>,
    output: Vec<u8>,
}

/// The lines of one store, all with the best of its read passes.
pub fn time_all(cases: Vec<Case>, rounds: usize) -> Vec<Line> {
    let besides: Vec<_> = cases.iter().map(|case| beside(&case.what, &cases)).collect();
    let mut lines: Vec<Line> = cases.into_iter().map(|case| time(case, rounds)).collect();
    for (n, other) in besides.into_iter().enumerate() {
        lines[n].beside = other.map(|(at, name, most)| Beside { name, time: lines[at].proved, most });
    }
    let pass = lines.iter().map(|line| line.pass).fold(f64::INFINITY, f64::min);
    lines.iter_mut().for_each(|line| line.pass = pass);
    lines
}

fn time(case: Case, rounds: usize) -> Line {
    let mut work =
        Work { pool: case.store.pool.clone(), table: case.store.table.clone(), output: vec![0; LONGEST_STREAM] };
    let mut best = [Duration::MAX; 3];
    let mut restored = None;
    let mut refusals = [0; 2];
    for round in 0..rounds {
        for turn in 0..3 {
            match (round + turn) % 3 {
                2 => best[2] = best[2].min(read_pass(&work.pool, &work.table)),
                who => {
                    let store: &dyn Calls = if who == 0 { &Proved } else { &Twin };
                    let (refusal, taken) = once(&case, store, &mut work);
                    refusals[who] = refusal;
                    best[who] = best[who].min(taken);
                }
            }
            if let What::WriteStream { version } = case.what {
                let taken = restore_and_pass(version, &mut work);
                restored = Some(restored.map_or(taken, |best: Duration| best.min(taken)));
            }
            if case.what.writes() {
                work.pool.copy_from_slice(&case.store.pool);
                work.table.copy_from_slice(&case.store.table);
            }
        }
    }
    assert_eq!(refusals[0], refusals[1]);
    let restored = restored.map(micros);
    let refused = if refusals[0] == 0 { String::new() } else { format!(", refused {}", refusals[0]) };
    let [proved, twin, pass] = best.map(micros);
    let call = case.what.name() + &refused;
    let (store, most_passes) = (case.store.name, case.passes);
    Line { store, call, proved, twin, pass, most_passes, restored, beside: None }
}

/// The least that writing a stream can cost: restoring the image and reading it once.
fn restore_and_pass(version: u32, work: &mut Work) -> Duration {
    let output = &mut work.output[..LONGEST_IMAGE as usize];
    let start = Instant::now();
    let [_, length, _] = Proved.restore(&work.pool, &work.table, OWNER, 0, version, output);
    black_box(black_box(&output[..length as usize]).iter().map(|&byte| byte as u64).sum::<u64>());
    start.elapsed()
}

/// One call, or the mean of very many if it is a very short one.
fn once(case: &Case, store: &dyn Calls, work: &mut Work) -> (u32, Duration) {
    let times = if matches!(case.what, What::TableLength) { 10_000 } else { 1 };
    let mut refusal = 0;
    let start = Instant::now();
    for _ in 0..times {
        refusal = black_box(case.make(store, &mut work.pool, &mut work.table, &mut work.output));
    }
    (refusal, start.elapsed() / times)
}

/// The least that checking a store can cost: reading it all once.
pub fn read_pass(pool: &[u8], table: &[u32]) -> Duration {
    let start = Instant::now();
    black_box(black_box(pool).iter().map(|&byte| byte as u64).sum::<u64>());
    black_box(black_box(table).iter().map(|&word| word as u64).sum::<u64>());
    start.elapsed()
}

fn micros(time: Duration) -> f64 {
    time.as_nanos() as f64 / 1_000.0
}

impl Line {
    /// Of a call on a chain: the proved chain's, the twin's, a pass over all stores, and a tally of each store with the
    /// call on one alone.
    pub fn of_chain(store: &'static str, call: String, times: [Duration; 4]) -> Line {
        let [proved, twin, pass, alone] = times.map(micros);
        let beside = Beside { name: "a tally of each and the call alone", time: alone, most: Some(MOST_OF_CHECKS) };
        Line { store, call, proved, twin, pass, most_passes: None, restored: None, beside: Some(beside) }
    }

    fn ratio(&self) -> f64 {
        self.proved / self.twin
    }

    fn passes(&self) -> f64 {
        self.proved / self.pass
    }

    /// The part that it takes of the call that it is set beside.
    fn part(&self, beside: &Beside) -> f64 {
        self.proved / beside.time
    }

    /// The targets that this line misses, in words.
    pub fn misses(&self) -> Vec<String> {
        let (store, call) = (self.store, &self.call);
        let mut misses = Vec::new();
        if self.ratio() > MOST {
            misses.push(format!("- {call} on the {store} store: {:.2} times the twin, at most {MOST}", self.ratio()));
        }
        if let Some(most) = self.most_passes.filter(|&most| self.passes() > most) {
            misses.push(format!("- {call} on the {store} store: {:.1} read passes, at most {most}", self.passes()));
        }
        if let Some(most) = self.restored.map(|time| time * MOST).filter(|&most| self.proved > most) {
            misses.push(format!("- {call} on the {store} store: {:.1}, at most {most:.1}", self.proved));
        }
        if let Some(beside) = &self.beside {
            let (part, name) = (self.part(beside), beside.name);
            if let Some(most) = beside.most.filter(|&most| part > most) {
                misses.push(format!("- {call} on the {store} store: {part:.2} of {name}, at most {most}"));
            }
        }
        misses
    }
}

impl fmt::Display for Line {
    fn fmt(&self, f: &mut fmt::Formatter<'_>) -> fmt::Result {
        let short = self.proved < 1.0;
        let time = |time: f64| if short { format!("{time:.4}") } else { format!("{time:.1}") };
        let passes = if short { String::new() } else { format!("{:.1}", self.passes()) };
        let passes_most = self.most_passes.map(|most| format!("{most} passes, "));
        let restored = self.restored.map(|time| format!("{MOST} × {time:.1} of restore and a pass over the image, "));
        let beside = self.beside.as_ref().map(|beside| {
            let target = beside.most.map_or(String::new(), |most| format!(", at most {most}"));
            format!("{:.2} of {}{target}, ", self.part(beside), beside.name)
        });
        let most = passes_most.or(restored).or(beside).unwrap_or_default();
        let mark = if self.misses().is_empty() { "met" } else { "**missed**" };
        let (store, call, ratio) = (self.store, &self.call, self.ratio());
        let (proved, twin) = (time(self.proved), time(self.twin));
        write!(f, "| {store} | {call} | {proved} | {twin} | {ratio:.2} | {passes} | {most}{MOST} × twin: {mark} |")
    }
}

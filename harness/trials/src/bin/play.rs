//! Random lists of calls for as long as wanted: `play --seed N --calls M`, `--full` for stores of the largest
//! capacities, `--chain` for chains of small ones. Some lists on a store alone have backups from before blank blocks were
//! known. It stops at the first difference between the proved store, the twin and the keeper.

use keeper::calls::{Before, Style};
use keeper::chain::Seen;
use keeper::events::Events;
use keeper::Random;
use std::collections::{BTreeMap, BTreeSet};
use std::process::ExitCode;
use terms::{Capacities, MOST_STORES};
use trials::{chained, history};

struct Wish {
    seed: u64,
    calls: usize,
    full: bool,
    chain: bool,
}

fn main() -> ExitCode {
    let Some(wish) = wish(std::env::args().skip(1)) else {
        eprintln!("play [--seed N] [--calls M] [--full | --chain]");
        return ExitCode::from(2);
    };
    match wish.chain {
        true => play_chains(wish),
        false => play(wish),
    }
    ExitCode::SUCCESS
}

fn wish(mut words: impl Iterator<Item = String>) -> Option<Wish> {
    let mut wish = Wish { seed: 1, calls: 100_000, full: false, chain: false };
    while let Some(word) = words.next() {
        match word.as_str() {
            "--seed" => wish.seed = words.next()?.parse().ok()?,
            "--calls" => wish.calls = words.next()?.parse().ok()?,
            "--full" => wish.full = true,
            "--chain" => wish.chain = true,
            _ => return None,
        }
    }
    Some(wish)
}

fn play_chains(wish: Wish) {
    let mut random = Random::new(wish.seed);
    let (mut made, mut seen, mut met) = (0, Seen::default(), BTreeSet::new());
    while made < wish.calls {
        let (seed, stores) = (random.number(), 1 + random.below(MOST_STORES));
        println!("chain of {stores}, seed {seed}");
        let calls = (wish.calls - made).min(100 * stores);
        let chain = chained::run(&mut Random::new(seed), stores, calls);
        made += calls;
        seen += chain.seen;
        met.extend(chain.met);
    }
    println!("{made} calls on chains, no difference");
    println!("{seen:?}");
    println!("met: {met:?}");
}

fn play(wish: Wish) {
    let mut random = Random::new(wish.seed);
    let (mut made, mut stores, mut events) = (0, 0, Events::default());
    let mut met: BTreeMap<u32, usize> = BTreeMap::new();
    while made < wish.calls {
        let (capacities, style) = history::small(&mut random);
        let full = (Capacities::largest(capacities.measures()), Style { kinds: random.between(20, 2_000), ..style });
        let (capacities, style) = if wish.full { full } else { (capacities, style) };
        let before = *random.pick(&[Before::Never, Before::FirstThird, Before::Half, Before::Stretches]);
        let (seed, calls) = (random.number(), (wish.calls - made).min(2_000));
        println!("store {stores}: {:?}, {style:?}, before: {before:?}, seed {seed}", capacities.to_array());
        let course = history::run_from_before(seed, capacities, style, (calls, 100), before);
        made += course.made;
        stores += 1;
        events += course.events;
        let numbers: BTreeSet<u32> = course.met.iter().map(|&(_, number)| number).collect();
        numbers.into_iter().for_each(|number| *met.entry(number).or_default() += 1);
    }
    println!("{made} calls on {stores} stores, no difference");
    println!("{events:?}");
    println!("stores that met each number: {met:?}");
}

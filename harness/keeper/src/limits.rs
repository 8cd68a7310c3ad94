//! Random lists of calls on a chain, with limits about the cells that are occupied and those that a backup comes to.

use crate::calls::{List, Style};
use crate::chain::Chain;
use crate::collected::each;
use crate::course::files;
use crate::{Call, Random};
use terms::{Capacities, Collected, Target, NO_LIMIT};

/// A list for each store of a chain.
pub struct Lists {
    lists: Vec<List>,
}

impl Lists {
    /// For stores of these settings.
    pub fn new(random: &mut Random, settings: &[(Capacities, Style)]) -> Lists {
        Lists { lists: settings.iter().map(|&(capacities, style)| List::new(random, capacities, style)).collect() }
    }

    /// A call on one of the stores, with its limit and who makes it.
    pub fn next(&self, random: &mut Random, chain: &mut Chain) -> (Target, u32, Call) {
        let store = random.below(self.lists.len());
        let (list, course) = (&self.lists[store], &chain.stores()[store]);
        let (user, call) = match list.next(random, course) {
            // These two take a store alone.
            (_, Call::TableLength(_) | Call::LayOut(_)) => list.closing_by(random, course),
            _ if random.percent(20) => list.closing_by(random, course),
            drawn => drawn,
        };
        let store = store as u32;
        let limit = limit(random, chain, store, user, &call);
        (Target { store, limit }, user, call)
    }
}

/// Half of them far away, so that stores fill; the others about what is occupied now or will be at the call's end.
fn limit(random: &mut Random, chain: &mut Chain, store: u32, user: u32, call: &Call) -> u32 {
    let now = chain.cells();
    let end = match call {
        Call::All(collected) => part_of(random, collected).and_then(|part| chain.comes_to(store, user, &part)),
        _ if files(call) => chain.comes_to(store, user, call),
        _ => None,
    };
    let end = end.unwrap_or(now);
    match random.below(16) {
        0 => 0,
        1 => random.below(now as usize + 1) as u32,
        2 => now,
        3 => now.saturating_sub(1),
        4 | 5 => end,
        6 => end.saturating_sub(1),
        7 => end + 1,
        _ => NO_LIMIT,
    }
}

/// The first images of a closing, if its lists fit: some of them, so that a limit is met before the others.
fn part_of(random: &mut Random, collected: &Collected) -> Option<Call> {
    let images = each(collected)?;
    let count = random.below(images.len() + 1);
    Some(Call::All(Collected::of(images[..count].iter().copied())))
}

//! Random lists of calls on chains, the proved one against the twin's, a store alone and the keeper; and any disks, chains
//! or not, on which both give the same answers and leave the same, as the twin on the named store alone where it has one.

use crate::compare::Refusals;
use crate::{chains, history};
use keeper::calls::Style;
use keeper::chain::{answer_on, Chain};
use keeper::course::{answer, Lane};
use keeper::disks::refusal_of;
use keeper::inspect::{days_never_fall, inspect};
use keeper::limits::Lists;
use keeper::{Call, Random};
use terms::{Capacities, Disk, Target, NO_LIMIT};
use twin::{is_sound, Twin};

/// Runs one list of so many calls on a chain of small stores of any settings, from freshly laid out ones; at the end every
/// version is given back, and the words are looked into.
pub fn run(random: &mut Random, stores: usize, calls: usize) -> Chain {
    let settings: Vec<(Capacities, Style)> = (0..stores).map(|_| history::small(random)).collect();
    let capacities: Vec<Capacities> = settings.iter().map(|&(capacities, _)| capacities).collect();
    let mut chain = Chain::new(&capacities, chains(), || Box::new(Twin));
    let lists = Lists::new(random, &settings);
    for _ in 0..calls {
        let (target, user, call) = lists.next(random, &mut chain);
        chain.call(target, user, &call);
    }
    chain.restore_all();
    for course in chain.stores() {
        inspect(course.buffers().0, course.buffers().1, course.keeper());
        days_never_fall(course.buffers().1);
    }
    chain
}

/// Puts each call of a user to both chains, each time on a fresh copy. Answers the refusals met.
pub fn compare_on(disk: &Disk, target: Target, calls: &[(u32, Call)]) -> Refusals {
    let first = refusal_of(disk, target.store, is_sound);
    let mut refusals = Refusals::new();
    for (user, call) in calls {
        let [(said, left), (by_twin, left_by_twin)] = [0, 1].map(|n| {
            let mut left = disk.clone();
            (answer_on(chains()[n].as_ref(), &mut left, target, *user, call), left)
        });
        assert!(said == by_twin, "{target:?}, user {user}, {call:?}: proved {:?}, twin {:?}", said.0, by_twin.0);
        assert!(left == left_by_twin, "{target:?}, user {user}, {call:?}: disks differ");
        assert!(said.0[0] == 0 || left == *disk, "{target:?}, user {user}, {call:?}: altered though refused");
        match (first, disk.part(target.store)) {
            (Some(refusal), _) => assert_eq!(said.0[0], refusal.number(), "{target:?}, user {user}, {call:?}"),
            (None, Some((pool, table))) if target.limit == NO_LIMIT => {
                let mut alone = Lane { store: Box::new(Twin), pool: pool.to_vec(), table: table.to_vec() };
                assert!(answer(&mut alone, *user, call) == said, "{target:?}, user {user}, {call:?}: not as alone");
                assert!(left == with(disk, target.store, &alone), "{target:?}, {call:?}: another disk");
            }
            _ => {}
        }
        refusals.insert(said.0[0]);
    }
    refusals
}

/// The same disk with another store in a place.
fn with(disk: &Disk, store: u32, lane: &Lane) -> Disk {
    let own = |(n, part)| if n == store { (&lane.pool[..], &lane.table[..]) } else { part };
    Disk::of((0..).zip(disk.parts()).map(own))
}

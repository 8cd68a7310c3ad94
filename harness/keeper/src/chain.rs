//! One list of calls put to several chains and, store by store, to a store alone and its keeper: after each call the
//! chains must have answered as the store alone, must have left it as that one is, and all others as they were.

use crate::collected::each;
use crate::course::{answer, files, letter, occupied, Answer, Lane, IN_A_CLOSING, UNTOUCHED};
use crate::{Call, Course};
use std::collections::BTreeSet;
use std::ops::AddAssign;
use terms::{Calls, Capacities, ChainCalls, Disk, Refusal, Target, CLOSING_NUMBERS, MOST_IMAGES, NO_LIMIT, OWNER};

pub struct Chain {
    /// Each with the disk that its calls have left.
    chains: Vec<(Box<dyn ChainCalls>, Disk)>,
    /// Each store alone, with the keeper.
    stores: Vec<Course>,
    /// For trying out on a copy what a backup comes to.
    probe: Lane,
    /// The limit that the last backup brought.
    limit: u32,
    /// Refusals met, each with the call's letter.
    pub met: BTreeSet<(char, u32)>,
    pub seen: Seen,
}

/// How often a limit was met.
#[derive(Clone, Copy, Debug, Default, PartialEq, Eq)]
pub struct Seen {
    /// Backups that came to just the limit, and to one cell more.
    pub at: usize,
    pub one_above: usize,
    /// Accepted backups that freed more cells than they took.
    pub fewer: usize,
    /// Accepted retires while more was occupied than the last limit.
    pub retired_above: usize,
    /// Closings with an image over the limit before one that is kept.
    pub in_the_middle: usize,
}

impl Seen {
    pub fn each(&self) -> [usize; 5] {
        [self.at, self.one_above, self.fewer, self.retired_above, self.in_the_middle]
    }
}

impl AddAssign for Seen {
    fn add_assign(&mut self, more: Seen) {
        let Seen { at, one_above, fewer, retired_above, in_the_middle } = more;
        self.at += at;
        self.one_above += one_above;
        self.fewer += fewer;
        self.retired_above += retired_above;
        self.in_the_middle += in_the_middle;
    }
}

impl Chain {
    /// Lays out stores of these capacities for each of the chains, and once more alone.
    pub fn new(
        capacities: &[Capacities],
        chains: Vec<Box<dyn ChainCalls>>,
        alone: impl Fn() -> Box<dyn Calls>,
    ) -> Chain {
        let stores: Vec<Course> = capacities.iter().map(|&one| Course::new(one, vec![alone()])).collect();
        let disk = Disk::of(stores.iter().map(Course::buffers));
        let chains = chains.into_iter().map(|chain| (chain, disk.clone())).collect();
        let probe = Lane { store: alone(), pool: Vec::new(), table: Vec::new() };
        Chain { chains, stores, probe, limit: NO_LIMIT, met: BTreeSet::new(), seen: Seen::default() }
    }

    pub fn stores(&self) -> &[Course] {
        &self.stores
    }

    /// Occupied cells of all stores.
    pub fn cells(&self) -> u32 {
        self.stores.iter().map(Course::occupied).sum()
    }

    /// Makes one call on all chains and compares.
    pub fn call(&mut self, target: Target, user: u32, call: &Call) -> Answer {
        let place =
            format!("store {} of {}, limit {}, user {user}, {call:?}", target.store, self.stores.len(), target.limit);
        let expected = self.alone(target, user, call);
        for (chain, disk) in &mut self.chains {
            let said = answer_on(chain.as_ref(), disk, target, user, call);
            assert!(
                said == expected,
                "{place}: the {} says {:?}, a store alone {:?}",
                chain.name(),
                said.0,
                expected.0
            );
            let left = Disk::of(self.stores.iter().map(Course::buffers));
            assert!(*disk == left, "{place}: the {} has left another chain", chain.name());
        }
        self.met.insert((letter(call), expected.0[0]));
        expected
    }

    /// What the call comes to on the named store alone, whose keeper follows it.
    fn alone(&mut self, target: Target, user: u32, call: &Call) -> Answer {
        match call {
            Call::All(collected) => {
                self.limit = target.limit;
                match each(collected) {
                    Some(images) => self.closing(target, user, &images),
                    None => self.course(target).answered(user, call),
                }
            }
            _ if files(call) => {
                self.limit = target.limit;
                self.limited(target, user, call)
            }
            Call::Retire { .. } => {
                let above = self.cells() > self.limit;
                let answer = self.course(target).answered(user, call);
                self.seen.retired_above += (above && answer.0[0] == 0) as usize;
                answer
            }
            _ => self.course(target).answered(user, call),
        }
    }

    fn course(&mut self, target: Target) -> &mut Course {
        &mut self.stores[target.store as usize]
    }

    /// A backup, or 21 if it is accepted and comes to more than the limit.
    fn limited(&mut self, target: Target, user: u32, call: &Call) -> Answer {
        let before = self.cells();
        let Some(cells) = self.comes_to(target.store, user, call) else {
            return self.course(target).answered(user, call);
        };
        self.seen.at += (cells == target.limit) as usize;
        self.seen.one_above += (cells.checked_sub(1) == Some(target.limit)) as usize;
        if cells > target.limit {
            return refused(Refusal::OverLimit);
        }
        self.seen.fewer += (cells < before) as usize;
        self.course(target).answered(user, call)
    }

    /// Each image as a backup by itself.
    fn closing(&mut self, target: Target, user: u32, images: &[(u32, &[u8])]) -> Answer {
        let mut numbers = [0; CLOSING_NUMBERS];
        let (mut over, mut kept_after) = (false, false);
        for (n, &(till, image)) in images.iter().enumerate() {
            let (single, _) = self.limited(target, user, &Call::Backup { till, image: image.to_vec() });
            (numbers[1 + n], numbers[1 + MOST_IMAGES + n]) = (single[0], single[1]);
            kept_after |= over && single[0] == 0;
            over |= single[0] == Refusal::OverLimit.number();
            self.met.insert((IN_A_CLOSING, single[0]));
        }
        self.seen.in_the_middle += kept_after as usize;
        (numbers, Vec::new())
    }

    /// The cells of all stores at a backup's end, if no limit refuses it and nothing else does.
    pub fn comes_to(&mut self, store: u32, user: u32, call: &Call) -> Option<u32> {
        let own = &self.stores[store as usize];
        let others = self.cells() - own.occupied();
        (self.probe.pool, self.probe.table) = (own.buffers().0.to_vec(), own.buffers().1.to_vec());
        let accepted = answer(&mut self.probe, user, call).0[0] == 0;
        accepted.then(|| others + occupied(&self.probe.pool, own.capacities))
    }

    /// Every version that a keeper has is given back by every chain.
    pub fn restore_all(&mut self) {
        for (store, number) in (0..).zip(0..self.stores.len()) {
            let tills = self.stores[number].keeper().tills().iter();
            let held: Vec<(u32, u32)> = (0..)
                .zip(tills)
                .flat_map(|(till, kept)| kept.held.keys().map(move |&version| (till, version)))
                .collect();
            let room = self.stores[number].capacities.image_bytes();
            for (till, version) in held {
                let target = Target { store, limit: 0 };
                assert_eq!(self.call(target, OWNER, &Call::Restore { till, version, room }).0[0], 0);
            }
        }
    }
}

/// A refusal with every other field 0 and nothing written.
fn refused(refusal: Refusal) -> Answer {
    (std::array::from_fn(|n| if n == 0 { refusal.number() } else { 0 }), Vec::new())
}

/// Makes one call of a chain. Laying out and the length of a table are for a store alone.
pub fn answer_on(chain: &dyn ChainCalls, disk: &mut Disk, target: Target, user: u32, call: &Call) -> Answer {
    let store = target.store;
    let mut output = Vec::new();
    let numbers = match call {
        Call::Backup { till, image } => chain.chain_backup(disk, target, user, *till, image).to_vec(),
        Call::Dated { till, day, image } => chain.chain_backup_dated(disk, target, user, *till, *day, image).to_vec(),
        Call::Sent { till, sending } => chain.chain_backup_sent(disk, target, user, *till, sending.message()).to_vec(),
        Call::All(collected) => chain.chain_backup_all(disk, target, user, collected.closing()).to_vec(),
        Call::Restore { till, version, room } => {
            output.resize(*room, UNTOUCHED);
            chain.chain_restore(disk, store, user, *till, *version, &mut output).to_vec()
        }
        Call::Retire { till, version } => chain.chain_retire(disk, store, user, *till, *version).to_vec(),
        Call::Listing { till } => chain.chain_listing(disk, store, user, *till).to_vec(),
        Call::VersionOn { till, day } => chain.chain_version_on(disk, store, user, *till, *day).to_vec(),
        Call::Tally => chain.chain_tally(disk, store, user).to_vec(),
        Call::Bill { price } => chain.chain_bill(disk, store, user, *price).to_vec(),
        Call::WriteStream { till, version, room } => {
            output.resize(*room, UNTOUCHED);
            chain.chain_write_stream(disk, store, user, *till, *version, &mut output).to_vec()
        }
        Call::Offer { till, fingerprints, room } => {
            output.resize(*room, UNTOUCHED);
            chain.chain_offer(disk, store, user, *till, fingerprints, &mut output).to_vec()
        }
        Call::SetRights { subject, till, rights } => {
            chain.chain_set_rights(disk, store, user, *subject, *till, *rights).to_vec()
        }
        Call::TableLength(_) | Call::LayOut(_) | Call::Earlier { .. } => panic!("not a call on a chain"),
    };
    (std::array::from_fn(|i| numbers.get(i).copied().unwrap_or(0)), output)
}

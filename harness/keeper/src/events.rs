//! What happened to the records in a call, told from the table before and after it: so that a test can show that its
//! lists went every way of the method.

use crate::words::{kind, Kind, Words};
use std::ops::AddAssign;
use terms::Capacities;

#[derive(Clone, Copy, Debug, Default, PartialEq, Eq)]
pub struct Events {
    /// Records taken for a new segment.
    pub taken: usize,
    /// Records in use that a new segment used once more.
    pub shared: usize,
    /// Records that lost some positions: few, so that only their cells were cleared.
    pub cleared: usize,
    /// Records that lost many and were copied together.
    pub rebuilt: usize,
    /// Records that lost many, with no run to copy to.
    pub stuck: usize,
    /// Records that lost all positions.
    pub freed: usize,
    /// Direct pointers that the older neighbour of a retired version has taken over.
    pub direct: usize,
    /// Indirect ones likewise.
    pub indirect: usize,
    /// Blank ones likewise.
    pub blank: usize,
    /// Records taken for a new segment that has blank blocks too.
    pub taken_with_blanks: usize,
    /// Records with blank positions that a new segment used once more.
    pub shared_with_blanks: usize,
    /// Direct pointers of the previous version that turned blank.
    pub turned_blank: usize,
}

impl AddAssign for Events {
    fn add_assign(&mut self, other: Events) {
        self.taken += other.taken;
        self.shared += other.shared;
        self.cleared += other.cleared;
        self.rebuilt += other.rebuilt;
        self.stuck += other.stuck;
        self.freed += other.freed;
        self.direct += other.direct;
        self.indirect += other.indirect;
        self.blank += other.blank;
        self.taken_with_blanks += other.taken_with_blanks;
        self.shared_with_blanks += other.shared_with_blanks;
        self.turned_blank += other.turned_blank;
    }
}

impl Events {
    /// Those that happen to every store.
    pub fn each(&self) -> [usize; 10] {
        let Events { taken, shared, cleared, rebuilt, stuck, freed, direct, indirect, .. } = *self;
        let (taken_with_blanks, shared_with_blanks) = (self.taken_with_blanks, self.shared_with_blanks);
        [taken, shared, cleared, rebuilt, stuck, freed, direct, indirect, taken_with_blanks, shared_with_blanks]
    }

    /// Those that happen only to a store with backups from before blank blocks were known.
    pub fn each_from_before(&self) -> [usize; 2] {
        [self.turned_blank, self.blank]
    }

    /// From the table before and after a call.
    pub fn between(before: &[u32], after: &[u32], capacities: Capacities) -> Events {
        let words = capacities.record_words();
        let at = before.len() - words * capacities.records as usize;
        let mut events = Events::default();
        for (old, new) in before[at..].chunks(words).zip(after[at..].chunks(words)).filter(|(old, new)| old != new) {
            events += one(old, new, capacities);
        }
        events
    }

    /// What a held version's older neighbour takes over when it is retired, from the table before.
    pub fn taken_over(before: &[u32], capacities: Capacities, till: usize, version: u32) -> Events {
        let words = Words::new(before, capacities);
        let slot = words.numbers(till).iter().position(|&number| number == version).unwrap_or(0);
        let (older, retired) = match slot {
            0 => return Events::default(),
            _ => (words.pointers(till, slot - 1), words.pointers(till, slot)),
        };
        let named = |pointer: &u32| match kind(*pointer) {
            Kind::Indirect(block) => Some(kind(retired[block])),
            _ => None,
        };
        let mut events = Events::default();
        for kind in older.iter().filter_map(named) {
            match kind {
                Kind::Direct => events.direct += 1,
                Kind::Indirect(_) => events.indirect += 1,
                Kind::Blank => events.blank += 1,
                Kind::Null => {}
            }
        }
        events
    }

    /// The direct pointers that a backup of this till has turned blank in the version before.
    pub fn turned(before: &[u32], after: &[u32], capacities: Capacities, till: usize) -> Events {
        let (before, after) = (Words::new(before, capacities), Words::new(after, capacities));
        let Some(slot) = before.numbers(till).len().checked_sub(1) else { return Events::default() };
        let pairs = before.pointers(till, slot).iter().zip(after.pointers(till, slot));
        let turned = pairs.filter(|(&old, &new)| kind(old) == Kind::Direct && kind(new) == Kind::Blank).count();
        Events { turned_blank: turned, ..Events::default() }
    }
}

fn one(old: &[u32], new: &[u32], capacities: Capacities) -> Events {
    let positions = capacities.segment_blocks as usize;
    let (held, kept) = (old[0], old[0] & new[0]);
    let (s, r) = (held.count_ones(), (held & !new[0]).count_ones());
    let few = 100 * r < capacities.rebuild_percent * s;
    let moved = (0..positions).any(|i| kept >> i & 1 == 1 && old[3 + i] != new[3 + i]);
    let more = (3 + positions..old.len()).any(|n| new[n] > old[n]);
    Events {
        taken: (held == 0) as usize,
        shared: (held != 0 && more) as usize,
        taken_with_blanks: (held == 0 && new[2] != 0) as usize,
        shared_with_blanks: (held != 0 && more && new[2] != 0) as usize,
        cleared: (r > 0 && kept != 0 && few) as usize,
        rebuilt: (r > 0 && kept != 0 && moved) as usize,
        stuck: (r > 0 && kept != 0 && !few && !moved) as usize,
        freed: (held != 0 && new[0] == 0) as usize,
        ..Events::default()
    }
}

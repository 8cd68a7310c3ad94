//! One list of calls put to several stores and to the keeper: after each call all stores must have answered alike and
//! have left the same pool, table and output, and both must be what the keeper knows.

use crate::bills::owed;
use crate::calls::stream_length;
use crate::collected::each;
use crate::events::Events;
use crate::expected::Expected;
use crate::stock::Stock;
use crate::words::Words;
use crate::{Call, Keeper};
use std::collections::BTreeSet;
use terms::{
    fingerprint, Backup, Calls, Capacities, Collected, Fingerprint, Refusal, CLOSING_NUMBERS, MOST_IMAGES, MOST_TILLS,
    OWNER, USERS,
};

/// What outputs are filled with before they are lent.
pub(crate) const UNTOUCHED: u8 = 0xa5;

/// A store with its two buffers.
pub struct Lane {
    pub store: Box<dyn Calls>,
    pub pool: Vec<u8>,
    pub table: Vec<u32>,
}

pub struct Course {
    pub(crate) capacities: Capacities,
    lanes: Vec<Lane>,
    /// Who makes the backups from before blank blocks were known, in the buffers of every store.
    earlier: Option<Backup>,
    keeper: Keeper,
    /// Who makes the call at hand.
    user: u32,
    /// Pool and table as the last accepted call left them.
    pool: Vec<u8>,
    table: Vec<u32>,
    /// Refusals met, each with the call's letter.
    pub met: BTreeSet<(char, u32)>,
    /// Calls made and accepted, and what they did to the records.
    pub made: usize,
    pub accepted: usize,
    pub events: Events,
}

/// An answer's numbers, the refusal first, with zeros behind its own: a closing has the most.
pub type Numbers = [u32; CLOSING_NUMBERS];

/// An answer as numbers, and the output that was lent.
pub type Answer = (Numbers, Vec<u8>);

impl Course {
    /// Lays the same store out for each.
    pub fn new(capacities: Capacities, stores: Vec<Box<dyn Calls>>) -> Course {
        let lanes: Vec<Lane> = stores.into_iter().map(|store| lane(store, capacities)).collect();
        let keeper = Keeper::new(capacities.tills);
        Course::start(capacities, lanes, keeper)
    }

    /// Starts from a sound store, whatever calls it may come from; the keeper gets what the first of the stores has.
    pub fn from_store(pool: &[u8], table: &[u32], stores: Vec<Box<dyn Calls>>) -> Course {
        let capacities = Capacities::of_table(table).expect("a sound store");
        let keeper = keeper_of(stores[0].as_ref(), pool, table, capacities);
        let lane = |store| Lane { store, pool: pool.to_vec(), table: table.to_vec() };
        Course::start(capacities, stores.into_iter().map(lane).collect(), keeper)
    }

    fn start(capacities: Capacities, lanes: Vec<Lane>, keeper: Keeper) -> Course {
        let (pool, table) = (lanes[0].pool.clone(), lanes[0].table.clone());
        let (met, events) = (BTreeSet::new(), Events::default());
        let mut course = Course {
            capacities,
            lanes,
            earlier: None,
            keeper,
            user: OWNER,
            pool,
            table,
            met,
            made: 0,
            accepted: 0,
            events,
        };
        course.lanes_agree(&Call::LayOut(capacities));
        course
    }

    /// With somebody who makes the backups from before blank blocks were known.
    pub fn with_earlier(self, earlier: Backup) -> Course {
        Course { earlier: Some(earlier), ..self }
    }

    pub fn keeper(&self) -> &Keeper {
        &self.keeper
    }

    pub fn buffers(&self) -> (&[u8], &[u32]) {
        (&self.pool, &self.table)
    }

    /// A segment's fingerprint, by the last of the stores.
    pub fn print(&self, segment: &[u8]) -> Fingerprint {
        fingerprint(self.lanes[self.lanes.len() - 1].store.sha1(segment))
    }

    /// What the store has of segments that are told by their fingerprints.
    pub fn stock(&self) -> Stock {
        Stock::of(&self.pool, &self.table, &|segment: &[u8]| self.print(segment))
    }

    /// Makes one call of all stores as the owner and compares. Answers the refusal's number and those of any call but a
    /// closing.
    pub fn call(&mut self, call: &Call) -> [u32; 4] {
        self.call_by(OWNER, call)
    }

    /// The same as any user, of whom some calls know nothing.
    pub fn call_by(&mut self, user: u32, call: &Call) -> [u32; 4] {
        let [refusal, first, second, third, ..] = self.answered(user, call).0;
        [refusal, first, second, third]
    }

    /// All numbers of the owner's call, also of a closing.
    pub fn numbers(&mut self, call: &Call) -> Numbers {
        self.answered(OWNER, call).0
    }

    /// All numbers, and the output that was lent.
    pub fn answered(&mut self, user: u32, call: &Call) -> Answer {
        self.user = user;
        let expected = self.expected(user, call);
        let earlier = self.earlier;
        let mut answers: Vec<Answer> = self.lanes.iter_mut().map(|lane| answer_by(earlier, lane, user, call)).collect();
        let (first, output) = answers.swap_remove(0);
        for (other, other_output) in &answers {
            assert_eq!(first, *other, "{}: answers differ", self.place(call));
            assert!(output == *other_output, "{}: outputs differ", self.place(call));
        }
        match (call, &expected) {
            (Call::Sent { till, .. }, Ok(image)) => self.as_a_full_backup(call, *till, None, image, first),
            (Call::Dated { till, day, .. }, Ok(image)) => self.as_a_full_backup(call, *till, Some(*day), image, first),
            _ => {}
        }
        let accepted = first[0] == 0;
        self.met.insert((letter(call), first[0]));
        self.made += 1;
        self.accepted += accepted as usize;
        if accepted && changes(call) {
            self.events += match call {
                Call::All(collected) => self.as_single_backups(call, collected, &first),
                _ => self.events_of(call),
            };
            self.pool.copy_from_slice(&self.lanes[0].pool);
            self.table.copy_from_slice(&self.lanes[0].table);
        }
        self.lanes_agree(call);
        self.judge(call, &first, &output, expected);
        (first, output)
    }

    /// The image that a message makes, or one with a day, backed up without one on a copy of the store before it: the
    /// answer, every byte and every word are those that the call left, but for the day.
    fn as_a_full_backup(&self, call: &Call, till: u32, day: Option<u32>, image: &[u8], answer: Numbers) {
        for lane in &self.lanes {
            let (mut pool, mut table) = (self.pool.clone(), self.table.clone());
            let full = lane.store.backup(&mut pool, &mut table, self.user, till, image);
            assert_eq!(full, answer[..2], "{}: another answer than a full backup's", self.place(call));
            if let (0, Some(day)) = (full[0], day) {
                let at = Words::new(&table, self.capacities).newest_day_at(till as usize);
                table[at] = day;
            }
            assert!(pool == lane.pool && table == lane.table, "{}: another store", self.place(call));
        }
    }

    /// The images of a closing, backed up one after the other on a copy of the store before it: each answer, every byte
    /// and every word are those of the closing. Answers what the backups have done.
    fn as_single_backups(&self, call: &Call, collected: &Collected, answer: &Numbers) -> Events {
        let (refusals, versions) = answer[1..].split_at(MOST_IMAGES);
        let mut events = Events::default();
        for (n, lane) in self.lanes.iter().enumerate() {
            let (mut pool, mut table) = (self.pool.clone(), self.table.clone());
            for (i, (till, image)) in each(collected).into_iter().flatten().enumerate() {
                let before = table.clone();
                let single = lane.store.backup(&mut pool, &mut table, self.user, till, image);
                assert_eq!(single, [refusals[i], versions[i]], "{}: image {i} by itself", self.place(call));
                if n == 0 && single[0] == 0 {
                    events += Events::between(&before, &table, self.capacities);
                    events += Events::turned(&before, &table, self.capacities, till as usize);
                }
            }
            assert!(pool == lane.pool && table == lane.table, "{}: another store", self.place(call));
        }
        events
    }

    /// What an accepted backup or retire has done, with the table before it still at hand.
    fn events_of(&self, call: &Call) -> Events {
        let after = &self.lanes[0].table;
        let mut events = Events::between(&self.table, after, self.capacities);
        match *call {
            Call::Retire { till, version } => {
                // Counts rise by pointers taken over, and not by a new segment.
                (events.shared, events.shared_with_blanks) = (0, 0);
                events += Events::taken_over(&self.table, self.capacities, till as usize, version);
            }
            Call::Backup { till, .. } | Call::Dated { till, .. } | Call::Sent { till, .. } => {
                events += Events::turned(&self.table, after, self.capacities, till as usize);
            }
            _ => {}
        }
        events
    }

    /// All stores have the buffers that the last accepted call left.
    fn lanes_agree(&mut self, call: &Call) {
        for lane in &self.lanes {
            assert!(lane.pool == self.pool, "{}: pool of the {} differs", self.place(call), lane.store.name());
            assert!(lane.table == self.table, "{}: table of the {} differs", self.place(call), lane.store.name());
        }
    }

    fn place(&self, call: &Call) -> String {
        format!("call {} on {:?}, user {}, {call:?}", self.made, self.capacities.to_array(), self.user)
    }

    /// The answer and output are what the keeper knows, which then follows the call.
    fn judge(&mut self, call: &Call, answer: &Numbers, output: &[u8], expected: Expected) {
        self.judge_refusal(call, answer[0], expected.as_ref().err(), files(call));
        if answer[0] != 0 {
            assert!(answer[1..].iter().all(|&field| field == 0), "{}: a field beside the refusal", self.place(call));
            assert!(output.iter().all(|&byte| byte == UNTOUCHED), "{}: output altered", self.place(call));
            return;
        }
        let written = expected.expect("the call was accepted");
        match call {
            Call::Backup { till, .. } | Call::Earlier { till, .. } | Call::Sent { till, .. } => {
                self.keeper.file(*till, None, &written, !matches!(call, Call::Earlier { .. }));
                assert_eq!(answer[1], self.keeper.tills()[*till as usize].last, "{}", self.place(call));
            }
            Call::Dated { till, day, .. } => {
                self.keeper.file(*till, Some(*day), &written, true);
                assert_eq!(answer[1], self.keeper.tills()[*till as usize].last, "{}", self.place(call));
            }
            Call::Retire { till, version } => {
                let struck = self.keeper.strike(*till, *version).expect("the keeper held it");
                assert_eq!(answer[1] as usize, struck.len(), "{}", self.place(call));
            }
            Call::Restore { till, version, .. } => self.judge_restore(call, *till, *version, answer, output),
            Call::WriteStream { till, version, .. } => self.judge_stream(call, *till, *version, answer, output),
            Call::Listing { till } => {
                let listing = self.keeper.tills()[*till as usize].listing();
                assert_eq!(answer[1..4], [listing.oldest, listing.newest, listing.last], "{}", self.place(call));
            }
            Call::VersionOn { till, day } => {
                assert_eq!(Ok(answer[1]), self.version_on(self.user, *till, *day), "{}", self.place(call));
            }
            Call::Tally => assert_eq!(answer[1], self.occupied(), "{}", self.place(call)),
            Call::Bill { price } => self.judge_bill(call, *price, &answer[1..=MOST_TILLS]),
            Call::Offer { .. } => assert!(output == written, "{}: other marks", self.place(call)),
            Call::All(collected) => self.judge_closing(call, collected, answer),
            Call::SetRights { subject, till, rights } => {
                self.keeper.set_rights(*till, *subject, *rights);
                let words = Words::new(&self.table, self.capacities);
                assert!(words.has_rights_of(&self.keeper), "{}: other rights", self.place(call));
            }
            Call::TableLength(_) | Call::LayOut(_) => {}
        }
    }

    /// A refusal, or none, is the one that is expected; but one that files an image may be refused for want of room.
    fn judge_refusal(&self, call: &Call, said: u32, expected: Option<&Refusal>, files: bool) {
        let number = expected.map_or(0, |refusal| refusal.number());
        let fits = said == number || files && number == 0 && [14, 16].contains(&said);
        assert!(fits, "{}: answered {said}, the keeper has {number}", self.place(call));
    }

    /// Each image of a closing is fed to the keeper as a backup of its own, with whether it was accepted. What was kept is
    /// restored.
    fn judge_closing(&mut self, call: &Call, collected: &Collected, answer: &Numbers) {
        let (refusals, versions) = answer[1..].split_at(MOST_IMAGES);
        let images = each(collected).expect("the lists fit");
        for (n, &(till, image)) in images.iter().enumerate() {
            self.judge_refusal(call, refusals[n], self.backup_refusal(self.user, till, image.len()).as_ref(), true);
            self.met.insert((IN_A_CLOSING, refusals[n]));
            if refusals[n] == 0 {
                self.keeper.file(till, None, image, true);
            }
            let last = if refusals[n] == 0 { self.keeper.tills()[till as usize].last } else { 0 };
            assert_eq!(versions[n], last, "{}: version of image {n}", self.place(call));
        }
        let past = refusals[images.len()..].iter().chain(&versions[images.len()..]);
        assert!(past.into_iter().all(|&number| number == 0), "{}: places past the last image", self.place(call));
        let kept = (0..images.len()).filter(|&n| versions[n] != 0).map(|n| (images[n].0, versions[n]));
        kept.for_each(|(till, version)| self.restored(call, till, version));
    }

    pub(crate) fn occupied(&self) -> u32 {
        occupied(&self.pool, self.capacities)
    }

    /// The sums are what the table's words have each till owe, and add up to the price of all occupied cells.
    fn judge_bill(&self, call: &Call, price: u32, sums: &[u32]) {
        let words = Words::new(&self.table, self.capacities);
        assert_eq!(sums, owed(&words, self.capacities.tills as usize, price), "{}", self.place(call));
        assert_eq!(sums.iter().sum::<u32>(), price * self.occupied(), "{}: the total", self.place(call));
    }

    /// Every store gives a held version back.
    fn restored(&self, call: &Call, till: u32, version: u32) {
        for Lane { store, pool, table } in &self.lanes {
            let mut output = vec![UNTOUCHED; self.capacities.image_bytes()];
            let answer = store.restore(pool, table, OWNER, till, version, &mut output);
            assert_eq!(answer[0], 0, "{}: restore of till {till}, version {version}", self.place(call));
            self.judge_restore(call, till, version, &answer, &output);
        }
    }

    fn judge_restore(&self, call: &Call, number: u32, version: u32, answer: &[u32], output: &[u8]) {
        let till = &self.keeper.tills()[number as usize];
        let image = till.image(version).expect("the keeper holds it");
        assert_eq!(answer[1] as usize, image.len(), "{}", self.place(call));
        assert!(output[..image.len()] == image[..], "{}: another image", self.place(call));
        let later = &output[image.len()..];
        assert!(later.iter().all(|&byte| byte == UNTOUCHED), "{}: wrote too far", self.place(call));
        let hops = answer[2] as usize;
        assert!(hops <= till.newer(version), "{}: chain of {hops}", self.place(call));
    }

    /// Every store reads the stream that was written as the keeper's image.
    fn judge_stream(&self, call: &Call, number: u32, version: u32, answer: &[u32], output: &[u8]) {
        let image = self.keeper.tills()[number as usize].image(version).expect("the keeper holds it");
        assert_eq!(answer[1] as usize, stream_length(image), "{}", self.place(call));
        let (stream, later) = output.split_at(answer[1] as usize);
        assert!(later.iter().all(|&byte| byte == UNTOUCHED), "{}: wrote too far", self.place(call));
        for Lane { store, .. } in &self.lanes {
            let mut read = vec![UNTOUCHED; image.len()];
            assert_eq!(store.read_stream(stream, &mut read), [0, image.len() as u32], "{}", self.place(call));
            assert!(read == image, "{}: another image", self.place(call));
        }
    }
}

/// Cells with a byte other than zero.
pub(crate) fn occupied(pool: &[u8], capacities: Capacities) -> u32 {
    let cells = pool.chunks(capacities.block_bytes as usize);
    cells.filter(|cell| cell.iter().any(|&byte| byte != 0)).count() as u32
}

/// Whether an accepted call changes the store.
fn changes(call: &Call) -> bool {
    files(call) || matches!(call, Call::Retire { .. } | Call::SetRights { .. } | Call::All(_))
}

/// Whether it files one image.
pub(crate) fn files(call: &Call) -> bool {
    matches!(call, Call::Backup { .. } | Call::Dated { .. } | Call::Earlier { .. } | Call::Sent { .. })
}

/// A store laid out in buffers that were not all zero.
fn lane(store: Box<dyn Calls>, capacities: Capacities) -> Lane {
    let [0, words] = store.table_length(capacities) else { panic!("{}: no length", store.name()) };
    let (mut pool, mut table) = (vec![1; capacities.pool_bytes()], vec![1; words as usize]);
    assert_eq!(store.lay_out(&mut pool, &mut table, capacities), [0], "{}: lay out", store.name());
    Lane { store, pool, table }
}

/// A keeper of what a store has now.
fn keeper_of(store: &dyn Calls, pool: &[u8], table: &[u32], capacities: Capacities) -> Keeper {
    let mut keeper = Keeper::new(capacities.tills);
    for till in 0..capacities.tills {
        let [0, .., last] = store.listing(pool, table, OWNER, till) else { panic!("an unsound store") };
        keeper.begin(till, last);
        let words = Words::new(table, capacities);
        (1..USERS).for_each(|user| keeper.set_rights(till, user, words.rights(till as usize, user)));
        for (version, day) in words.numbers(till as usize).into_iter().zip(words.days(till as usize)) {
            let mut image = vec![0; capacities.image_bytes()];
            let [0, length, _] = store.restore(pool, table, OWNER, till, version, &mut image) else {
                panic!("not restored")
            };
            keeper.find(till, version, day, &image[..length as usize]);
        }
    }
    keeper
}

/// Makes one call of one store.
pub fn answer(lane: &mut Lane, user: u32, call: &Call) -> Answer {
    answer_by(None, lane, user, call)
}

/// The same with somebody who makes the earlier backups.
fn answer_by(earlier: Option<Backup>, lane: &mut Lane, user: u32, call: &Call) -> Answer {
    let Lane { store, pool, table } = lane;
    let mut output = Vec::new();
    let numbers = match call {
        Call::TableLength(capacities) => store.table_length(*capacities).to_vec(),
        Call::LayOut(capacities) => store.lay_out(pool, table, *capacities).to_vec(),
        Call::Backup { till, image } => store.backup(pool, table, user, *till, image).to_vec(),
        Call::Dated { till, day, image } => store.backup_dated(pool, table, user, *till, *day, image).to_vec(),
        Call::Earlier { till, image } => {
            let earlier = earlier.expect("somebody makes the earlier backups");
            earlier(pool, table, *till, image).to_vec()
        }
        Call::Restore { till, version, room } => {
            output.resize(*room, UNTOUCHED);
            store.restore(pool, table, user, *till, *version, &mut output).to_vec()
        }
        Call::WriteStream { till, version, room } => {
            output.resize(*room, UNTOUCHED);
            store.write_stream(pool, table, user, *till, *version, &mut output).to_vec()
        }
        Call::Offer { till, fingerprints, room } => {
            output.resize(*room, UNTOUCHED);
            store.offer(pool, table, user, *till, fingerprints, &mut output).to_vec()
        }
        Call::Sent { till, sending } => store.backup_sent(pool, table, user, *till, sending.message()).to_vec(),
        Call::Retire { till, version } => store.retire(pool, table, user, *till, *version).to_vec(),
        Call::Listing { till } => store.listing(pool, table, user, *till).to_vec(),
        Call::VersionOn { till, day } => store.version_on(pool, table, user, *till, *day).to_vec(),
        Call::SetRights { subject, till, rights } => {
            store.set_rights(pool, table, user, *subject, *till, *rights).to_vec()
        }
        Call::Tally => store.tally(pool, table, user).to_vec(),
        Call::Bill { price } => store.bill(pool, table, user, *price).to_vec(),
        Call::All(collected) => store.backup_all(pool, table, user, collected.closing()).to_vec(),
    };
    (std::array::from_fn(|i| numbers.get(i).copied().unwrap_or(0)), output)
}

/// The letter of what an image of a closing was answered.
pub(crate) const IN_A_CLOSING: char = 'c';

/// The call's letter in what was met.
pub(crate) fn letter(call: &Call) -> char {
    match call {
        Call::TableLength(_) => 'l',
        Call::LayOut(_) => 'o',
        Call::Backup { .. } => 'b',
        Call::Dated { .. } => 'd',
        Call::Earlier { .. } => 'e',
        Call::Restore { .. } => 'r',
        Call::Retire { .. } => 'q',
        Call::Listing { .. } => 'i',
        Call::VersionOn { .. } => 'v',
        Call::Tally => 't',
        Call::Bill { .. } => 'p',
        Call::SetRights { .. } => 'k',
        Call::WriteStream { .. } => 's',
        Call::Offer { .. } => 'f',
        Call::Sent { .. } => 'm',
        Call::All(_) => 'a',
    }
}

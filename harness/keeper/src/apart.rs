//! Two histories from a fresh lay out that differ only in accepted calls on one till, side by side. A user who has no
//! right on that till must get the same answers and bytes on the others; here everybody does, but for what the page
//! leaves out: the marks of the first message, and all that follows an answer for want of room.

use crate::calls::{List, Style};
use crate::collected::each;
use crate::{Call, Course, Random};
use std::ops::AddAssign;
use terms::{Calls, Capacities, Collected, Refusal, Rights, OWNER, USERS};

/// Answers that depend on the shared pool. All that follows them is left out.
const OF_THE_POOL: [u32; 5] = [14, 16, 19, 20, 21];

/// What was compared.
#[derive(Debug, Default)]
pub struct Compared {
    /// Answers to the user who has no right on the till: accepted ones, and those of closings image by image.
    pub accepted: usize,
    pub refused: usize,
    /// Of these the ones on the till itself, all refused.
    pub on_the_till: usize,
    /// Calls on the till that one history has and the other has not.
    pub apart: usize,
    /// Marks that were others in the other history.
    pub other_marks: usize,
    /// Histories that came to an answer that depends on the pool.
    pub ended: usize,
}

impl AddAssign for Compared {
    fn add_assign(&mut self, more: Compared) {
        let Compared { accepted, refused, on_the_till, apart, other_marks, ended } = more;
        self.accepted += accepted;
        self.refused += refused;
        self.on_the_till += on_the_till;
        self.apart += apart;
        self.other_marks += other_marks;
        self.ended += ended;
    }
}

pub struct Apart {
    histories: [Course; 2],
    /// The till that they differ in, and the user who has no right on it.
    till: u32,
    watcher: u32,
    pub compared: Compared,
}

/// An answer that ends the comparison.
struct Ended;

impl Apart {
    /// Two stores of the same capacities, with two tills or more. The watcher may do all on the other tills at first.
    pub fn new(random: &mut Random, capacities: Capacities, stores: fn() -> Vec<Box<dyn Calls>>) -> Apart {
        let till = random.below(capacities.tills as usize) as u32;
        let watcher = random.between(1, USERS as usize - 1) as u32;
        let mut histories = [(); 2].map(|()| Course::new(capacities, stores()));
        for other in (0..capacities.tills).filter(|&other| other != till) {
            let call = Call::SetRights { subject: watcher, till: other, rights: Rights::ALL };
            histories.iter_mut().for_each(|course| assert_eq!(course.call(&call)[0], 0));
        }
        Apart { histories, till, watcher, compared: Compared::default() }
    }

    /// Goes on with so many calls, or up to an answer that depends on the pool.
    pub fn run(&mut self, random: &mut Random, style: Style, calls: usize) {
        let list = List::new(random, self.histories[0].capacities, style).with_staff();
        let ended = (0..calls).any(|_| self.step(random, &list).is_err());
        self.compared.ended += ended as usize;
    }

    fn step(&mut self, random: &mut Random, list: &List) -> Result<(), Ended> {
        let from = random.below(2);
        let (user, call) = list.next(random, &self.histories[from]);
        let user = if random.percent(30) { self.watcher } else { user };
        match call {
            // The watcher is to have no right on the till.
            Call::SetRights { subject, till, .. } if (subject, till) == (self.watcher, self.till) => Ok(()),
            Call::All(collected) => self.close(from, user, collected),
            _ if user != self.watcher && on(&call) == Some(self.till) => self.apart(from, user, &call),
            _ => self.both(user, &call),
        }
    }

    /// A call on the till in one history alone, if it is accepted there.
    fn apart(&mut self, history: usize, user: u32, call: &Call) -> Result<(), Ended> {
        let course = &mut self.histories[history];
        if course.expected(user, call).is_ok() {
            going_on(course.call_by(user, call)[0])?;
            self.compared.apart += 1;
        }
        Ok(())
    }

    /// A call in both histories.
    fn both(&mut self, user: u32, call: &Call) -> Result<(), Ended> {
        let expected = self.histories.each_ref().map(|course| course.expected(user, call));
        if expected.iter().any(|one| matches!(one, Err(Refusal::OtherSegment | Refusal::NoSegment))) {
            return Ok(());
        }
        let [one, other] = self.histories.each_mut().map(|course| course.answered(user, call));
        going_on(one.0[0])?;
        going_on(other.0[0])?;
        match call {
            // The tally and the bill are the owner's, and tell of the whole pool.
            Call::Tally | Call::Bill { .. } if user == OWNER => return Ok(()),
            Call::Offer { .. } => self.compared.other_marks += (one.1 != other.1) as usize,
            _ => assert!(one == other, "till {}, user {user}, {call:?}: {one:?} and {other:?}", self.till),
        }
        assert_eq!(one.0, other.0, "user {user}, {call:?}");
        if user == self.watcher && on(call).is_some() {
            self.count(on(call), one.0[0]);
        }
        Ok(())
    }

    /// Counts an answer to the watcher.
    fn count(&mut self, till: Option<u32>, refusal: u32) {
        let on_the_till = till == Some(self.till);
        // 22 is for a change of rights that nobody can make.
        assert!(!on_the_till || [22, 23].contains(&refusal), "answered {refusal} on the till without a right");
        self.compared.on_the_till += on_the_till as usize;
        self.compared.accepted += (refusal == 0) as usize;
        self.compared.refused += (refusal != 0) as usize;
    }

    /// A closing in both histories. Of somebody other than the watcher only one of them has the images of the till.
    fn close(&mut self, history: usize, user: u32, collected: Collected) -> Result<(), Ended> {
        let Some(images) = each(&collected) else { return self.both(user, &Call::All(collected)) };
        let whole = user == self.watcher;
        let others = images.iter().copied().filter(|(till, _)| whole || *till != self.till);
        let mut closings = [Collected::of(others.clone()), Collected::of(others)];
        closings[history] = collected.clone();
        let mut answers = [Vec::new(), Vec::new()];
        for n in 0..2 {
            let tills = closings[n].tills.clone();
            let (numbers, _) = self.histories[n].answered(user, &Call::All(closings[n].clone()));
            numbers[1..=tills.len()].iter().try_for_each(|&refusal| going_on(refusal))?;
            let answer = |(i, till): (usize, u32)| (till, [numbers[1 + i], numbers[17 + i]]);
            answers[n] = tills.into_iter().enumerate().map(answer).collect();
            answers[n].retain(|&(till, _)| whole || till != self.till);
        }
        assert_eq!(answers[0], answers[1], "user {user}, closing of {:?}", collected.tills);
        if whole {
            answers[0].iter().for_each(|&(till, [refusal, _])| self.count(Some(till), refusal));
        }
        Ok(())
    }
}

/// The till that a call names, if it names one.
fn on(call: &Call) -> Option<u32> {
    match *call {
        Call::SetRights { till, .. } => Some(till),
        _ => call.needs().map(|(till, _)| till),
    }
}

fn going_on(refusal: u32) -> Result<(), Ended> {
    match OF_THE_POOL.contains(&refusal) {
        true => Err(Ended),
        false => Ok(()),
    }
}

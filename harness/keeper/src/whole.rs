//! The page's keeper of whole images.

use std::collections::BTreeMap;
use terms::{Listing, Refusal, Right, Rights, OWNER, USERS};

/// For each till the last number given, the held versions, each a whole image, and what each user may do.
pub struct Keeper {
    tills: Vec<Till>,
}

#[derive(Clone)]
pub struct Till {
    pub last: u32,
    pub held: BTreeMap<u32, Kept>,
    /// Of each user; the owner has all.
    rights: [Rights; USERS as usize],
}

impl Default for Till {
    /// As laid out: only the owner has rights.
    fn default() -> Till {
        let mut rights = [Rights::NONE; USERS as usize];
        rights[OWNER as usize] = Rights::ALL;
        Till { last: 0, held: BTreeMap::new(), rights }
    }
}

/// A held version.
#[derive(Clone)]
pub struct Kept {
    pub image: Vec<u8>,
    pub day: u32,
    /// The number of its till's newest version when it was taken, 0 if none was held.
    pub previous: u32,
    /// Whether it was taken when blank blocks were known, or was its till's newest when such a one was taken: then its
    /// blocks of 255s have no cell.
    pub knows_blanks: bool,
}

impl Keeper {
    pub fn new(tills: u32) -> Keeper {
        Keeper { tills: vec![Till::default(); tills as usize] }
    }

    pub fn tills(&self) -> &[Till] {
        &self.tills
    }

    pub fn till(&self, till: u32) -> Option<&Till> {
        self.tills.get(till as usize)
    }

    /// The till of this number for a user who has the right on it, or 3, 22 or 23, in this order.
    pub fn admitted(&self, user: u32, till: u32, right: Right) -> Result<&Till, Refusal> {
        let till = self.till(till).ok_or(Refusal::NoSuchTill)?;
        let rights = till.rights.get(user as usize).ok_or(Refusal::UnknownUser)?;
        rights.has(right).then_some(till).ok_or(Refusal::NoRight)
    }

    /// An accepted change of rights. Only here do those of a user alter.
    pub fn set_rights(&mut self, till: u32, subject: u32, rights: Rights) {
        self.tills[till as usize].rights[subject as usize] = rights;
    }

    /// A till whose last number was this one.
    pub fn begin(&mut self, till: u32, last: u32) {
        self.tills[till as usize].last = last;
    }

    /// A version that is there from the beginning. Nobody knows which one was the newest when it was taken.
    pub fn find(&mut self, till: u32, version: u32, day: u32, image: &[u8]) {
        self.tills[till as usize]
            .held
            .insert(version, Kept { image: image.to_vec(), day, previous: 0, knows_blanks: false });
    }

    /// An accepted backup files the image under the till's next number. It was made when blank blocks were known, or
    /// before. Without a day it takes that of the till's newest held version, or 0 if none is held.
    pub fn file(&mut self, till: u32, day: Option<u32>, image: &[u8], knows_blanks: bool) {
        let till = &mut self.tills[till as usize];
        let (previous, day) = (till.newest(), day.unwrap_or(till.newest_day()));
        if let Some(kept) = till.held.get_mut(&previous) {
            kept.knows_blanks |= knows_blanks;
        }
        till.last += 1;
        till.held.insert(till.last, Kept { image: image.to_vec(), day, previous, knows_blanks });
    }

    /// An accepted retire strikes the version named.
    pub fn strike(&mut self, till: u32, version: u32) -> Option<Vec<u8>> {
        self.tills[till as usize].held.remove(&version).map(|kept| kept.image)
    }

    /// All images' bytes.
    pub fn bytes(&self) -> usize {
        self.tills.iter().flat_map(|till| till.held.values()).map(|kept| kept.image.len()).sum()
    }
}

impl Till {
    /// What a user may do, if there is such a user.
    pub fn rights(&self, user: u32) -> Option<Rights> {
        self.rights.get(user as usize).copied()
    }

    pub fn oldest(&self) -> u32 {
        self.held.first_key_value().map_or(0, |(&number, _)| number)
    }

    pub fn newest(&self) -> u32 {
        self.held.last_key_value().map_or(0, |(&number, _)| number)
    }

    pub fn newest_image(&self) -> Option<&[u8]> {
        self.held.last_key_value().map(|(_, kept)| kept.image.as_slice())
    }

    pub fn image(&self, version: u32) -> Option<&[u8]> {
        self.held.get(&version).map(|kept| kept.image.as_slice())
    }

    /// The day of the newest held version, 0 if none is held.
    pub fn newest_day(&self) -> u32 {
        self.held.last_key_value().map_or(0, |(_, kept)| kept.day)
    }

    /// The newest held version that is not after a day.
    pub fn version_on(&self, day: u32) -> Option<u32> {
        self.held.iter().filter(|(_, kept)| kept.day <= day).map(|(&number, _)| number).max()
    }

    /// The days of the held versions, the oldest version's first.
    pub fn days(&self) -> impl Iterator<Item = u32> + '_ {
        self.held.values().map(|kept| kept.day)
    }

    /// Why a number is not held: it was given once, or never.
    pub fn missing(&self, version: u32) -> Refusal {
        match (1..=self.last).contains(&version) {
            true => Refusal::NoLongerHeld,
            false => Refusal::NeverGiven,
        }
    }

    /// How many held versions are newer than this one.
    pub fn newer(&self, version: u32) -> usize {
        self.held.range(version + 1..).count()
    }

    pub fn listing(&self) -> Listing {
        Listing { oldest: self.oldest(), newest: self.newest(), last: self.last }
    }
}

//! What the keeper expects of a call.

use crate::calls::stream_length;
use crate::collected::each;
use crate::stock::{fits, offer_fits};
use crate::{Call, Course};
use terms::{Capacities, Refusal, Right, Sending, HIGHEST_PRICE, LAST_NUMBER, OWNER, USERS};

/// What the keeper expects of a call before it is made: a refusal, or the image that it files or the marks that it
/// writes, if it does.
pub type Expected = Result<Vec<u8>, Refusal>;

impl Course {
    /// Of a backup's refusals, 14 and 16 are beyond the keeper.
    pub(crate) fn expected(&self, user: u32, call: &Call) -> Expected {
        let outside = |capacities: &Capacities| (!capacities.in_range()).then_some(Refusal::Capacity);
        let refusal = match call {
            Call::Offer { till, fingerprints, room } => return self.expected_marks(user, *till, fingerprints, *room),
            Call::Sent { till, sending } => return self.expected_image(user, *till, sending),
            Call::Backup { till, image } => return self.expected_backup(user, *till, None, image),
            Call::Dated { till, day, image } => return self.expected_backup(user, *till, Some(*day), image),
            Call::Earlier { till, image } => return self.expected_backup(OWNER, *till, None, image),
            Call::TableLength(capacities) => outside(capacities),
            Call::LayOut(capacities) => outside(capacities).or(Some(Refusal::Lengths)),
            Call::Tally => owned(user).err(),
            Call::Bill { price } => owned(user).err().or((*price > HIGHEST_PRICE).then_some(Refusal::HighPrice)),
            Call::Listing { till } => self.keeper().admitted(user, *till, Right::List).err(),
            Call::VersionOn { till, day } => self.version_on(user, *till, *day).err(),
            Call::Restore { till, version, room } => {
                too_short(self.image(user, Right::Restore, *till, *version), *room, <[u8]>::len)
            }
            Call::WriteStream { till, version, room } => {
                too_short(self.image(user, Right::Restore, *till, *version), *room, stream_length)
            }
            Call::Retire { till, version } => self.image(user, Right::Retire, *till, *version).err(),
            Call::SetRights { subject, till, .. } => self.change_refusal(user, *subject, *till).err(),
            Call::All(collected) => each(collected).is_none().then_some(Refusal::ImageLength),
        };
        refusal.map_or_else(|| Ok(Vec::new()), Err)
    }

    fn expected_backup(&self, user: u32, till: u32, day: Option<u32>, image: &[u8]) -> Expected {
        let early = || day.and_then(|day| self.day_refusal(till, day));
        self.backup_refusal(user, till, image.len()).or_else(early).map_or_else(|| Ok(image.to_vec()), Err)
    }

    fn expected_marks(&self, user: u32, till: u32, fingerprints: &[u8], room: usize) -> Expected {
        self.keeper().admitted(user, till, Right::BackUp)?;
        match offer_fits(fingerprints, room, self.capacities) {
            true => Ok(self.stock().marks(fingerprints)),
            false => Err(Refusal::ImageLength),
        }
    }

    fn expected_image(&self, user: u32, till: u32, sending: &Sending) -> Expected {
        self.keeper().admitted(user, till, Right::BackUp)?;
        if !fits(sending, self.capacities) {
            return Err(Refusal::ImageLength);
        }
        match self.backup_refusal(user, till, sending.length as usize) {
            Some(refusal) => Err(refusal),
            None => self.stock().assembled(sending, &|segment: &[u8]| self.print(segment)),
        }
    }

    /// The image that the keeper has under these numbers for a user with this right, or why there is none.
    fn image(&self, user: u32, right: Right, till: u32, version: u32) -> Result<&[u8], Refusal> {
        let till = self.keeper().admitted(user, till, right)?;
        till.image(version).ok_or(till.missing(version))
    }

    /// The version that the keeper finds by a day, or why it finds none.
    pub(crate) fn version_on(&self, user: u32, till: u32, day: u32) -> Result<u32, Refusal> {
        let till = self.keeper().admitted(user, till, Right::List)?;
        till.version_on(day).ok_or(Refusal::NoneSoEarly)
    }

    /// Why a user cannot set another one's rights on a till.
    fn change_refusal(&self, user: u32, subject: u32, till: u32) -> Result<(), Refusal> {
        self.keeper().till(till).ok_or(Refusal::NoSuchTill)?;
        let known = user < USERS && subject < USERS && subject != OWNER;
        known.then_some(()).ok_or(Refusal::UnknownUser)?;
        owned(user)
    }

    /// The refusal of a day, where nothing else is wrong with a backup that the keeper knows of.
    fn day_refusal(&self, till: u32, day: u32) -> Option<Refusal> {
        (day < self.keeper().till(till)?.newest_day()).then_some(Refusal::EarlierDay)
    }

    pub(crate) fn backup_refusal(&self, user: u32, till: u32, length: usize) -> Option<Refusal> {
        let till = match self.keeper().admitted(user, till, Right::BackUp) {
            Ok(till) => till,
            Err(refusal) => return Some(refusal),
        };
        if length == 0 || length > self.capacities.image_bytes() {
            Some(Refusal::ImageLength)
        } else if till.held.len() == self.capacities.versions as usize {
            Some(Refusal::TillFull)
        } else {
            (till.last == LAST_NUMBER).then_some(Refusal::NumbersSpent)
        }
    }
}

/// What is the owner's alone: 22 for a user that is unknown, 23 for any other.
fn owned(user: u32) -> Result<(), Refusal> {
    match user {
        OWNER => Ok(()),
        1..USERS => Err(Refusal::NoRight),
        _ => Err(Refusal::UnknownUser),
    }
}

/// The refusal of a call that writes an image, in a form of so many bytes, to so much room.
fn too_short(image: Result<&[u8], Refusal>, room: usize, bytes: fn(&[u8]) -> usize) -> Option<Refusal> {
    match image {
        Ok(image) => (room < bytes(image)).then_some(Refusal::ShortOutput),
        Err(refusal) => Some(refusal),
    }
}

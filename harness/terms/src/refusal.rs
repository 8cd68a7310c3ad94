//! Why a call is refused.

use std::fmt;

/// A refusal, with the page's number as its value and the page's words as its text. 13 and 15 are no longer
/// answered. A chain has 1 for no store, more than eight or lists of unequal count, 10 for lengths that do not add up or
/// any unsound store, and 3 for a store number outside it.
#[derive(Clone, Copy, Debug, PartialEq, Eq, PartialOrd, Ord, Hash)]
#[repr(u32)]
pub enum Refusal {
    Capacity = 1,
    Lengths = 2,
    NoSuchTill = 3,
    ImageLength = 4,
    ShortOutput = 5,
    Unsound = 10,
    TillFull = 11,
    NumbersSpent = 12,
    NoRecord = 14,
    NoRun = 16,
    NeverGiven = 17,
    NoLongerHeld = 18,
    OtherSegment = 19,
    NoSegment = 20,
    OverLimit = 21,
    UnknownUser = 22,
    NoRight = 23,
    StreamSize = 24,
    StreamLength = 25,
    StreamBits = 26,
    NoTurn = 27,
    EarlierDay = 28,
    NoneSoEarly = 29,
    HighPrice = 30,
}

impl Refusal {
    pub const ALL: [Refusal; 24] = [
        Refusal::Capacity,
        Refusal::Lengths,
        Refusal::NoSuchTill,
        Refusal::ImageLength,
        Refusal::ShortOutput,
        Refusal::Unsound,
        Refusal::TillFull,
        Refusal::NumbersSpent,
        Refusal::NoRecord,
        Refusal::NoRun,
        Refusal::NeverGiven,
        Refusal::NoLongerHeld,
        Refusal::OtherSegment,
        Refusal::NoSegment,
        Refusal::OverLimit,
        Refusal::UnknownUser,
        Refusal::NoRight,
        Refusal::StreamSize,
        Refusal::StreamLength,
        Refusal::StreamBits,
        Refusal::NoTurn,
        Refusal::EarlierDay,
        Refusal::NoneSoEarly,
        Refusal::HighPrice,
    ];

    /// The page's number.
    pub const fn number(self) -> u32 {
        self as u32
    }

    /// The refusal that has this number, if one has.
    pub fn from_number(number: u32) -> Option<Refusal> {
        Refusal::ALL.into_iter().find(|refusal| refusal.number() == number)
    }

    /// The page's words.
    pub const fn words(self) -> &'static str {
        match self {
            Refusal::Capacity => "a capacity outside its range",
            Refusal::Lengths => "in laying out, pool or table of another length than needed",
            Refusal::NoSuchTill => "till number not below the tills",
            Refusal::ImageLength => {
                "image empty, or longer than block size × blocks per image, or lists of a message or a closing that do not fit"
            }
            Refusal::ShortOutput => "output shorter than the version, its stream or a stream's image",
            Refusal::Unsound => "pool and table are not a sound store",
            Refusal::TillFull => "the till holds its full number of versions",
            Refusal::NumbersSpent => "its last given number is 65,535",
            Refusal::NoRecord => "a segment to be placed in step 1 finds no free record",
            Refusal::NoRun => "a segment to be placed finds no run",
            Refusal::NeverGiven => "a version number that is 0 or above the till's last given",
            Refusal::NoLongerHeld => "a version number given before and no longer held",
            Refusal::OtherSegment => {
                "a sent segment with another fingerprint, or a sent or had one with a byte other than zero after the length"
            }
            Refusal::NoSegment => "a segment neither sent nor had",
            Refusal::OverLimit => "a backup after which the chain would have more cells occupied than its limit",
            Refusal::UnknownUser => "an unknown user, or a change to user 0's rights",
            Refusal::NoRight => "a missing right",
            Refusal::StreamSize => "a stream too short or too long",
            Refusal::StreamLength => "a stream with a length of 0 or above 65,536",
            Refusal::StreamBits => {
                "a stream with a bit on a null or missing block, or a byte other than zero after the length"
            }
            Refusal::NoTurn => "a till count outside 1 to 16, a mark at or above it, or a last till at or above it",
            Refusal::EarlierDay => "a day before that of the till's newest held version",
            Refusal::NoneSoEarly => "no held version is as early as that day",
            Refusal::HighPrice => "a price above 10,000",
        }
    }
}

impl fmt::Display for Refusal {
    fn fmt(&self, f: &mut fmt::Formatter<'_>) -> fmt::Result {
        write!(f, "refused, {}: {}", self.number(), self.words())
    }
}

impl std::error::Error for Refusal {}

#[cfg(test)]
mod tests {
    use super::Refusal;

    #[test]
    fn numbers_lead_back() {
        for refusal in Refusal::ALL {
            assert_eq!(Refusal::from_number(refusal.number()), Some(refusal));
        }
        for number in [0, 6, 7, 8, 9, 13, 15, 31, u32::MAX] {
            assert_eq!(Refusal::from_number(number), None);
        }
    }

    #[test]
    fn text_has_number_and_words() {
        let words = "refused, 18: a version number given before and no longer held";
        assert_eq!(Refusal::NoLongerHeld.to_string(), words);
    }
}

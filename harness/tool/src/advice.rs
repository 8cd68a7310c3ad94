//! A refusal in plain words: what it means for this call, and what to do about it.

use crate::arguments::Named;
use crate::calendar;
use crate::names::{quoted, shown};
use crate::store::Store;
use crate::words::{bytes, cents, counted};
use crate::{image, numbers, rights, table, Failure};
use lurdempos::{
    Capacities, Listing, Message, Refusal, Right, FINGERPRINT, HIGHEST_PRICE, LAST_NUMBER, LONGEST_IMAGE, MOST_IMAGES,
    MOST_SEGMENTS, OWNER, USERS,
};
use std::collections::HashSet;
use std::path::Path;

/// Who makes a call, and on which till.
#[derive(Clone, Copy)]
pub struct By {
    pub user: u32,
    pub till: u32,
}

/// A call on a sound store that was refused.
pub struct Call<'a> {
    pub file: &'a Path,
    pub store: &'a Store,
    pub by: By,
    /// The right that it needs.
    pub right: Right,
    /// The version named, 0 if the call names none.
    pub version: u32,
    /// The day named, 0 if the call names none.
    pub day: u32,
    /// The image, empty if the call has none.
    pub image: &'a [u8],
}

impl<'a> Call<'a> {
    /// A call that names a till and no more.
    pub fn of_till(file: &'a Path, store: &'a Store, by: By, right: Right) -> Call<'a> {
        Call { file, store, by, right, version: 0, day: 0, image: &[] }
    }

    /// The number of a version that the command line names. To find the newest, or one by its day, needs the right to
    /// list.
    pub fn number(&self, version: Named) -> Result<u32, Failure> {
        let By { user, till } = self.by;
        let listed = Call { right: Right::List, ..*self };
        match version {
            Named::Number(number) => Ok(number),
            Named::Newest => {
                let listing = self.store.listing(user, till).map_err(|refusal| listed.refused(refusal))?;
                Ok(listing.newest)
            }
            Named::OnDay(day) => {
                let found = self.store.version_on(user, till, day);
                found.map_err(|refusal| Call { day, ..listed }.refused(refusal))
            }
        }
    }

    /// A version's image, with its number.
    pub fn image_of(&self, version: Named) -> Result<(u32, Vec<u8>), Failure> {
        let version = self.number(version)?;
        let image = self.store.image(self.by.user, self.by.till, version);
        image.map(|image| (version, image)).map_err(|refusal| Call { version, ..*self }.refused(refusal))
    }

    pub fn refused(&self, refusal: Refusal) -> Failure {
        let (here, advice) = match refusal {
            Refusal::NoSuchTill => self.no_such_till(),
            Refusal::ImageLength => self.image_length(),
            Refusal::TillFull => self.till_full(),
            Refusal::NumbersSpent => self.numbers_spent(),
            Refusal::NoRecord | Refusal::NoRun => self.no_room(refusal),
            Refusal::UnknownUser => return unknown_user(self.by.user),
            Refusal::NoRight => self.no_right(),
            Refusal::NeverGiven => self.never_given(),
            Refusal::NoLongerHeld => self.no_longer_held(),
            Refusal::EarlierDay => self.earlier_day(),
            Refusal::NoneSoEarly => self.none_so_early(),
            Refusal::Unsound => return unsound(refusal, self.file),
            Refusal::Capacity | Refusal::Lengths | Refusal::ShortOutput | Refusal::NoTurn => unforeseen(),
            // Streams are read before there is a call.
            Refusal::StreamSize | Refusal::StreamLength | Refusal::StreamBits => unforeseen(),
            // A bill names no till.
            Refusal::HighPrice => unforeseen(),
            Refusal::OverLimit => self.over_limit(),
            Refusal::OtherSegment | Refusal::NoSegment => return self.message_refused(refusal, "the message"),
        };
        Failure::refused(refusal, here, advice)
    }

    /// The same for a till's second message, where the till must offer its fingerprints again.
    pub fn message_refused(&self, refusal: Refusal, name: &str) -> Failure {
        let again = format!("`lurdempos offer {} {} FINGERPRINTS OUT`", quoted(self.file), self.by.till);
        let (here, advice) = match refusal {
            Refusal::TillFull => {
                let advice =
                    format!("retire its oldest first: `{}`; then begin anew with {again}.", self.retire_oldest());
                (self.till_full().0, advice)
            }
            Refusal::NoSegment => {
                let here = format!("{name} leaves out a segment that this store does not have, or no longer");
                (here, format!("begin anew with {again}, and send all segments that it does not mark."))
            }
            _ => {
                let here =
                    format!("{name} has a segment that is not what its fingerprint tells, or the image ends within it");
                (here, format!("it was altered on its way, or is of two images: begin anew with {again}."))
            }
        };
        Failure::refused(refusal, here, advice)
    }

    /// The owner can give it.
    fn no_right(&self) -> (String, String) {
        let By { user, till } = self.by;
        let (file, right) = (quoted(self.file), rights::word(self.right));
        let here = format!("user {user} has not the right {right} on till {till}");
        (
            here,
            format!(
                "if user {user} should have it, the owner gives it: `lurdempos grant {file} {till} {user} {right}`."
            ),
        )
    }

    fn no_such_till(&self) -> (String, String) {
        let here = match self.store.capacities().tills {
            1 => format!("there is no till {}, this store has till 0 alone", self.by.till),
            tills => format!("there is no till {}, this store has tills 0 to {}", self.by.till, tills - 1),
        };
        (here, format!("see what it holds with `lurdempos list {}`.", quoted(self.file)))
    }

    fn image_length(&self) -> (String, String) {
        let most = self.store.capacities().image_bytes();
        let length = image::length(self.image);
        let advice = format!(
            "see that the image is the till's whole memory and nothing else; \
             for longer images make a store with `lurdempos init --image-bytes` (at most {LONGEST_IMAGE})."
        );
        (format!("the image has {length}, this store takes 1 to {most}"), advice)
    }

    fn till_full(&self) -> (String, String) {
        let here = format!("till {} holds {} already", self.by.till, self.store.capacities().versions);
        let retire = self.retire_oldest();
        (here, format!("retire its oldest first: `{retire}`; `backup --rotate` does both in one."))
    }

    fn numbers_spent(&self) -> (String, String) {
        let here = format!("till {} can give no number after {LAST_NUMBER}", self.by.till);
        (here, "go on in a new store, made with `lurdempos init`; this one still restores.".into())
    }

    /// The number is mistyped; or the till has no version, and so no newest one.
    fn never_given(&self) -> (String, String) {
        let (till, version, held, choose) = (self.by.till, self.version, self.held(), self.choose());
        let Listing { newest, last, .. } = self.listing();
        if last == 0 {
            (format!("till {till} holds no version, and has given no number yet"), format!("{choose}."))
        } else if newest == 0 && version == 0 {
            (
                format!("till {till} holds no version; all up to its last number, {last}, are retired"),
                format!("{choose}."),
            )
        } else {
            let here = format!("{version} was never given, the last number of till {till} is {last}; it holds {held}");
            (here, format!("the number is mistyped: {choose}."))
        }
    }

    fn no_longer_held(&self) -> (String, String) {
        let (till, version, held, choose) = (self.by.till, self.version, self.held(), self.choose());
        let here = format!("version {version} was given and is retired; till {till} holds {held}");
        (here, format!("{choose}; a retired version is in older copies of the file only."))
    }

    /// The day is mistyped, or that of the newest version is.
    fn earlier_day(&self) -> (String, String) {
        let (file, till, newest) = (quoted(self.file), self.by.till, self.listing().newest);
        let [asked, beaten] = [self.day, table::day(self.store, till, newest)].map(calendar::shown);
        let here = format!("{asked} is before {beaten} of version {newest}, the newest that till {till} holds");
        let advice = format!(
            "give {beaten} or a later one, or no --day at all, which takes that one; if the day of version {newest} itself \
             is wrong, restore its image, retire it with `lurdempos retire {file} {till} {newest}`, and keep the image again."
        );
        (here, advice)
    }

    /// The day is mistyped, or what was held then is retired.
    fn none_so_early(&self) -> (String, String) {
        let (till, choose, numbers) = (self.by.till, self.choose(), table::numbers(self.store, self.by.till));
        let dated = numbers.iter().map(|&number| (table::day(self.store, till, number), number));
        let Some((day, version)) = dated.min() else {
            return (format!("till {till} holds no version"), format!("{choose}."));
        };
        let [asked, first] = [self.day, day].map(calendar::shown);
        let here =
            format!("the earliest that till {till} holds is version {version} of {first}, which is after {asked}");
        let retired = match self.listing().last as usize == numbers.len() {
            true => "",
            false => "; a retired version is in older copies of the file only",
        };
        (
            here,
            format!(
                "give {first} or a later one: `lurdempos list {} {till}` shows them all{retired}.",
                quoted(self.file)
            ),
        )
    }

    /// What the till holds.
    fn held(&self) -> String {
        match &table::numbers(self.store, self.by.till)[..] {
            [] => "no version".into(),
            [only] => format!("version {only} alone"),
            held => numbers::shown(held),
        }
    }

    /// Where there is a version to choose.
    fn choose(&self) -> String {
        let (file, till) = (quoted(self.file), self.by.till);
        match self.listing().newest {
            0 => format!("see what is held with `lurdempos list {file}`"),
            _ => format!("choose one that `lurdempos list {file} {till}` shows"),
        }
    }

    /// No record or no run of cells for a segment. If no cell is in use, though versions without any may be held or one
    /// may just have made room, only the store's own measure can be the reason.
    fn no_room(&self, refusal: Refusal) -> (String, String) {
        let Capacities { records, cells, .. } = self.store.capacities();
        let (what, option, largest) = match refusal {
            Refusal::NoRecord => {
                (counted(records, "segment record"), "--records", records == Capacities::LARGEST.records)
            }
            _ => (counted(cells, "cell"), "--cells", cells == Capacities::LARGEST.cells),
        };
        if self.store.tally(OWNER).is_ok_and(|tally| tally.cells == 0) {
            let need = Need::of(self.image, self.store.capacities());
            let here = format!("even when the store is empty, this image alone takes more than its {what}");
            let advice = format!(
                "make a store with at least `--records {} --cells {}`, which this image takes.",
                need.records, need.cells
            );
            return (here, advice);
        }
        let here = format!("this image does not fit beside the others into the store's {what}");
        let larger = match largest {
            true => "go on in a second store: this one has as many as a store can have".into(),
            false => format!("go on in a larger store: `lurdempos grow {} NEW {option} N`", quoted(self.file)),
        };
        (here, format!("retire the oldest versions of any till, which frees room, or {larger}."))
    }

    /// The cells that are occupied are the tally's, and so told to the owner alone.
    fn over_limit(&self) -> (String, String) {
        let Some((chained, limit)) = self.store.in_chain().and_then(|chained| Some((chained, chained.limit?))) else {
            return unforeseen();
        };
        let (all, they, of_them) = match chained.stores() {
            1 => ("the store".into(), "it", ""),
            stores => (format!("the {stores} stores together"), "they", " of any of them"),
        };
        let (before, tells) = match self.by.user {
            OWNER => (
                format!("; before this run {they} occupied {}", chained.before),
                "; `--dry-run` without --limit tells how many it takes",
            ),
            _ => (String::new(), ""),
        };
        let limit = counted(limit, "cell");
        let here = format!("with this image {all} would occupy more than the {limit} of --limit{before}");
        (here, format!("retire old versions{of_them}, which frees cells, or give a higher --limit{tells}."))
    }

    fn retire_oldest(&self) -> String {
        format!("lurdempos retire {} {} {}", quoted(self.file), self.by.till, self.listing().oldest)
    }

    /// What the advice tells of the till, whoever asks: who has the file can read it all.
    fn listing(&self) -> Listing {
        self.store.listing(OWNER, self.by.till).unwrap_or_default()
    }
}

/// There are as many users in every store.
pub fn unknown_user(user: u32) -> Failure {
    let here = format!("there is no user {user}, a store has users 0 to {}", USERS - 1);
    Failure::refused(Refusal::UnknownUser, here, "see that --user has the right number; 0 is the owner.".into())
}

/// A call that is the owner's alone.
pub fn of_the_owner(refusal: Refusal, file: &Path, user: u32) -> Failure {
    match refusal {
        Refusal::UnknownUser => unknown_user(user),
        Refusal::NoRight => {
            let here = format!("this is for the owner, user 0, and not for user {user}");
            Failure::refused(refusal, here, "ask the owner; no right that can be given is enough for it.".into())
        }
        _ => unsound(refusal, file),
    }
}

/// A bill at a price that is too high for any store.
pub fn high_price(price: u32) -> Failure {
    let here = format!("--price {price} is {} cents for a cell", cents(price));
    let advice = format!("give the price of a cell, at most {HIGHEST_PRICE} tenths of a cent: 25 is 2.5 cents.");
    Failure::refused(Refusal::HighPrice, here, advice)
}

/// What an image takes in an empty store.
pub struct Need {
    pub records: usize,
    pub cells: usize,
}

impl Need {
    /// Blocks of zeros and of 255s take nothing, a segment that comes again nothing more.
    pub fn of(image: &[u8], capacities: Capacities) -> Need {
        let block = capacities.block_bytes as usize;
        let segment = block * capacities.segment_blocks as usize;
        let is_all = |block: &[u8], byte: u8| block.iter().all(|&one| one == byte);
        let is_stored = |block: &&[u8]| !is_all(block, 0) && !is_all(block, 255);
        let cells = |segment: &[u8]| segment.chunks(block).filter(is_stored).count();
        let different: HashSet<Vec<u8>> = image.chunks(segment).map(|some| filled_up(some, segment)).collect();
        let taken = different.iter().map(|segment| cells(segment)).filter(|&cells| cells > 0);
        taken.fold(Need { records: 0, cells: 0 }, |need, cells| Need {
            records: need.records + 1,
            cells: need.cells + cells,
        })
    }

    /// The most that an image can take.
    pub fn of_longest(capacities: Capacities) -> Need {
        let Capacities { blocks, segment_blocks, .. } = capacities;
        Need { records: blocks.div_ceil(segment_blocks) as usize, cells: blocks as usize }
    }
}

/// A segment whose missing bytes are zero.
fn filled_up(segment: &[u8], bytes: usize) -> Vec<u8> {
    let mut segment = segment.to_vec();
    segment.resize(bytes, 0);
    segment
}

/// What was read is no stream of an image. A bare image is what it most likely is otherwise.
pub fn stream_refused(refusal: Refusal, name: &str, stream: &[u8]) -> Failure {
    const AGAIN: &str = "write it once more with `lurdempos export`, and see that it comes over whole and alone.";
    const BARE: &str = "take what `lurdempos export` wrote; a bare image is kept with `lurdempos backup`.";
    let (here, advice) = match (refusal, stream.first_chunk()) {
        (Refusal::StreamSize, _) if stream.is_empty() => {
            (format!("nothing came from {name}"), "see what the command that should have written it says.")
        }
        (Refusal::StreamLength, Some(&length)) => {
            let length = u32::from_le_bytes(length);
            (format!("{name} begins with a length of {length}, an image has 1 to {LONGEST_IMAGE} bytes"), BARE)
        }
        (Refusal::StreamBits, _) => (format!("{name} has what no image's stream has, and was altered"), AGAIN),
        _ => (format!("{name} ends before its last block, or goes on behind it"), AGAIN),
    };
    Failure::refused(refusal, here, advice.into())
}

/// What was offered are no fingerprints, or not as many as an image of this store can have.
pub fn no_fingerprints(file: &Path, store: &Store, name: &str, length: usize) -> Failure {
    let capacities = store.capacities();
    let (segment, most) = (capacities.segment_bytes(), capacities.segments());
    let has = match length {
        0 => format!("nothing came from {name}"),
        _ if length > FINGERPRINT * MOST_SEGMENTS => format!("{name} has more than {}", bytes(length - 1)),
        _ => format!("{name} has {}", bytes(length)),
    };
    let here = format!("{has}; there are {FINGERPRINT} for each {segment} of an image, 1 to {most} times");
    let advice = format!(
        "see that they came over whole, and were made for this store's segments, as `lurdempos fingerprints {} IMAGE OUT` \
         makes them.",
        quoted(file)
    );
    Failure::refused(Refusal::ImageLength, here, advice)
}

/// What was sent is no message for this store, or not a whole one.
pub fn no_message(file: &Path, store: &Store, name: &str, message: Message) -> Failure {
    let capacities = store.capacities();
    let (most, segment, length) = (capacities.image_bytes(), capacities.segment_bytes(), message.length);
    let here = if (1..=most).contains(&(length as usize)) {
        format!("what follows the length of {length} in {name} is not what an image cut into segments of {segment} bytes has")
    } else {
        format!("{name} begins with a length of {length}, this store takes 1 to {most}")
    };
    let advice = format!(
        "see that it came over whole and alone, and was made for this store's segments, as \
         `lurdempos sent {} IMAGE MARKS OUT` makes it.",
        quoted(file)
    );
    Failure::refused(Refusal::ImageLength, here, advice)
}

/// More images than one closing takes.
pub fn too_many_images(count: usize) -> Failure {
    let here = format!("these are {count} images, and one closing takes {MOST_IMAGES} at most; none of them is kept");
    Failure::refused(Refusal::ImageLength, here, "make several closings of them.".into())
}

/// The file has the form of a store's, but what is in it is no sound store.
pub fn unsound(refusal: Refusal, file: &Path) -> Failure {
    let here = format!("{} has been damaged or was never whole; nothing was altered", shown(file));
    Failure::refused(refusal, here, damaged(file))
}

/// What to do with a damaged file.
pub fn damaged(file: &Path) -> String {
    format!(
        "do not go on with this file; fetch the newest copy of it and see that `lurdempos check` accepts it. \
         Without a copy `lurdempos salvage {} FOLDER` writes out what can still be traced.",
        quoted(file)
    )
}

/// Refusals that the tool's calls cannot get: it asks for lengths before it lays out and lends outputs that are long
/// enough.
fn unforeseen() -> (String, String) {
    ("the tool did not expect this".into(), "report it, with the command line.".into())
}

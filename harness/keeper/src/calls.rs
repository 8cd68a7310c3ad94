//! A call with its arguments, and random lists of calls.

use crate::collected::misfit;
use crate::days::{any_day, next_day};
use crate::images::Images;
use crate::messages::Messages;
use crate::whole::Till;
use crate::{staff, Course, Keeper, Random};
use std::fmt;
use terms::{
    Capacities, Collected, Right, Rights, Sending, BLOCK, BLOCK_BYTES, HIGHEST_PRICE, LAST_NUMBER, LONGEST_STREAM,
    MOST_IMAGES, OWNER, SEGMENT, SEGMENT_BLOCKS,
};

#[derive(Clone)]
pub enum Call {
    TableLength(Capacities),
    LayOut(Capacities),
    Backup {
        till: u32,
        image: Vec<u8>,
    },
    /// A backup with a day.
    Dated {
        till: u32,
        day: u32,
        image: Vec<u8>,
    },
    /// A backup as it was made before blank blocks were known.
    Earlier {
        till: u32,
        image: Vec<u8>,
    },
    Restore {
        till: u32,
        version: u32,
        room: usize,
    },
    Retire {
        till: u32,
        version: u32,
    },
    Listing {
        till: u32,
    },
    VersionOn {
        till: u32,
        day: u32,
    },
    Tally,
    Bill {
        price: u32,
    },
    WriteStream {
        till: u32,
        version: u32,
        room: usize,
    },
    /// The first message, with room for so many marks.
    Offer {
        till: u32,
        fingerprints: Vec<u8>,
        room: usize,
    },
    /// The second message.
    Sent {
        till: u32,
        sending: Sending,
    },
    /// Images of several tills at closing.
    All(Collected),
    /// What the subject may do on a till from now on.
    SetRights {
        subject: u32,
        till: u32,
        rights: Rights,
    },
}

impl fmt::Debug for Call {
    fn fmt(&self, f: &mut fmt::Formatter<'_>) -> fmt::Result {
        match self {
            Call::TableLength(capacities) => write!(f, "table length {:?}", capacities.to_array()),
            Call::LayOut(capacities) => write!(f, "lay out {:?}", capacities.to_array()),
            Call::Backup { till, image } => write!(f, "backup till {till}, {} bytes", image.len()),
            Call::Dated { till, day, image } => write!(f, "backup till {till}, day {day}, {} bytes", image.len()),
            Call::Earlier { till, image } => write!(f, "earlier backup till {till}, {} bytes", image.len()),
            Call::Restore { till, version, room } => write!(f, "restore till {till}, version {version}, room {room}"),
            Call::Retire { till, version } => write!(f, "retire till {till}, version {version}"),
            Call::Listing { till } => write!(f, "listing till {till}"),
            Call::VersionOn { till, day } => write!(f, "version of till {till} on day {day}"),
            Call::Tally => write!(f, "tally"),
            Call::Bill { price } => write!(f, "bill at {price}"),
            Call::WriteStream { till, version, room } => {
                write!(f, "stream till {till}, version {version}, room {room}")
            }
            Call::Offer { till, fingerprints, room } => {
                write!(f, "offer till {till}, {} bytes of fingerprints, room {room}", fingerprints.len())
            }
            Call::Sent { till, sending: Sending { length, fingerprints, marks, segments } } => {
                let (prints, segments) = (fingerprints.len(), segments.len());
                write!(f, "sent till {till}, length {length}, {prints} bytes, marks {marks:?}, {segments} bytes")
            }
            Call::SetRights { subject, till, rights } => write!(f, "till {till}, user {subject} gets {rights:?}"),
            Call::All(Collected { tills, lengths, images }) => {
                write!(f, "closing of tills {tills:?}, lengths {lengths:?}, {} bytes", images.len())
            }
        }
    }
}

impl Call {
    /// The same call, made before blank blocks were known. There were no days either then.
    pub fn made_before(self) -> Call {
        match self {
            Call::Backup { till, image } | Call::Dated { till, image, .. } => Call::Earlier { till, image },
            other => other,
        }
    }

    /// The till that it names and the right that it needs there; none of a closing, whose images have each its own, and
    /// of what is the owner's or needs no store.
    pub fn needs(&self) -> Option<(u32, Right)> {
        match *self {
            Call::Listing { till } | Call::VersionOn { till, .. } => Some((till, Right::List)),
            Call::Backup { till, .. } | Call::Dated { till, .. } => Some((till, Right::BackUp)),
            Call::Offer { till, .. } | Call::Sent { till, .. } => Some((till, Right::BackUp)),
            Call::Restore { till, .. } | Call::WriteStream { till, .. } => Some((till, Right::Restore)),
            Call::Retire { till, .. } => Some((till, Right::Retire)),
            Call::TableLength(_) | Call::LayOut(_) | Call::Earlier { .. } => None,
            Call::Tally | Call::Bill { .. } | Call::All(_) | Call::SetRights { .. } => None,
        }
    }
}

/// Which backups of a list were made before blank blocks were known.
#[derive(Clone, Copy, Debug, PartialEq, Eq)]
pub enum Before {
    Never,
    FirstThird,
    /// One in two, at random.
    Half,
    /// Thirty calls before, thirty after, and so on: no store in the field goes back, but the page lets it.
    Stretches,
}

impl Before {
    /// Call `n` of so many, as it is made.
    pub fn made(self, random: &mut Random, n: usize, of: usize, call: Call) -> Call {
        let before = match self {
            Before::Never => false,
            Before::FirstThird => n < of / 3,
            Before::Half => random.percent(50),
            Before::Stretches => n % 60 < 30,
        };
        if before {
            call.made_before()
        } else {
            call
        }
    }
}

/// How a list goes: how often in a hundred it retires, and how many sorts of blocks its images have.
#[derive(Clone, Copy, Debug)]
pub struct Style {
    pub retires: usize,
    pub kinds: usize,
}

/// Which versions a list mostly retires.
#[derive(Clone, Copy, Debug)]
enum Habit {
    Oldest,
    /// One after the other from the newest down, where retires follow each other.
    Newest,
    AnyHeld,
}

/// Random calls, most of them such as a box makes, some with wrong arguments.
pub struct List {
    capacities: Capacities,
    style: Style,
    habit: Habit,
    /// Whether it has backups with days.
    has_days: bool,
    /// Whether users other than the owner make calls.
    has_staff: bool,
    images: Images,
}

impl List {
    pub fn new(random: &mut Random, capacities: Capacities, style: Style) -> List {
        let habit = *random.pick(&[Habit::Oldest, Habit::Newest, Habit::AnyHeld, Habit::AnyHeld]);
        let (has_days, has_staff) = (random.percent(60), random.percent(60));
        List { capacities, style, habit, has_days, has_staff, images: Images::new(random, capacities, style.kinds) }
    }

    /// The same with backups that have days.
    pub fn with_days(self) -> List {
        List { has_days: true, ..self }
    }

    /// The same with calls of every user.
    pub fn with_staff(self) -> List {
        List { has_staff: true, ..self }
    }

    /// A call, and who makes it.
    pub fn next(&self, random: &mut Random, course: &Course) -> (u32, Call) {
        let call = self.call(random, course);
        (self.user(random, course, &call), call)
    }

    /// A closing, and who makes it.
    pub fn closing_by(&self, random: &mut Random, course: &Course) -> (u32, Call) {
        let call = self.closing(random, course);
        (self.user(random, course, &call), call)
    }

    fn user(&self, random: &mut Random, course: &Course, call: &Call) -> u32 {
        if self.has_staff {
            staff::user_for(random, course.keeper(), call)
        } else {
            OWNER
        }
    }

    fn call(&self, random: &mut Random, course: &Course) -> Call {
        let keeper = course.keeper();
        let number = random.below(self.capacities.tills as usize) as u32;
        let till = &keeper.tills()[number as usize];
        let wrong = random.percent(4);
        let till_number = if wrong && random.percent(30) { self.no_till(random) } else { number };
        let retire = if till.held.len() == self.capacities.versions as usize { 60 } else { self.style.retires };
        match random.below(100) {
            0..=2 => Call::Tally,
            3 => Call::Bill { price: any_price(random) },
            4..=5 => Call::Listing { till: till_number },
            6..=7 => Call::VersionOn { till: till_number, day: any_day(random, till) },
            8 => Call::TableLength(self.capacities_near(random)),
            9 => self.refused_lay_out(random),
            10..=26 => self.restore(random, till_number, till, wrong),
            27..=29 => self.stream(random, till_number, till, wrong),
            30..=32 => self.offer(random, course, till_number, till, wrong),
            _ if random.percent(retire) => {
                let version = self.retired_version(random, till, wrong);
                Call::Retire { till: till_number, version }
            }
            33..=52 => self.sent(random, course, till_number, till, wrong),
            53..=57 => self.closing(random, course),
            58..=62 if self.has_staff => staff::change(random, till_number),
            _ => self.backup(random, keeper, till_number, till, wrong),
        }
    }

    fn retired_version(&self, random: &mut Random, till: &Till, wrong: bool) -> u32 {
        match self.habit {
            _ if wrong || random.percent(5) => any_version(random, till),
            _ if random.percent(15) => held_version(random, till),
            Habit::Oldest => till.oldest(),
            Habit::Newest => till.newest(),
            Habit::AnyHeld => held_version(random, till),
        }
    }

    fn no_till(&self, random: &mut Random) -> u32 {
        *random.pick(&[self.capacities.tills, self.capacities.tills + 1, 16, u32::MAX])
    }

    fn image(&self, random: &mut Random, keeper: &Keeper, till: &Till, wrong: bool) -> Vec<u8> {
        if wrong {
            return vec![7; *random.pick(&[0, self.capacities.image_bytes() + 1])];
        }
        let other = random.pick(keeper.tills()).newest_image();
        self.images.next(random, till.newest_image(), other)
    }

    /// A full backup, in a list with days mostly with one.
    fn backup(&self, random: &mut Random, keeper: &Keeper, number: u32, till: &Till, wrong: bool) -> Call {
        let image = self.image(random, keeper, till, wrong);
        match self.has_days && random.percent(70) {
            true => Call::Dated { till: number, day: next_day(random, till), image },
            false => Call::Backup { till: number, image },
        }
    }

    fn restore(&self, random: &mut Random, number: u32, till: &Till, wrong: bool) -> Call {
        let version = if wrong { any_version(random, till) } else { held_version(random, till) };
        let length = till.image(version).map_or(0, <[u8]>::len);
        let block = self.capacities.block_bytes as usize;
        let room = match random.below(6) {
            0 => length.saturating_sub(1 + random.below(block)),
            1 => length + random.below(3 * block),
            2 => self.capacities.image_bytes(),
            _ => length,
        };
        Call::Restore { till: number, version, room }
    }

    fn stream(&self, random: &mut Random, number: u32, till: &Till, wrong: bool) -> Call {
        let version = if wrong { any_version(random, till) } else { held_version(random, till) };
        let length = till.image(version).map_or(0, stream_length);
        let room = match random.below(6) {
            0 => length.saturating_sub(1 + random.below(80)),
            1 => length + random.below(200),
            2 => LONGEST_STREAM,
            _ => length,
        };
        Call::WriteStream { till: number, version, room }
    }

    fn offer(&self, random: &mut Random, course: &Course, number: u32, till: &Till, wrong: bool) -> Call {
        let image = self.image(random, course.keeper(), till, false);
        let wrong = wrong || random.percent(10);
        let (fingerprints, room) = self.with_messages(course, |messages| messages.offer(random, &image, wrong));
        Call::Offer { till: number, fingerprints, room }
    }

    fn sent(&self, random: &mut Random, course: &Course, number: u32, till: &Till, wrong: bool) -> Call {
        let image = self.image(random, course.keeper(), till, false);
        let sending = self.with_messages(course, |messages| messages.sent(random, &image, wrong));
        Call::Sent { till: number, sending }
    }

    /// A closing: any tills, often one of them several times, images such as they would send by themselves or such as are
    /// refused, and lists that mostly fit.
    pub fn closing(&self, random: &mut Random, course: &Course) -> Call {
        let mut newest: Vec<Option<Vec<u8>>> =
            course.keeper().tills().iter().map(|till| till.newest_image().map(<[u8]>::to_vec)).collect();
        let count = *random.pick(&[0, 1, 2, 2, 3, 3, 4, 5, 6, 8, MOST_IMAGES]);
        let mut collected = Collected::default();
        for _ in 0..count {
            let till = random.below(newest.len());
            match random.below(25) {
                0 => collected.add(self.no_till(random), &[7; 9]),
                1 => collected.add(till as u32, &vec![7; *random.pick(&[0, self.capacities.image_bytes() + 1])]),
                _ => {
                    let other = random.pick(&newest).as_deref();
                    let image = self.images.next(random, newest[till].as_deref(), other);
                    collected.add(till as u32, &image);
                    newest[till] = Some(image);
                }
            }
        }
        if random.percent(15) {
            misfit(random, &mut collected);
        }
        Call::All(collected)
    }

    fn with_messages<T>(&self, course: &Course, make: impl FnOnce(&Messages) -> T) -> T {
        let print = |segment: &[u8]| course.print(segment);
        make(&Messages { capacities: self.capacities, stock: &course.stock(), print: &print })
    }

    /// The store's capacities but for one of them.
    fn capacities_near(&self, random: &mut Random) -> Capacities {
        let mut eight = self.capacities.to_array();
        let one = random.below(eight.len());
        let next = eight[one] + 1;
        eight[one] = match one {
            5 => *random.pick(&[&BLOCK_BYTES[..], &[0, 32, 96, 1_024, next, u32::MAX]].concat()),
            6 => *random.pick(&[&SEGMENT_BLOCKS[..], &[0, 2, 12, 32, next, u32::MAX]].concat()),
            7 => *random.pick(&[0, 20, 100, 101, next, u32::MAX]),
            _ => {
                let largest = Capacities::largest(self.capacities.measures()).to_array()[one];
                *random.pick(&[0, 1, largest, largest + 1, next, u32::MAX])
            }
        };
        Capacities::from_array(eight)
    }

    /// A laying out that the store's own buffers do not fit.
    fn refused_lay_out(&self, random: &mut Random) -> Call {
        let capacities = self.capacities_near(random);
        let lengths = |capacities: Capacities| (capacities.pool_bytes(), capacities.table_words());
        if capacities.in_range() && lengths(capacities) == lengths(self.capacities) {
            Call::Tally
        } else {
            Call::LayOut(capacities)
        }
    }
}

/// Bytes of an image's stream: its length, a byte for each eight blocks, and the blocks that are not null.
pub fn stream_length(image: &[u8]) -> usize {
    let full = image.chunks(BLOCK).filter(|block| block.iter().any(|&byte| byte != 0)).count();
    4 + image.len().div_ceil(SEGMENT * BLOCK) + BLOCK * full
}

/// Prices of a cell: those that leave tenths over for some numbers of tills, and those about the highest.
pub fn any_price(random: &mut Random) -> u32 {
    *random.pick(&[0, 1, 2, 99, 100, HIGHEST_PRICE, HIGHEST_PRICE + 1, u32::MAX])
}

/// 0 if none is held.
fn held_version(random: &mut Random, till: &Till) -> u32 {
    till.held.keys().nth(random.below(till.held.len().max(1))).copied().unwrap_or(0)
}

/// Held or not: beside what is held, in its gaps, given once or never.
fn any_version(random: &mut Random, till: &Till) -> u32 {
    let held = held_version(random, till);
    let near = [0, till.oldest().wrapping_sub(1), till.newest(), till.newest() + 1, till.last, till.last + 1];
    match random.below(8) {
        0..=2 => *random.pick(&near),
        3 => *random.pick(&[LAST_NUMBER, u32::MAX]),
        4 => random.below(till.last as usize + 2) as u32,
        5 => held + 1,
        6 => held.saturating_sub(1),
        _ => held,
    }
}

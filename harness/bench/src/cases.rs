//! The stores and the calls that are timed.

use keeper::closings::{Shop, LENGTH};
use keeper::dense::Dense;
use std::fmt;
use std::rc::Rc;
use terms::{Calls, Capacities, Collected, Sending, FINGERPRINT, OWNER};
use twin::{fingerprint_of, Twin};

const SEED: u64 = 1;

/// Pool and table, before each timed call.
pub struct Kept {
    pub name: &'static str,
    pub capacities: Capacities,
    pub pool: Vec<u8>,
    pub table: Vec<u32>,
}

pub enum What {
    TableLength,
    LayOut,
    Listing,
    /// Of the oldest held version's day, so that all are looked at.
    VersionOn {
        day: u32,
    },
    Tally,
    Bill {
        price: u32,
    },
    Restore {
        version: u32,
        room: usize,
    },
    WriteStream {
        version: u32,
    },
    Retire {
        till: u32,
        version: u32,
    },
    Backup {
        image: Vec<u8>,
    },
    /// Of the pool.
    Sha1,
    Offer {
        fingerprints: Vec<u8>,
    },
    Sent {
        sending: Sending,
    },
    /// An image of each till, all in one call.
    Closing {
        collected: Collected,
        /// The part that it may take of the same in a call each, if it has such a target.
        most: Option<f64>,
    },
    /// The same images in a call each.
    Singles {
        images: Vec<Vec<u8>>,
    },
}

/// One line of the table. All calls are of till 0, but for a retire that names another one and for closings.
pub struct Case {
    pub store: Rc<Kept>,
    pub what: What,
    /// Passes that the call may take, if it has such a target.
    pub passes: Option<f64>,
}

impl Kept {
    fn empty(name: &'static str, capacities: Capacities) -> Kept {
        let [_, words] = Twin.table_length(capacities);
        let (mut pool, mut table) = (vec![0; capacities.pool_bytes()], vec![0; words as usize]);
        Twin.lay_out(&mut pool, &mut table, capacities);
        Kept { name, capacities, pool, table }
    }

    fn backup(&mut self, till: usize, day: usize, image: &[u8]) {
        let [refusal, _] = Twin.backup_dated(&mut self.pool, &mut self.table, OWNER, till as u32, day as u32, image);
        assert_eq!(refusal, 0, "a backup in making the {} store", self.name);
    }

    /// What till 0 sends for an image: its fingerprints, and the message with what the store lacks.
    fn messages(&self, image: &[u8]) -> (Vec<u8>, Sending) {
        let whole = Sending::whole(image, self.capacities.segment_bytes(), fingerprint_of);
        let mut marks = vec![0; whole.marks.len()];
        assert_eq!(Twin.offer(&self.pool, &self.table, OWNER, 0, &whole.fingerprints, &mut marks), [0]);
        let sending = whole.lacking(&marks);
        (whole.fingerprints, sending)
    }

    /// 64 closings of so many tills, on a day each, but one of till 0, so that it has room for one more.
    fn closings(mut self, tills: usize, mut next: impl FnMut(usize) -> Vec<u8>) -> Kept {
        for n in 0..64 * tills {
            let image = next(n % tills);
            self.backup(n % tills, 1 + n / tills, &image);
        }
        assert_eq!(Twin.retire(&mut self.pool, &mut self.table, OWNER, 0, 1)[0], 0);
        self
    }

    /// The same store, where so many tills have room for one version more.
    pub fn with_room(&self, tills: usize) -> Kept {
        let Kept { name, capacities, .. } = *self;
        let mut kept = Kept { name, capacities, pool: self.pool.clone(), table: self.table.clone() };
        for till in 1..tills as u32 {
            let [refusal, oldest, ..] = Twin.listing(&kept.pool, &kept.table, OWNER, till);
            if oldest != 0 {
                assert_eq!([refusal, Twin.retire(&mut kept.pool, &mut kept.table, OWNER, till, oldest)[0]], [0; 2]);
            }
        }
        kept
    }

    /// A shop's closings, and the next one of each till.
    fn of_shop(name: &'static str, capacities: Capacities) -> (Rc<Kept>, Vec<Vec<u8>>) {
        let mut shop = Shop::new(SEED, 16);
        let kept = Kept::empty(name, capacities).closings(16, |till| shop.close(till).to_vec());
        (Rc::new(kept), (0..16).map(|till| shop.close(till).to_vec()).collect())
    }

    /// Closings with nothing shared, and the next one of each till.
    fn of_dense(name: &'static str, capacities: Capacities, fill: Fill) -> (Rc<Kept>, Vec<Vec<u8>>) {
        let segment = capacities.block_bytes * capacities.segment_blocks;
        let mut dense = Dense::new(SEED, fill.tills, fill.length, segment as usize, fill.changes);
        let kept = Kept::empty(name, capacities).closings(fill.tills, |till| dense.close(till).to_vec());
        (Rc::new(kept), (0..fill.tills).map(|till| dense.close(till).to_vec()).collect())
    }
}

/// How a store is filled: how many tills, how long their images, how many new segments at each closing.
struct Fill {
    tills: usize,
    length: usize,
    changes: usize,
}

impl fmt::Display for Kept {
    fn fmt(&self, f: &mut fmt::Formatter<'_>) -> fmt::Result {
        let [_, cells, records, counts] = Twin.tally(&self.pool, &self.table, OWNER);
        write!(f, "{} has {cells} cells, {records} records and counts of {counts} in all", self.name)
    }
}

/// The cases of each store: those of the page's measures, then large blocks and segments, then small segments.
pub fn all() -> Vec<Vec<Case>> {
    [page_cases(), large_cases(), small_cases()].into_iter().flatten().collect()
}

/// The full store of the page's measures, and the next closing of each till.
pub fn full() -> (Rc<Kept>, Vec<Vec<u8>>) {
    Kept::of_dense("full", Capacities::LARGEST, Fill { tills: 16, length: 65_536, changes: 2 })
}

fn page_cases() -> Vec<Vec<Case>> {
    let empty = Rc::new(Kept::empty("empty", Capacities::LARGEST));
    let (typical, day) = Kept::of_shop("typical", Capacities::LARGEST);
    let (full, long) = full();
    let mut of_full = of_store(&full, &long, true);
    let more = [What::Backup { image: long[0].clone() }, What::Sha1];
    of_full.extend(more.map(|what| Case { store: full.clone(), what, passes: None }));
    let (mut of_empty, mut of_typical) = (of_store(&empty, &day, false), of_store(&typical, &day, false));
    add_closings(&mut of_empty, &day, None);
    add_closings(&mut of_typical, &day, Some(0.4));
    add_closings(&mut of_full, &long, None);
    vec![of_empty, of_typical, of_full]
}

/// Blocks of 512 bytes, 16 to a segment. A 16th till would ask for more cells than there are.
fn large_cases() -> Vec<Vec<Case>> {
    let capacities = Capacities::largest([512, 16, 20]);
    let fill = Fill { tills: 15, length: 65_536, changes: 2 };
    other_cases(Kept::of_shop("typical, 512 × 16", capacities), Kept::of_dense("full, 512 × 16", capacities, fill))
}

/// Blocks of 64 bytes, 4 to a segment. Longer images would ask for more records than there are.
fn small_cases() -> Vec<Vec<Case>> {
    let capacities = Capacities::largest([64, 4, 20]);
    let fill = Fill { tills: 16, length: 49_152, changes: 1 };
    other_cases(Kept::of_shop("typical, 64 × 4", capacities), Kept::of_dense("full, 64 × 4", capacities, fill))
}

/// Those of a typical and of a full store, each with its next closing.
fn other_cases(typical: (Rc<Kept>, Vec<Vec<u8>>), full: (Rc<Kept>, Vec<Vec<u8>>)) -> Vec<Vec<Case>> {
    let of_both = [typical, full].map(|(store, day)| {
        let mut cases = of_store(&store, &day, false);
        add_closings(&mut cases, &day, None);
        cases
    });
    of_both.into()
}

/// A closing of all tills in one call, and the same in a call each.
fn add_closings(cases: &mut Vec<Case>, day: &[Vec<u8>], most: Option<f64>) {
    let store = Rc::new(cases[0].store.with_room(day.len()));
    let images: Vec<Vec<u8>> = day.iter().map(|image| image[..LENGTH].to_vec()).collect();
    let collected = Collected::of((0..).zip(&images).map(|(till, image)| (till, &image[..])));
    let kept = Twin.backup_all(&mut store.pool.clone(), &mut store.table.clone(), OWNER, collected.closing());
    assert!(kept[..=day.len()].iter().all(|&refusal| refusal == 0), "a closing of the {} store: {kept:?}", store.name);
    let both = [What::Closing { collected, most }, What::Singles { images }];
    cases.extend(both.map(|what| Case { store: store.clone(), what, passes: None }));
}

fn of_store(store: &Rc<Kept>, day: &[Vec<u8>], targets: bool) -> Vec<Case> {
    let closing = &day[0][..LENGTH];
    let backup = What::Backup { image: closing.to_vec() };
    let restore = |version| What::Restore { version, room: 65_536 };
    let (fingerprints, sending) = store.messages(closing);
    let all = [
        (What::TableLength, None),
        (What::LayOut, None),
        (What::Tally, Some(5.0)),
        (What::Bill { price: 25 }, None),
        (What::Listing, Some(5.0)),
        (What::VersionOn { day: 2 }, None),
        (restore(2), Some(5.0)),
        (restore(64), Some(5.0)),
        (What::WriteStream { version: 2 }, None),
        (What::WriteStream { version: 64 }, None),
        (What::Retire { till: 0, version: 2 }, Some(5.0)),
        (What::Retire { till: 1, version: 32 }, Some(5.0)),
        (backup, Some(12.0)),
        (What::Offer { fingerprints }, None),
        (What::Sent { sending }, None),
    ];
    let case =
        |(what, passes): (What, Option<f64>)| Case { store: store.clone(), what, passes: passes.filter(|_| targets) };
    all.into_iter().map(case).collect()
}

impl What {
    pub fn name(&self) -> String {
        match self {
            What::TableLength => "table length".into(),
            What::LayOut => "lay out".into(),
            What::Listing => "listing".into(),
            What::VersionOn { .. } => "lookup of the oldest by day".into(),
            What::Tally => "tally".into(),
            What::Bill { price } => format!("bill at {price}"),
            What::Restore { version: 2, .. } => "restore of the oldest".into(),
            What::Restore { .. } => "restore of the newest".into(),
            What::WriteStream { version: 2 } => "stream of the oldest".into(),
            What::WriteStream { .. } => "stream of the newest".into(),
            What::Retire { till: 0, .. } => "retire of the oldest".into(),
            What::Retire { .. } => "retire of the middle of 64".into(),
            What::Backup { image } => format!("backup of {}", image.len()),
            What::Sha1 => "SHA-1 of the pool".into(),
            What::Offer { fingerprints } => format!("offer of {} segments", fingerprints.len() / FINGERPRINT),
            What::Sent { sending } => {
                let sent = sending.marks.iter().filter(|&&mark| mark == 1).count();
                format!("backup of {}, {sent} of {} segments sent", sending.length, sending.marks.len())
            }
            What::Closing { collected, .. } => format!("closing of {} images of {LENGTH}", collected.tills.len()),
            What::Singles { images } => format!("{} backups of {LENGTH} in turn", images.len()),
        }
    }

    pub fn writes(&self) -> bool {
        let one = matches!(self, What::LayOut | What::Retire { .. } | What::Backup { .. } | What::Sent { .. });
        one || matches!(self, What::Closing { .. } | What::Singles { .. })
    }
}

impl Case {
    /// Makes the call once; its answer's refusal.
    pub fn make(&self, store: &dyn Calls, pool: &mut [u8], table: &mut [u32], output: &mut [u8]) -> u32 {
        let capacities = self.store.capacities;
        match &self.what {
            What::TableLength => store.table_length(std::hint::black_box(capacities))[0],
            What::LayOut => store.lay_out(pool, table, capacities)[0],
            What::Listing => store.listing(pool, table, OWNER, 0)[0],
            What::VersionOn { day } => store.version_on(pool, table, OWNER, 0, *day)[0],
            What::Tally => store.tally(pool, table, OWNER)[0],
            What::Bill { price } => store.bill(pool, table, OWNER, *price)[0],
            What::Restore { version, room } => store.restore(pool, table, OWNER, 0, *version, &mut output[..*room])[0],
            What::WriteStream { version } => store.write_stream(pool, table, OWNER, 0, *version, output)[0],
            What::Retire { till, version } => store.retire(pool, table, OWNER, *till, *version)[0],
            What::Backup { image } => store.backup(pool, table, OWNER, 0, image)[0],
            What::Sha1 => {
                std::hint::black_box(store.sha1(pool));
                0
            }
            What::Offer { fingerprints } => {
                store.offer(pool, table, OWNER, 0, fingerprints, &mut output[..fingerprints.len() / FINGERPRINT])[0]
            }
            What::Sent { sending } => store.backup_sent(pool, table, OWNER, 0, sending.message())[0],
            What::Closing { collected, .. } => store.backup_all(pool, table, OWNER, collected.closing())[0],
            What::Singles { images } => {
                let single = |(till, image): (u32, &Vec<u8>)| store.backup(pool, table, OWNER, till, image)[0];
                (0..).zip(images).map(single).fold(0, u32::max)
            }
        }
    }
}

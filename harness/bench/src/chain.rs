//! Calls on a chain of eight full stores, timed beside the twin's and beside what they have to do at least: a check of
//! each store, and the call on the named one.

use crate::cases;
use crate::timing::{read_pass, Line};
use keeper::chain::answer_on;
use keeper::closings::LENGTH;
use keeper::course::{answer, Lane};
use keeper::Call;
use lurdempos::Proved;
use std::time::{Duration, Instant};
use terms::{Calls, ChainCalls, Collected, Disk, Target, MOST_STORES, NO_LIMIT, OWNER};
use twin::Twin;

const NAME: &str = "chain of eight full";

/// The store that is named.
const STORE: u32 = 5;

/// One line of the table.
struct Row {
    name: String,
    call: Call,
    limit: u32,
}

pub fn described() -> String {
    format!(
        "{NAME} has {MOST_STORES} times the full one, where every till has room for one version more; the limit is far \
         away but where 21 is answered, and there the twin works beside a copy of the named store, which the proved one \
         need not"
    )
}

/// The calls, each once: those that read, and those that alter with a limit that is far away, and one that is refused.
fn rows(day: &[Vec<u8>]) -> Vec<Row> {
    let images: Vec<(u32, &[u8])> = (0..).zip(day.iter().map(|image| &image[..LENGTH])).collect();
    let backup = Call::Backup { till: 0, image: images[0].1.to_vec() };
    let row = |name: &str, call: Call| Row { name: name.into(), call, limit: NO_LIMIT };
    vec![
        row("tally", Call::Tally),
        row("listing", Call::Listing { till: 0 }),
        row("restore of the oldest", Call::Restore { till: 0, version: 2, room: 65_536 }),
        row("retire of the oldest", Call::Retire { till: 0, version: 2 }),
        row(&format!("backup of {LENGTH}"), backup.clone()),
        Row { limit: 0, ..row(&format!("backup of {LENGTH}"), backup) },
        row(&format!("closing of {} images of {LENGTH}", images.len()), Call::All(Collected::of(images))),
    ]
}

pub fn time_all(rounds: usize) -> Vec<Line> {
    let (full, day) = cases::full();
    let store = full.with_room(day.len());
    let disk = Disk::of([(&store.pool[..], &store.table[..]); MOST_STORES]);
    rows(&day).into_iter().map(|row| time(row, &disk, rounds)).collect()
}

fn time(Row { name, call, limit }: Row, disk: &Disk, rounds: usize) -> Line {
    let (mut work, mut lane) = (disk.clone(), named(disk));
    let mut best = [Duration::MAX; 4];
    let mut refusals = [0; 2];
    for round in 0..rounds {
        for turn in 0..4 {
            let who = (round + turn) % 4;
            let taken = match who {
                2 => read_pass(&work.pools, &work.tables),
                3 => each_alone(&work, &mut lane, &call),
                _ => {
                    let chain: &dyn ChainCalls = if who == 0 { &Proved } else { &Twin };
                    let start = Instant::now();
                    refusals[who] = answer_on(chain, &mut work, Target { store: STORE, limit }, OWNER, &call).0[0];
                    start.elapsed()
                }
            };
            best[who] = best[who].min(taken);
            work.pools.copy_from_slice(&disk.pools);
            work.tables.copy_from_slice(&disk.tables);
        }
    }
    assert_eq!(refusals[0], refusals[1]);
    let refused = if refusals[0] == 0 { String::new() } else { format!(", refused {}", refusals[0]) };
    Line::of_chain(NAME, name + &refused, best)
}

/// The named store alone, for the proved one.
fn named(disk: &Disk) -> Lane {
    let (pool, table) = disk.part(STORE).expect("there are eight");
    Lane { store: Box::new(Proved), pool: pool.to_vec(), table: table.to_vec() }
}

/// A tally of each store, and the call on the named one, which is put back outside the time taken.
fn each_alone(disk: &Disk, lane: &mut Lane, call: &Call) -> Duration {
    let start = Instant::now();
    disk.parts().for_each(|(pool, table)| assert_eq!(Proved.tally(pool, table, OWNER)[0], 0));
    assert_eq!(answer(lane, OWNER, call).0[0], 0);
    let taken = start.elapsed();
    let (pool, table) = disk.part(STORE).expect("there are eight");
    lane.pool.copy_from_slice(pool);
    lane.table.copy_from_slice(table);
    taken
}

//! Any pool and table, sound or not: both stores give the same answers and leave the same buffers.

use keeper::calls::any_price;
use keeper::collected::misfit;
use keeper::course::{answer, Lane};
use keeper::messages::Messages;
use keeper::staff::any_rights;
use keeper::stock::Stock;
use keeper::trial::letters;
use keeper::words::Words;
use keeper::{Call, Random};
use lurdempos::Proved;
use std::collections::BTreeSet;
use terms::{Capacities, Collected, LONGEST_STREAM, OWNER, USERS};
use twin::{fingerprint_of, Twin};

/// What one round of calls was answered.
pub type Refusals = BTreeSet<u32>;

/// Puts each call of a user to both stores, each time on a fresh copy. Answers the refusals met, after making sure that 10 is
/// said by every call or by none, and by the twin's own check.
pub fn compare(pool: &[u8], table: &[u32], calls: &[(u32, Call)]) -> Refusals {
    let mut proved = Lane { store: Box::new(Proved), pool: pool.to_vec(), table: table.to_vec() };
    let mut plain = Lane { store: Box::new(Twin), pool: pool.to_vec(), table: table.to_vec() };
    let mut refusals = Refusals::new();
    let sound = twin::is_sound(pool, table);
    for (user, call) in calls {
        let (said, expected) = (answer(&mut proved, *user, call), answer(&mut plain, *user, call));
        assert!(said == expected, "user {user}, {call:?}: proved store {:?}, twin {:?}", said.0, expected.0);
        assert_eq!(said.0[0] == 10, !sound, "{call:?}: verdict");
        assert!(proved.pool == plain.pool && proved.table == plain.table, "{call:?}: buffers differ");
        if said.0[0] != 0 {
            assert!(proved.pool == pool && proved.table == table, "{call:?}: altered though refused");
        }
        refusals.insert(said.0[0]);
        for lane in [&mut proved, &mut plain] {
            lane.pool.copy_from_slice(pool);
            lane.table.copy_from_slice(table);
        }
    }
    refusals
}

/// One call of each sort that reads a store, for this sound one, by the owner and by anybody.
pub fn each_call(random: &mut Random, pool: &[u8], table: &[u32]) -> Vec<(u32, Call)> {
    let calls = each_sort(random, pool, table);
    let anybody: Vec<u32> = calls.iter().map(|_| random.below(USERS as usize + 2) as u32).collect();
    let by_anybody = anybody.into_iter().zip(calls.clone());
    calls.into_iter().map(|call| (OWNER, call)).chain(by_anybody).collect()
}

fn each_sort(random: &mut Random, pool: &[u8], table: &[u32]) -> Vec<Call> {
    let capacities = Capacities::of_table(table).expect("a sound store");
    let till = random.below(capacities.tills as usize) as u32;
    let held = Words::new(table, capacities).numbers(till as usize);
    let version = if held.is_empty() || random.percent(30) { random.below(6) as u32 } else { *random.pick(&held) };
    let mut image = if random.percent(70) {
        of_records(random, pool, table, capacities)
    } else {
        of_letters(random, capacities.block_bytes)
    };
    image.truncate(capacities.image_bytes());
    let stock = Stock::of(pool, table, &fingerprint_of);
    let messages = Messages { capacities, stock: &stock, print: &fingerprint_of };
    let (fingerprints, room) = messages.offer(random, &image, false);
    let all = of_tills(random, &image, capacities);
    let day = day_near(random, &Words::new(table, capacities).days(till as usize));
    vec![
        Call::Tally,
        Call::Bill { price: any_price(random) },
        Call::Listing { till },
        Call::VersionOn { till, day },
        Call::Restore { till, version, room: capacities.image_bytes() },
        Call::WriteStream { till, version, room: LONGEST_STREAM },
        Call::Retire { till, version },
        Call::Offer { till, fingerprints, room },
        Call::Sent { till, sending: messages.sent(random, &image, false) },
        Call::All(all),
        Call::SetRights { subject: random.between(1, 7) as u32, till, rights: any_rights(random) },
        Call::Dated { till, day, image: image.clone() },
        Call::Backup { till, image },
    ]
}

/// A day at one of these or beside it, or any.
fn day_near(random: &mut Random, days: &[u32]) -> u32 {
    let any = random.edge();
    let day = if days.is_empty() { any } else { *random.pick(days) };
    *random.pick(&[day, day.saturating_sub(1), day.saturating_add(1), any])
}

/// A closing of some tills with an image whole and in parts, and now and then of lists that do not fit.
fn of_tills(random: &mut Random, image: &[u8], capacities: Capacities) -> Collected {
    let tills = capacities.tills as usize;
    let part = |random: &mut Random| &image[random.below(image.len() + 1)..];
    let images: Vec<(u32, &[u8])> =
        (0..random.below(5)).map(|_| (random.below(tills + 1) as u32, part(random))).collect();
    let mut all = Collected::of(images);
    if random.percent(20) {
        misfit(random, &mut all);
    }
    all
}

fn of_letters(random: &mut Random, bytes: u32) -> Vec<u8> {
    let text: String = (0..random.between(1, 20)).map(|_| *random.pick(&['a', 'b', 'c', 'd', '#', '.'])).collect();
    letters(&text, bytes)
}

/// An image of segments that records have.
fn of_records(random: &mut Random, pool: &[u8], table: &[u32], capacities: Capacities) -> Vec<u8> {
    let (bytes, size) = (capacities.block_bytes as usize, capacities.record_words());
    let records: Vec<&[u32]> = table[table.len() - size * capacities.records as usize..].chunks(size).collect();
    let mut image = Vec::new();
    for _ in 0..3 {
        let record = *random.pick(&records);
        for i in 0..capacities.segment_blocks as usize {
            let at = bytes * record[3 + i] as usize;
            match (record[0] >> i & 1, record[2] >> i & 1) {
                (1, _) => image.extend_from_slice(&pool[at..at + bytes]),
                (_, blank) => image.extend(vec![255 * blank as u8; bytes]),
            }
        }
    }
    image
}

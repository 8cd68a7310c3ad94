//! Fair turns on the line: the proved turn against a plain reading of the page, and runs of turns with marks that change.

use keeper::Random;
use lurdempos::{Proved, Refusal, Turn};
use terms::Calls;
use trials::{seed, times};
use twin::Twin;

fn compare(record: [u32; 3]) -> [u32; 6] {
    let proved = Proved.turn(record);
    assert_eq!(proved, Twin.turn(record), "{record:?}");
    proved
}

/// Tills and last till from 0 to 9, every mask of nine tills, each also with one mark higher up.
#[test]
fn every_small_record() {
    let (mut served, mut idle, mut refused) = (0, 0, 0);
    for (tills, last) in (0..10).flat_map(|tills| (0..10).map(move |last| (tills, last))) {
        for mask in 0..1 << 9 {
            match compare([tills, mask, last]) {
                [0, 1, ..] => served += 1,
                [0, ..] => idle += 1,
                _ => refused += 1,
            }
            (9..32).for_each(|mark| assert_eq!(compare([tills, mask | 1 << mark, last])[0], 27));
        }
    }
    // For each of 1 to 9 tills a last till and a mask; the mask of none once for each last till.
    let accepted: u32 = (1..10).map(|tills| tills << tills).sum();
    assert_eq!((served, idle, refused), (accepted - 45, 45, 51_200 - accepted));
}

#[test]
fn random_records() {
    let mut random = Random::new(seed());
    for _ in 0..times() * 1_000_000 {
        let tills = random.below(18);
        let bits = if random.percent(80) { tills } else { 32 };
        let mask = random.number() & random.number() & ((1 << bits) - 1);
        let last = if random.percent(90) { random.below(tills.max(1)) } else { random.below(18) };
        compare([tills as u32, mask as u32, last as u32]);
    }
}

/// How many turns it takes until the till is served, its mark standing and the others' as drawn.
fn turns_until(turn: &mut Turn, till: u32, mut others: impl FnMut() -> u32) -> u32 {
    for n in 1..=turn.tills {
        turn.waiting = (others() & ((1 << turn.tills) - 1)) | 1 << till;
        let before = *turn;
        let served = turn.take_turn().expect("a turn record").expect("one waits");
        assert_eq!(*turn, Turn { waiting: before.waiting ^ 1 << served, last: served, ..before });
        if served == till {
            return n;
        }
    }
    panic!("till {till} is not served: {turn:?}");
}

/// Every till from every last till on, while the others come and go, all wait, or none does.
#[test]
fn who_keeps_waiting_is_served() {
    let mut random = Random::new(seed());
    for tills in 1..=16 {
        for (last, till) in (0..tills).flat_map(|last| (0..tills).map(move |till| (last, till))) {
            let start = Turn { tills, waiting: 0, last };
            for _ in 0..times() * 20 {
                turns_until(&mut start.clone(), till, || random.number() as u32);
            }
            // The bound is met by the till served last, if all wait.
            let ahead = (till + tills - last - 1) % tills + 1;
            assert_eq!(turns_until(&mut start.clone(), till, || u32::MAX), ahead);
            assert_eq!(turns_until(&mut start.clone(), till, || 0), 1);
        }
    }
}

#[test]
fn a_long_line() {
    let mut random = Random::new(seed());
    let mut turn = Turn { tills: 16, waiting: 0, last: 0 };
    let mut since = [0; 16];
    for _ in 0..times() * 100_000 {
        let come = random.number() as u32 & random.number() as u32 & 0xffff;
        let go = random.number() as u32 & random.number() as u32 & random.number() as u32;
        turn.waiting = (turn.waiting & !go) | come;
        let waiting = turn.waiting;
        let served = turn.take_turn().expect("a turn record");
        for (till, turns) in since.iter_mut().enumerate() {
            let waits = waiting >> till & 1 == 1;
            *turns = if waits && served != Some(till as u32) { *turns + 1 } else { 0 };
            assert!(*turns < 16, "till {till} waits for {turns} turns");
        }
    }
}

#[test]
fn a_refused_record_stays() {
    for record in [[0, 0, 0], [17, 1, 0], [4, 16, 0], [4, 1, 4]] {
        let [tills, waiting, last] = record;
        let mut turn = Turn { tills, waiting, last };
        assert_eq!(turn.take_turn(), Err(Refusal::NoTurn));
        assert_eq!([turn.tills, turn.waiting, turn.last], record);
    }
}

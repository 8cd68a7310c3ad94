//! Fair turns on the line: a turn record of three numbers, and a turn.

use terms::Refusal;

/// Serves the first waiting till after the last one, round the circle, and says which, or that none waits.
pub fn take_turn(tills: u32, waiting: &mut u32, last: &mut u32) -> Result<Option<u32>, Refusal> {
    let mask = *waiting;
    let waits = |till: &u32| mask & 1 << till != 0;
    if !(1..=16).contains(&tills) || (tills..32).any(|till| waits(&till)) || *last >= tills {
        return Err(Refusal::NoTurn);
    }
    let served = (*last + 1..tills).chain(0..=*last).find(waits);
    if let Some(till) = served {
        *waiting ^= 1 << till;
        *last = till;
    }
    Ok(served)
}

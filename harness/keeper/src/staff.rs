//! Random users, mostly such as may do what they ask for, and random changes of what they may do.

use crate::{Call, Keeper, Random};
use terms::{Right, Rights, OWNER, USERS};

/// Numbers that no user has.
pub const UNKNOWN: [u32; 5] = [USERS, USERS + 1, 15, 1 << 31, u32::MAX];

/// Somebody to make a call: often the owner, mostly one who has the right that it needs, sometimes one who has not.
pub fn user_for(random: &mut Random, keeper: &Keeper, call: &Call) -> u32 {
    let any = random.below(USERS as usize) as u32;
    let may = |user: &u32, (till, right)| keeper.admitted(*user, till, right).is_ok();
    match (random.below(20), call.needs()) {
        (0, _) => *random.pick(&UNKNOWN),
        (1..=3, _) => any,
        (4..=9, _) => OWNER,
        (_, Some(needed)) => (any..USERS).chain(1..any).find(|user| may(user, needed)).unwrap_or(OWNER),
        (_, None) if matches!(call, Call::All(_)) => any,
        (_, None) => OWNER,
    }
}

/// A change on a till: of one of few users, so that they come to have rights, seldom of one who is nobody or the owner.
pub fn change(random: &mut Random, till: u32) -> Call {
    let subject = match random.below(12) {
        0 => *random.pick(&UNKNOWN),
        1 => OWNER,
        2..=4 => random.between(1, USERS as usize - 1) as u32,
        _ => random.between(1, 3) as u32,
    };
    Call::SetRights { subject, till, rights: any_rights(random) }
}

/// All, none, or each by chance.
pub fn any_rights(random: &mut Random) -> Rights {
    match random.below(8) {
        0 | 1 => Rights::ALL,
        2 => Rights::NONE,
        _ => Right::ALL.into_iter().fold(Rights::NONE, |rights, right| rights.with(right, random.percent(60))),
    }
}

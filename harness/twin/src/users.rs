//! Keys for staff: who makes a call, on which till, and with which right.

use crate::layout::{Layout, RIGHTS};
use crate::sound;
use terms::{Refusal, Right, Rights, OWNER, USERS};

/// Bits of a till's word of rights that one user has.
const BITS: u32 = 4;

/// A user at a till.
#[derive(Clone, Copy)]
pub struct By {
    pub user: u32,
    pub till: u32,
}

impl By {
    /// The till, if there is one and the user has the right on it; else 3, 22 or 23, in this order.
    pub fn with(self, right: Right, layout: &Layout, table: &[u32]) -> Result<usize, Refusal> {
        let till = layout.till(self.till)?;
        known(self.user)?;
        let has = || layout.till_of(table, till).rights() & bit(self.user, right) != 0;
        (self.user == OWNER || has()).then_some(till).ok_or(Refusal::NoRight)
    }
}

/// The bit of a right of a user other than the owner.
fn bit(user: u32, right: Right) -> u32 {
    let place = match right {
        Right::List => 0,
        Right::BackUp => 1,
        Right::Restore => 2,
        Right::Retire => 3,
    };
    1 << (BITS * (user - 1) + place)
}

fn known(user: u32) -> Result<(), Refusal> {
    (user < USERS).then_some(()).ok_or(Refusal::UnknownUser)
}

/// What is the owner's alone: 22, then 23.
pub fn owned(user: u32) -> Result<(), Refusal> {
    known(user)?;
    (user == OWNER).then_some(()).ok_or(Refusal::NoRight)
}

/// Whether a word has bits of users 1 to 7 only.
pub fn is_word_of_rights(word: u32) -> bool {
    word >> (BITS * (USERS - 1)) == 0
}

/// Sets what a user other than the owner may do on a till, for the owner.
pub fn set_rights(
    pool: &[u8],
    table: &mut [u32],
    user: u32,
    subject: u32,
    till: u32,
    rights: Rights,
) -> Result<(), Refusal> {
    set_rights_in(&sound::check(pool, table)?.layout, table, By { user, till }, subject, rights)
}

pub fn set_rights_in(
    layout: &Layout,
    table: &mut [u32],
    By { user, till }: By,
    subject: u32,
    rights: Rights,
) -> Result<(), Refusal> {
    let till = layout.till(till)?;
    known(user)?;
    known(subject)?;
    if subject == OWNER {
        return Err(Refusal::UnknownUser);
    }
    owned(user)?;
    let word = &mut table[layout.till_at(till) + RIGHTS];
    for right in Right::ALL {
        *word &= !bit(subject, right);
        *word |= if rights.has(right) { bit(subject, right) } else { 0 };
    }
    Ok(())
}

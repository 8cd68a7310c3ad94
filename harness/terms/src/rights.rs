//! The users of a store, and what each may do on a till.

/// Users of a store, 0 to 7.
pub const USERS: u32 = 8;
/// The user who has all rights and sets those of the others.
pub const OWNER: u32 = 0;

/// One of the four rights that a user can have on a till.
#[derive(Clone, Copy, Debug, PartialEq, Eq)]
pub enum Right {
    List,
    /// With the first message of a till that asks what the box lacks.
    BackUp,
    /// Also as a stream.
    Restore,
    Retire,
}

/// What a user may do on a till.
#[derive(Clone, Copy, Debug, Default, PartialEq, Eq)]
pub struct Rights {
    pub list: bool,
    pub back_up: bool,
    pub restore: bool,
    pub retire: bool,
}

impl Right {
    /// In the boundary's order.
    pub const ALL: [Right; 4] = [Right::List, Right::BackUp, Right::Restore, Right::Retire];
}

impl Rights {
    pub const NONE: Rights = Rights { list: false, back_up: false, restore: false, retire: false };
    pub const ALL: Rights = Rights { list: true, back_up: true, restore: true, retire: true };

    /// This one alone.
    pub fn only(right: Right) -> Rights {
        Rights::NONE.with(right, true)
    }

    pub fn has(self, right: Right) -> bool {
        let Rights { list, back_up, restore, retire } = self;
        match right {
            Right::List => list,
            Right::BackUp => back_up,
            Right::Restore => restore,
            Right::Retire => retire,
        }
    }

    /// The same but for one right, which is given or taken.
    pub fn with(mut self, right: Right, given: bool) -> Rights {
        let Rights { list, back_up, restore, retire } = &mut self;
        *match right {
            Right::List => list,
            Right::BackUp => back_up,
            Right::Restore => restore,
            Right::Retire => retire,
        } = given;
        self
    }

    /// A user's rights on a till, by the word of the table that has the rights of all but the owner. An unknown user has
    /// none.
    pub fn of_word(word: u32, user: u32) -> Rights {
        match user {
            OWNER => Rights::ALL,
            1..USERS => Right::ALL
                .into_iter()
                .zip(4 * (user - 1)..)
                .fold(Rights::NONE, |rights, (right, bit)| rights.with(right, word >> bit & 1 == 1)),
            _ => Rights::NONE,
        }
    }
}

#[cfg(test)]
mod tests {
    use super::{Right, Rights, USERS};

    #[test]
    fn bits_of_a_word() {
        for (bit, n) in (0..28).zip(0..) {
            for user in 1..USERS {
                let own = if bit / 4 == user - 1 { Rights::only(Right::ALL[n % 4]) } else { Rights::NONE };
                assert_eq!(Rights::of_word(1 << bit, user), own, "bit {bit}, user {user}");
            }
        }
        assert_eq!(Rights::of_word(0, 0), Rights::ALL);
        assert_eq!([8, 9, u32::MAX].map(|user| Rights::of_word(u32::MAX, user)), [Rights::NONE; 3]);
    }

    #[test]
    fn given_and_taken() {
        for right in Right::ALL {
            assert!(Rights::only(right).has(right) && !Rights::ALL.with(right, false).has(right));
            assert_eq!(Rights::only(right).with(right, false), Rights::NONE);
        }
        let given = Right::ALL.into_iter().fold(Rights::NONE, |rights, right| rights.with(right, true));
        assert_eq!((given, Rights::default()), (Rights::ALL, Rights::NONE));
    }
}

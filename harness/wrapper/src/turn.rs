//! Fair turns of the tills that wait for one line.

use crate::Proved;
use terms::{accepted, Calls, Refusal};

/// The turn record that a dispatcher keeps. Between two turns it sets and takes away marks as tills come and go; till
/// count and last till stay as the turn before left them, and then a till that keeps waiting is served within as many
/// turns as there are tills.
#[derive(Clone, Copy, Debug, PartialEq, Eq)]
pub struct Turn {
    /// Tills present, 1 to 16.
    pub tills: u32,
    /// The mask of those waiting: bit t for till t.
    pub waiting: u32,
    /// The till served last.
    pub last: u32,
}

impl Turn {
    /// Serves the first waiting till after the last one, round the circle, if one waits: it becomes the last and loses
    /// its mark. Otherwise the record stays.
    pub fn take_turn(&mut self) -> Result<Option<u32>, Refusal> {
        let [refusal, served, till, tills, waiting, last] = Proved.turn([self.tills, self.waiting, self.last]);
        *self = Turn { tills, waiting, last };
        accepted(refusal).map(|()| (served == 1).then_some(till))
    }
}

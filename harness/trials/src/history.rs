//! Random lists of calls from the empty store, the proved store against the twin and the keeper.

use crate::stores;
use keeper::calls::{Before, List, Style};
use keeper::inspect::{days_never_fall, inspect};
use keeper::{Course, Random};
use terms::Capacities;

pub use keeper::small::small;

/// Runs one list of so many calls, and looks into the words every so often.
pub fn run(seed: u64, capacities: Capacities, style: Style, calls: usize, look: usize) -> Course {
    run_from_before(seed, capacities, style, (calls, look), Before::Never)
}

/// The same where some backups are the twin's, by the rule from before blank blocks were known.
pub fn run_from_before(
    seed: u64,
    capacities: Capacities,
    style: Style,
    (calls, look): (usize, usize),
    before: Before,
) -> Course {
    let mut random = Random::new(seed);
    let list = List::new(&mut random, capacities, style);
    let mut course = Course::new(capacities, stores()).with_earlier(twin::earlier);
    for n in 1..=calls {
        let (user, call) = list.next(&mut random, &course);
        course.call_by(user, &before.made(&mut random, n, calls, call));
        if n % look == 0 {
            let (pool, table) = course.buffers();
            inspect(pool, table, course.keeper());
            days_never_fall(table);
        }
    }
    course
}

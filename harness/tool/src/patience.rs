//! How long a run waits for another one that is at the same file.

use crate::arguments::Arguments;
use crate::Failure;
use std::thread;
use std::time::{Duration, Instant};

/// Seconds, if the command line does not say.
pub const DEFAULT: u32 = 10;

/// Between two tries. Runs that wait together should not try at the same instants.
const SHORTEST: u64 = 5;
const LONGEST: u64 = 20;

pub struct Patience {
    pub seconds: u32,
    since: Instant,
}

impl Patience {
    /// As the option `--wait` says, from now on.
    pub fn asked(arguments: &Arguments) -> Result<Patience, Failure> {
        let seconds = arguments.option_number("--wait")?.unwrap_or(DEFAULT);
        Ok(Patience { seconds, since: Instant::now() })
    }

    /// Waits a little; false if the time is up.
    pub fn pause(&self) -> bool {
        let waited = self.since.elapsed();
        if waited >= Duration::from_secs(self.seconds.into()) {
            return false;
        }
        let odd = u64::from(std::process::id()) + u64::from(waited.subsec_micros());
        thread::sleep(Duration::from_millis(SHORTEST + odd % (LONGEST - SHORTEST)));
        true
    }
}

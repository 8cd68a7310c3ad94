//! Which versions were there once, each case worked out by hand from the pages.

use crate::trial::Trial;
use terms::{Calls, Capacities, OWNER};

/// A store with till 0, whose versions come and go, and till 1, which never has one.
struct Shop<'a> {
    store: &'a dyn Calls,
    trial: Trial<'a>,
}

impl Shop<'_> {
    /// Restore, the stream's writer and retire all refuse these numbers so, also where the output has no room at all.
    fn refuse(&mut self, till: u32, refusal: u32, numbers: &[u32]) {
        let Trial { pool, table, .. } = &mut self.trial;
        for &version in numbers {
            for room in [0, 1_024] {
                let restored = self.store.restore(pool, table, OWNER, till, version, &mut vec![0; room]);
                let written = self.store.write_stream(pool, table, OWNER, till, version, &mut vec![0; room]);
                assert_eq!((restored, written), ([refusal, 0, 0], [refusal, 0]), "till {till}, version {version}");
            }
            let retired = self.store.retire(pool, table, OWNER, till, version);
            assert_eq!(retired, [refusal, 0], "till {till}, version {version}");
        }
    }

    /// Of till 0 the numbers given and not held get 18; 0, the next number and all above get 17.
    fn given_and_gone(&mut self, last: u32, gone: &[u32]) {
        self.refuse(0, 18, gone);
        self.refuse(0, 17, &[0, last + 1, last + 2, 65_535, 65_536, u32::MAX]);
        self.refuse(1, 17, &[0, 1, last, last + 1, 65_535, u32::MAX]);
        self.refuse(2, 3, &[0, 1, last, last + 1, u32::MAX]);
        let listing = self.trial.listing();
        assert_eq!((listing[0], listing[3]), (0, last));
    }
}

/// The last number held and retired, the one after it, 0, a gap, the number just below the oldest, an empty till.
pub fn given_or_never(store: &dyn Calls) {
    let mut shop = Shop { store, trial: Trial::new(store, Capacities::new(2, 4, 16, 8, 32)) };
    shop.given_and_gone(0, &[]);
    for (text, number) in ["ABCDEFGH", "ABCDEFGZ", "ABCDEFGH", "A"].into_iter().zip(1..) {
        assert_eq!(shop.trial.file(text), [0, number]);
        shop.given_and_gone(number, &[]);
    }
    let steps = [(2, &[2][..]), (4, &[2, 4]), (1, &[1, 2, 4])];
    for (version, gone) in steps {
        assert_eq!(shop.trial.retire(version)[0], 0);
        shop.given_and_gone(4, gone);
    }
    assert_eq!((shop.trial.file("B"), shop.trial.listing()), ([0, 5], [0, 3, 5, 5]));
    shop.given_and_gone(5, &[1, 2, 4]);
    assert_eq!((shop.trial.retire(5), shop.trial.retire(3)), ([0, 64], [0, 512]));
    shop.given_and_gone(5, &[1, 2, 3, 4, 5]);
    assert_eq!((shop.trial.tally(), shop.trial.listing()), ([0; 4], [0, 0, 0, 5]));
}

/// A till that has given its last possible number: it is given, whether held or not, and the next one never.
pub fn numbers_used_up(store: &dyn Calls) {
    let mut shop = Shop { store, trial: Trial::new(store, Capacities::new(2, 4, 16, 8, 32)) };
    shop.trial.table[8] = 65_534;
    shop.refuse(0, 18, &[1, 65_533, 65_534]);
    shop.refuse(0, 17, &[0, 65_535, 65_536, u32::MAX]);
    assert_eq!(shop.trial.file("A"), [0, 65_535]);
    shop.refuse(0, 18, &[1, 65_533, 65_534]);
    shop.refuse(0, 17, &[0, 65_536, u32::MAX]);
    assert_eq!((shop.trial.retire(65_535), shop.trial.file("A")), ([0, 64], [12, 0]));
    shop.refuse(0, 18, &[1, 65_534, 65_535]);
    shop.refuse(0, 17, &[0, 65_536, u32::MAX]);
}

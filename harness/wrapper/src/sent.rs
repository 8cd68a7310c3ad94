//! What a till sends that asks first what the box lacks. None of this needs a store.

use crate::Proved;
use terms::{fingerprint, Calls, Capacities, Fingerprint, Sending};

/// A message's SHA-1.
pub fn sha1(message: &[u8]) -> Fingerprint {
    fingerprint(Proved.sha1(message))
}

/// An image as a till would send it whole to a store of these capacities. Its fingerprints are for
/// [`Store::offer`](crate::Store::offer); [`Sending::lacking`] leaves out what that marks, and the rest is for
/// [`Store::backup_sent`](crate::Store::backup_sent).
pub fn sending(image: &[u8], capacities: Capacities) -> Sending {
    Sending::whole(image, capacities.segment_bytes(), sha1)
}

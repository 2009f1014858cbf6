//! What a series of cases has met: a test that never meets what it is about shows nothing.

use std::collections::BTreeMap;

/// How often something was seen.
pub type Seen = BTreeMap<&'static str, u32>;

pub fn see(seen: &mut Seen, what: &'static str, there: bool) {
    *seen.entry(what).or_default() += u32::from(there);
}

/// Each of these was seen so often at the least.
#[track_caller]
pub fn assert_seen(seen: &Seen, least: u32, all: &[&str]) {
    for what in all {
        assert!(seen.get(what).is_some_and(|&times| times >= least), "{what}: {seen:?}");
    }
}

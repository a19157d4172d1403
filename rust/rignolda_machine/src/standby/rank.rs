//! The rank of an agent that is promoted: the number above which it publishes, and by which one of
//! two roots goes on.
use crate::settings::{furthest, is_newer};

/// How far the rank is above the clock, in microseconds: so much that clocks may differ by that. If
/// promotions are a second apart, the clock alone decides: the later one has the higher rank,
/// though it never heard of the other one.
const AHEAD: u64 = 1 << 21;
/// How far it is above what the agent has seen, since whoever was the root till then may have
/// published more. It is less than a second, or each promotion would be further ahead of the clock
/// than the last one.
const UNSEEN: u64 = 1 << 19;
/// The same if what the agent has seen is this far ahead of the clock, as after a fault: then the
/// clock says nothing, and the other one may have been cut off for long.
const FAR: u64 = 1 << 32;

/// The rank of an agent that has seen this number, and none that is further, when a clock shows so
/// many microseconds since 1970.
pub fn rank(seen: u64, clock: u64) -> u64 {
    let is_far = is_newer(seen, clock.wrapping_add(FAR));
    let above = seen.wrapping_add(if is_far { FAR } else { UNSEEN });
    furthest(above, [clock.wrapping_add(AHEAD)])
}

//! How much work another end may have done here for a few bytes.
use crate::Time;
use core::time::Duration;

/// How much is done at once at most, and in each second: a tenth of a processor's time.
const MOST: u64 = 64 << 20;
const IN_A_SECOND: u64 = 32 << 20;
/// After how long all may be done again.
const FULL: Duration = Duration::from_secs(MOST / IN_A_SECOND);

/// What may be done now, in bytes that are looked at or written.
#[derive(Debug)]
pub(super) struct Budget {
    spent: u64,
    since: Time,
}

impl Budget {
    /// All may be done.
    pub(super) fn new(now: Time) -> Budget {
        Budget { spent: 0, since: now }
    }

    /// Whether work of this cost may be done now: then it counts.
    pub(super) fn takes(&mut self, cost: u64, now: Time) -> bool {
        // (what it came to by a fault of memory is brought back to its bounds)
        let went = now.since(self.since).min(FULL);
        let back = went.as_micros() as u64 * IN_A_SECOND / 1_000_000;
        self.spent = self.spent.min(MOST).saturating_sub(back);
        self.since = now;
        let may = cost <= MOST - self.spent;
        self.spent += if may { cost } else { 0 };
        may
    }
}

rignolda::spoils! { Budget { spent, since } }

#[cfg(test)]
mod tests {
    use super::*;

    #[test]
    fn so_much_is_done_at_once_and_so_much_in_a_second() {
        let now = Time::default();
        let mut budget = Budget::new(now);
        assert!(!budget.takes(MOST + 1, now));
        assert!(budget.takes(MOST, now));
        assert!(!budget.takes(1, now));
        let later = |millis| now + Duration::from_millis(millis);
        assert!(!budget.takes(IN_A_SECOND, later(999)));
        // (each call rounds down)
        assert!(budget.takes(IN_A_SECOND - 2, later(1_000)));
        assert!(!budget.takes(2, later(1_000)));
        assert!(budget.takes(MOST, later(9_000)));
        // (however often it is asked for)
        let asks = (0..1_000_000).map(|micros| now + Duration::from_micros(10_000_000 + micros));
        let taken: u64 = asks.map(|at| u64::from(budget.takes(1_024, at))).sum();
        let taken = taken << 10;
        assert!(taken <= 2 * IN_A_SECOND, "{taken}");
        assert!(taken >= IN_A_SECOND / 2 * 3, "what came back is lost: {taken}");
        // (and however seldom)
        assert!(budget.takes(MOST, now + Duration::from_secs(1 << 30)));
    }

    #[test]
    fn a_spoiled_one_comes_back() {
        let now = Time::default();
        let mut budget = Budget::new(now + Duration::from_secs(1 << 20));
        budget.spent = u64::MAX;
        assert!(!budget.takes(1, now));
        assert!(budget.takes(MOST, now + FULL));
    }
}

//! When an agent restarts itself, as the last resort: a fault of the memory that no look sees ends
//! with that.
use crate::sha::short;
use crate::{Sha256, Time};
use core::time::Duration;

/// After how long an agent restarts itself at the earliest, and how much later at most.
const HALF_A_DAY: Duration = Duration::from_secs(12 * 3_600);
const DAY: Duration = Duration::from_secs(24 * 3_600);
/// For how long what is under way is waited for before that.
const DRAINS: Duration = Duration::from_secs(60);

/// A part of a time, as it was drawn.
pub fn part_of(time: Duration, drawn: u64) -> Duration {
    Duration::from_secs(drawn % time.as_secs().max(1))
}

/// What is to be done about the restart.
#[derive(Clone, Copy, Debug, PartialEq, Eq)]
pub enum Step {
    Nothing,
    /// Nothing new begins, so that what is under way comes to its end.
    Drain,
    /// It is not to restart after all: what was drained goes on.
    Resume,
    Restart,
}

/// When an agent restarts itself, as the last resort.
#[derive(Debug)]
pub struct Restarts {
    at: Time,
    drains: Option<Time>,
}

impl Restarts {
    /// Half a day after a start, and up to a day more: as it is drawn from the agent's name and the
    /// day, so that the agents of a tree do so at different times.
    pub fn new(name: &str, day: u64, after: Option<Duration>, sha: Sha256, now: Time) -> Restarts {
        let drawn = short(&sha(&[name.as_bytes(), &day.to_be_bytes()]));
        let after = after.unwrap_or_else(|| HALF_A_DAY + part_of(DAY, drawn));
        Restarts { at: now + after, drains: None }
    }

    /// Whether it drains for that.
    pub fn drains(&self) -> bool {
        self.drains.is_some()
    }

    /// What is to be done now. It may restart if each child has another parent meanwhile, and first
    /// it drains: until nothing is under way, or for a minute.
    pub fn step(&mut self, may: bool, is_idle: bool, now: Time) -> Step {
        // (what is further ahead than any is spoiled)
        self.at = self.at.min(now + HALF_A_DAY + DAY);
        self.drains = self.drains.map(|at| at.min(now));
        match self.drains {
            _ if now < self.at => Step::Nothing,
            None if may => {
                self.drains = Some(now);
                Step::Drain
            }
            Some(since) if may && (is_idle || now >= since + DRAINS) => Step::Restart,
            Some(_) if !may => {
                self.drains = None;
                Step::Resume
            }
            _ => Step::Nothing,
        }
    }
}

rignolda::spoils! { Restarts { at, drains } }

#[cfg(test)]
mod tests {
    use super::*;
    use crate::prelude::*;
    use crate::sha::sha256;

    #[test]
    fn a_restart_is_drawn_and_drains_first_and_spares_who_has_no_other_parent() {
        let now = Time::after(HALF_A_DAY);
        let after = |name: &str, day| Restarts::new(name, day, None, sha256, now).at - now;
        let all: Vec<_> = (0..100).map(|at| after(&format!("a{at}"), 20_000)).collect();
        assert!(all.iter().all(|it| (HALF_A_DAY..HALF_A_DAY + DAY).contains(it)));
        let mut different = all.clone();
        different.sort();
        different.dedup();
        assert!(different.len() > 90 && all[0] < all[1] || all[0] > all[1]);
        assert_ne!(after("a0", 20_000), after("a0", 20_001));
        assert_eq!(after("a0", 20_000), all[0]);
        let second = Duration::from_secs(1);
        let mut it = Restarts::new("a", 1, Some(second), sha256, now);
        assert_eq!(it.step(true, true, now), Step::Nothing);
        let now = now + second;
        assert_eq!(it.step(false, true, now), Step::Nothing);
        assert_eq!(it.step(true, true, now), Step::Drain);
        assert_eq!(it.step(true, false, now + second), Step::Nothing);
        assert_eq!(it.step(false, true, now + second), Step::Resume);
        assert_eq!(it.step(true, false, now + second), Step::Drain);
        assert!(it.drains());
        assert_eq!(it.step(true, false, now + DRAINS), Step::Nothing);
        assert_eq!(it.step(true, true, now + DRAINS), Step::Restart);
        assert_eq!(it.step(true, false, now + second + DRAINS), Step::Restart);
    }
}

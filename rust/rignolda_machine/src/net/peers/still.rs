//! Whether a parent stands still: it says its way, and brings no whole table.
use crate::Time;
use alloc::collections::BTreeMap;
use core::time::Duration;

/// A parent stands still which brought no table for so many times the longest pause of late.
const TIMES: u32 = 3;
/// And for so long at least; and where no pause is known.
const LEAST: Duration = Duration::from_secs(30);
const UNKNOWN: Duration = Duration::from_secs(120);
/// For how long one that stood still is not taken again: twice as long each time, up to the last.
const BARRED: Duration = Duration::from_secs(60);
const LONGEST: Duration = Duration::from_secs(4 * 3_600);
/// More than this is not counted at once: then the process, or its machine, stood still itself.
const STEP: Duration = Duration::from_secs(3);

/// A parent that was left since it stood still.
#[derive(Debug)]
struct Left {
    times: u32,
    until: Time,
    is_barred: bool,
}

/// How long tables did not come, of the time in which there was a parent that has a root.
///
/// Where the root itself begins no rounds, each parent stands still: so none is left where no other
/// one may be taken, and each is left more and more seldom.
#[derive(Debug)]
pub(super) struct Still {
    /// Which parent was taken last, by its place, and how many tables it brought since.
    at: usize,
    tables: u64,
    /// For how long none came, and the longest such pause of late.
    idle: Duration,
    pause: Duration,
    looked: Time,
    left: BTreeMap<usize, Left>,
}

impl Still {
    pub(super) fn new(now: Time) -> Still {
        Still {
            at: 0,
            tables: 0,
            idle: Duration::ZERO,
            pause: Duration::ZERO,
            looked: now,
            left: BTreeMap::new(),
        }
    }

    /// A second or two went by. `has_root`: whether there is a parent that has a root. Whether that
    /// begins to stand still.
    pub(super) fn passes(&mut self, has_root: bool, now: Time) -> bool {
        let (before, most) = (self.is(), LONGEST * 10);
        let step = now.since(self.looked).min(STEP);
        self.looked = now;
        let counts = if has_root { step } else { Duration::ZERO };
        self.idle = self.idle.saturating_add(counts).min(most);
        self.pause = self.pause.min(most);
        for it in self.left.values_mut() {
            it.until = it.until.min(now + LONGEST);
            it.is_barred = now < it.until;
        }
        self.is() && !before
    }

    /// Whether the parent that there is stands still.
    pub(super) fn is(&self) -> bool {
        let patience = match self.pause {
            Duration::ZERO => UNKNOWN,
            pause => LEAST.max(pause.saturating_mul(TIMES)),
        };
        self.idle > patience
    }

    /// For how long no table came.
    pub(super) fn idle(&self) -> Duration {
        self.idle
    }

    /// The parent brings a whole table. (The first one may be that of the last round.)
    pub(super) fn brings(&mut self) {
        if self.tables > 0 {
            let least = Duration::from_secs(1);
            self.pause = self.idle.max(self.pause - self.pause / 8).max(least);
            self.left.remove(&self.at);
        }
        self.tables = self.tables.saturating_add(1);
        self.idle = Duration::ZERO;
    }

    /// A parent is taken. Where the one before stood still, it is not taken again for a while.
    pub(super) fn takes(&mut self, at: usize, now: Time) {
        if at == self.at {
            return;
        }
        if self.is() {
            let times = self.left.get(&self.at).map_or(0, |it| it.times);
            let pause = (BARRED * (1 << times.min(16))).min(LONGEST);
            let (times, until) = (times.saturating_add(1), now + pause);
            let is_barred = true;
            self.left.insert(self.at, Left { times, until, is_barred });
        }
        (self.at, self.tables, self.idle) = (at, 0, Duration::ZERO);
    }

    /// Whether this parent stood still, and is not to be taken again yet in place of one that there
    /// is.
    pub(super) fn is_barred(&self, at: usize) -> bool {
        self.left.get(&at).is_some_and(|it| it.is_barred)
    }

    /// The parents are other ones.
    pub(super) fn begins_anew(&mut self, at: usize) {
        self.left.clear();
        self.at = at;
    }
}

rignolda::spoils! { Left { times, until, is_barred } }
rignolda::spoils! { Still { at, tables, idle, pause, looked, left } }

#[cfg(test)]
mod tests {
    use super::*;
    use crate::prelude::*;

    /// A clock, and what follows from its seconds.
    struct Run(Still, Time);

    impl Run {
        /// After how many seconds the parent stands still, where nothing comes.
        fn until_still(&mut self) -> u64 {
            let all = (1..100_000).find(|_| {
                self.1 += Duration::from_secs(1);
                self.0.passes(true, self.1)
            });
            all.expect("it never stands still")
        }

        /// A parent brings tables each so many seconds.
        fn rounds(&mut self, each: u64, count: usize) {
            for _ in 0..count {
                for _ in 0..each {
                    self.1 += Duration::from_secs(1);
                    assert!(!self.0.passes(true, self.1));
                }
                self.0.brings();
            }
        }

        fn takes(&mut self, at: usize) {
            self.0.takes(at, self.1);
        }
    }

    fn run() -> Run {
        let now = Time::default();
        Run(Still::new(now), now)
    }

    #[test]
    fn a_parent_stands_still_by_what_was_usual() {
        assert_eq!(run().until_still(), 121);
        for (each, expected) in [(1, 31), (30, 91), (3_600, 3 * 3_600 + 1)] {
            let mut run = run();
            // (the first table tells no pause; an hour without one is believed once)
            run.0.brings();
            run.0.pause = Duration::from_secs(each);
            run.rounds(each, 2);
            assert_eq!(run.until_still(), expected, "each {each}");
        }
    }

    #[test]
    fn time_without_a_root_does_not_count_and_a_break_of_the_link_changes_nothing() {
        let mut run = run();
        for second in 0..1_000 {
            run.1 += Duration::from_secs(1);
            assert!(!run.0.passes(false, run.1), "{second}");
        }
        run.takes(0);
        assert_eq!(run.until_still(), 121);
        // (the same one, on another connection)
        run.takes(0);
        assert!(run.0.is() && !run.0.is_barred(0));
    }

    #[test]
    fn the_longest_pause_of_late_counts_less_with_each_table() {
        let mut run = run();
        run.0.brings();
        run.0.pause = Duration::from_secs(80);
        for expected in [70_000, 61_250, 53_593] {
            run.rounds(1, 1);
            assert_eq!(run.0.pause.as_millis(), expected);
        }
        run.rounds(60, 1);
        assert_eq!(run.0.pause, Duration::from_secs(60));
        (0..100).for_each(|_| run.0.brings());
        assert_eq!(run.0.pause, Duration::from_secs(1));
    }

    #[test]
    fn one_that_stood_still_is_barred_for_twice_as_long_each_time() {
        let mut run = run();
        for expected in [60, 120, 240, 480, 960, 1_920, 3_840, 7_680, 14_400, 14_400] {
            run.until_still();
            run.takes(1);
            let barred = (0..100_000).find(|_| {
                run.1 += Duration::from_secs(1);
                run.0.passes(false, run.1);
                !run.0.is_barred(0)
            });
            assert_eq!(barred, Some(expected - 1));
            // (another one, which did not stand still, is left without a bar)
            run.takes(0);
            assert!(!run.0.is_barred(1));
            // the first table of a parent may be that of the last round, and says nothing
            run.0.brings();
            assert_eq!((run.0.pause, run.0.idle()), (Duration::ZERO, Duration::ZERO));
        }
        run.rounds(1, 1);
        assert!(run.0.left.is_empty() && run.0.pause >= Duration::from_secs(1));
    }

    #[test]
    fn what_stood_still_itself_counts_little_and_what_is_spoiled_comes_back() {
        let mut run = run();
        run.1 += LONGEST;
        assert!(!run.0.passes(true, run.1));
        assert_eq!(run.0.idle(), STEP);
        (run.0.idle, run.0.pause) = (Duration::MAX, Duration::MAX);
        run.1 += Duration::from_secs(1);
        run.0.passes(true, run.1);
        assert!(run.0.idle <= LONGEST * 10 && run.0.pause <= LONGEST * 10);
        let far = Left { times: u32::MAX, until: run.1 + LONGEST * 1_000, is_barred: true };
        run.0.left.insert(1, far);
        run.0.passes(true, run.1);
        run.0.passes(true, run.1 + LONGEST);
        assert!(!run.0.is_barred(1));
        // (of other parents nothing is known)
        run.0.left.clear();
        (run.0.at, run.0.idle, run.0.pause) = (1, LONGEST, STEP);
        run.takes(0);
        assert!(run.0.is_barred(1));
        run.0.begins_anew(2);
        assert!(!run.0.is_barred(1) && run.0.at == 2);
    }

    #[test]
    fn while_nobody_brings_tables_each_is_left_more_and_more_seldom() {
        let (mut run, mut at, mut moves) = (run(), 0, Vec::new());
        for second in 0..86_400_u64 {
            run.1 += Duration::from_secs(1);
            run.0.passes(true, run.1);
            if run.0.is() && !run.0.is_barred(1 - at) {
                at = 1 - at;
                run.takes(at);
                moves.push(second);
            }
        }
        assert!(moves.len() < 30, "{moves:?}");
        // (who brings tables again is taken as if nothing had been)
        run.rounds(1, 3);
        assert!(!run.0.left.contains_key(&at));
    }

    #[test]
    fn one_that_brings_nothing_is_left_for_ever_longer() {
        let (mut run, mut at, mut lost) = (run(), 0, 0);
        run.0.brings();
        for second in 0..86_400_u64 {
            run.1 += Duration::from_secs(1);
            run.0.passes(true, run.1);
            lost += u64::from(at == 0);
            if at == 1 && second % 30 == 0 {
                run.0.brings();
            }
            // (the first one is the better one, and taken whenever it may be)
            let other = 1 - at;
            if !run.0.is_barred(other) && (other == 0 || run.0.is()) {
                at = other;
                run.takes(at);
            }
        }
        assert!(lost < 86_400 / 50, "{lost}");
    }
}

//! When an agent makes anew what it made once, and uses only if somebody connects: a fault of the
//! memory that no look sees ends with that.
use crate::restarts::part_of;
use crate::sha::short;
use crate::{Sha256, Time};
use core::time::Duration;

/// What is made once and used if somebody connects is made anew so often at least, and at a moment
/// that is drawn.
const HOUR: Duration = Duration::from_secs(3_600);
/// For how long all new connections fail before that, and how often it is at most.
const MINUTE: Duration = Duration::from_secs(60);

/// When listeners, control sockets and contexts of TLS are made anew.
#[derive(Debug)]
pub struct Renews {
    often: Duration,
    sha: Sha256,
    drawn: u64,
    next: Time,
    last: Option<Time>,
}

impl Renews {
    /// At moments that are drawn by this number.
    pub fn new(drawn: u64, often: Option<Duration>, sha: Sha256, now: Time) -> Renews {
        let often = often.unwrap_or(HOUR);
        let mut renews = Renews { often, sha, drawn, next: now, last: None };
        renews.next = now + renews.pause();
        renews
    }

    fn pause(&mut self) -> Duration {
        self.drawn = short(&(self.sha)(&[&self.drawn.to_be_bytes()]));
        self.often / 2 + part_of(self.often / 2, self.drawn)
    }

    /// Whether that is now: since its moment has come; or all connections have failed since then,
    /// which is a minute ago; or the agent itself, which looked from outside, was not answered.
    pub fn are_due(&mut self, fails_since: Option<Time>, is_unwelcome: bool, now: Time) -> bool {
        // (what is further ahead than any is spoiled)
        self.next = self.next.min(now + self.often);
        let may = self.last.is_none_or(|at| at > now || now >= at + MINUTE.min(self.often));
        let fails = is_unwelcome || fails_since.is_some_and(|at| now >= at + MINUTE);
        let are_due = now >= self.next || may && fails;
        if are_due {
            (self.last, self.next) = (Some(now), now + self.pause());
        }
        are_due
    }
}

#[cfg(test)]
mod tests {
    use super::*;
    use crate::prelude::*;
    use crate::sha::sha256;

    #[test]
    fn what_is_made_once_is_made_anew_within_an_hour_and_at_another_moment_each_time() {
        let begun = Time::after(HOUR);
        let mut renews = Renews::new(7, None, sha256, begun);
        let (mut now, mut pauses) = (begun, Vec::new());
        for _ in 0..50 {
            let before = now;
            while !renews.are_due(None, false, now) {
                now += Duration::from_secs(1);
            }
            pauses.push(now - before);
            now += Duration::from_secs(1);
        }
        assert!(pauses.iter().all(|it| (HOUR / 2..=HOUR).contains(it)), "{pauses:?}");
        pauses.sort();
        pauses.dedup();
        assert!(pauses.len() > 40, "{pauses:?}");
        // (a moment that is spoiled comes within an hour too)
        renews.next = now + HOUR * 24_000;
        assert!(!renews.are_due(None, false, now));
        assert!(renews.are_due(None, false, now + HOUR));
    }

    #[test]
    fn what_is_made_once_is_made_anew_if_all_connections_fail_but_once_a_minute_at_most() {
        let begun = Time::after(HOUR);
        let mut renews = Renews::new(7, None, sha256, begun);
        let at = |seconds| begun + Duration::from_secs(seconds);
        let rows = [
            (0, Some(0), false, false),
            (59, Some(0), false, false),
            (60, Some(0), false, true),
            (61, Some(0), true, false),
            (119, Some(0), true, false),
            (120, Some(0), false, true),
            (180, Some(121), false, false),
            (181, None, false, false),
            (182, None, true, true),
            (183, Some(0), true, false),
        ];
        for (seconds, since, is_unwelcome, expected) in rows {
            let are_due = renews.are_due(since.map(at), is_unwelcome, at(seconds));
            assert_eq!(are_due, expected, "{seconds}");
        }
    }
}

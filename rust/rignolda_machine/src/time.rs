//! When it is, by the clock of whoever runs an agent.
use core::ops::{Add, AddAssign, Sub};
use core::time::Duration;

/// A moment, by a clock that only goes on: how long it is after some other one, which is the same
/// for all that an agent is told, such as an hour before its process began.
///
/// ```
/// use rignolda_machine::Time;
/// use std::time::Duration;
///
/// let begun = Time::after(Duration::from_secs(3_600));
/// let later = begun + Duration::from_millis(20);
/// assert!(later > begun);
/// assert_eq!(later - begun, Duration::from_millis(20));
/// // (what was not long ago is at the first moment at the earliest)
/// assert_eq!(begun - later, Duration::ZERO);
/// ```
#[derive(Clone, Copy, Debug, Default, PartialEq, Eq, PartialOrd, Ord, Hash)]
pub struct Time(Duration);

impl Time {
    /// So long after the first moment that there is.
    pub const fn after(first: Duration) -> Time {
        Time(first)
    }

    /// How long it is after an earlier moment; nothing if that one is later.
    pub fn since(self, earlier: Time) -> Duration {
        self.0.saturating_sub(earlier.0)
    }
}

impl Add<Duration> for Time {
    type Output = Time;

    fn add(self, duration: Duration) -> Time {
        Time(self.0.saturating_add(duration))
    }
}

impl AddAssign<Duration> for Time {
    fn add_assign(&mut self, duration: Duration) {
        *self = *self + duration;
    }
}

impl Sub<Duration> for Time {
    type Output = Time;

    fn sub(self, duration: Duration) -> Time {
        Time(self.0.saturating_sub(duration))
    }
}

impl Sub for Time {
    type Output = Duration;

    fn sub(self, earlier: Time) -> Duration {
        self.since(earlier)
    }
}

#[cfg(feature = "trial")]
impl rignolda::trial::Spoil for Time {
    /// It is earlier or later than it was, or than now.
    fn spoil(&mut self, by: &mut rignolda::trial::Spoils<'_>) {
        let from = if by.once_in(2) { *self } else { Time(by.now()) };
        let so_much = rignolda::trial::span(by);
        let to = if by.once_in(2) { from + so_much } else { from - so_much };
        by.strike(self, to);
    }

    fn any(by: &mut rignolda::trial::Spoils<'_>) -> Option<Time> {
        let mut at = Time(by.now());
        at.spoil(by);
        Some(at)
    }

    fn twin(&self) -> Option<Time> {
        Some(*self)
    }
}

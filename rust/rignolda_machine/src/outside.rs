//! What follows from looks at the agent from outside, as its neighbours and operators look: whether
//! it is reached, when it ends for that, and when it looks for a parent by connections of another
//! making.
use crate::prelude::*;
use crate::Time;
use core::time::Duration;

/// For how long, and in how many looks, nothing is reached before the agent ends.
const FAILS: (Duration, u32) = (Duration::from_secs(60), 4);
/// How often it looks; if it listens nowhere, since then less can be wrong, and has a parent; and
/// how soon again after it failed.
const EVERY: Duration = Duration::from_secs(10);
const EVERY_OF_LEAF: Duration = Duration::from_secs(30);
const AGAIN: Duration = Duration::from_secs(5);
/// After how long without a look whoever looks counts as lost.
const LOST: Duration = Duration::from_secs(180);
/// For how long an agent has no parent before it looks for one by new connections; and how often
/// it then does.
pub const ALONE: Duration = Duration::from_secs(180);
pub const ALONE_EVERY: Duration = Duration::from_secs(60);
/// How often in turn it finds one that answers before it ends.
const FINDS: u32 = 2;

/// What all looks of one time came to.
#[derive(Clone, Debug, PartialEq, Eq)]
pub enum Round {
    /// Each end was reached. Whether each has answered, too.
    Reached(bool),
    /// One could not be tried.
    Unknown,
    /// One was not reached, for this.
    Failed(String),
    /// One answers whoever has no certificate.
    Open(String),
}

/// What follows from these.
#[derive(Debug)]
pub struct Judge {
    /// In how many looks in turn nothing was reached, and since when.
    fails: u32,
    since: Time,
}

impl Judge {
    pub fn new(now: Time) -> Judge {
        Judge { fails: 0, since: now }
    }

    /// Whether it can be reached, as far as is known; or why it is to end.
    pub fn hears(&mut self, round: &Round, now: Time) -> Result<bool, String> {
        match round {
            Round::Open(why) => return Err(why.clone()),
            Round::Failed(why) => {
                self.fails = self.fails.saturating_add(1);
                if self.fails >= FAILS.1 && now >= self.since + FAILS.0 {
                    return Err(format!("it cannot be reached: {why}"));
                }
            }
            Round::Reached(_) | Round::Unknown => *self = Judge::new(now),
        }
        Ok(self.fails == 0)
    }
}

/// Of what two looks came to, what counts.
pub fn worse(one: Round, other: Round) -> Round {
    let rank = |it: &Round| match it {
        Round::Reached(true) => 0,
        Round::Reached(false) => 1,
        Round::Unknown => 2,
        Round::Failed(_) => 3,
        Round::Open(_) => 4,
    };
    if rank(&other) > rank(&one) {
        other
    } else {
        one
    }
}

/// How long it is to the next look.
pub fn pause(is_reached: bool, is_leaf: bool) -> Duration {
    match (is_reached, is_leaf) {
        (true, true) => EVERY_OF_LEAF,
        (true, false) => EVERY,
        (false, _) => AGAIN,
    }
}

/// Whether so much time went by since the last look that nobody looks any more.
pub fn is_lost(looked: Time, now: Time) -> bool {
    now > looked + LOST
}

/// What an agent is to do that has no parent.
#[derive(Clone, Copy, Debug, PartialEq, Eq)]
pub enum Misses {
    Nothing,
    /// To look at its parents by connections of another making.
    Looks,
    /// To end: a parent answers, and not by the connections that it has.
    Ends,
}

/// What an agent knows that has no parent.
#[derive(Debug, Default)]
pub struct Alone {
    /// Since when it has none, and how often parents had answered then.
    since: Option<(Time, u64)>,
    /// When it looked for one last, and how often in turn it found one.
    looked: Option<Time>,
    finds: u32,
}

impl Alone {
    /// To be told each second or two: whether the agent has a parent, or needs none; how often
    /// parents have answered; and what came of the look at them, if one ended. If it has none for
    /// long, and none answered, it looks; and if it found one twice, it is to end.
    pub fn misses(
        &mut self,
        (has_parent, answers): (bool, u64),
        found: Option<bool>,
        now: Time,
    ) -> Misses {
        if has_parent || self.since.is_none_or(|(since, before)| before != answers || since > now) {
            (self.since, self.finds) = ((!has_parent).then_some((now, answers)), 0);
            return Misses::Nothing;
        }
        if let Some(found) = found {
            self.finds = if found { self.finds + 1 } else { 0 };
        }
        let is_long = self.since.is_some_and(|(since, _)| now >= since + ALONE);
        let is_due = self.looked.is_none_or(|at| now >= at + ALONE_EVERY);
        match self.finds {
            FINDS.. => Misses::Ends,
            _ if is_long && is_due => {
                self.looked = Some(now);
                Misses::Looks
            }
            _ => Misses::Nothing,
        }
    }
}

#[cfg(test)]
mod tests {
    use super::*;

    fn failed() -> Round {
        Round::Failed("nobody accepts".into())
    }

    #[test]
    fn it_ends_after_a_minute_in_which_nothing_was_reached_and_at_once_where_anybody_is_answered() {
        let begun = Time::after(LOST);
        let at = |seconds| begun + Duration::from_secs(seconds);
        // what each look comes to, when, and whether it can be reached then, or ends
        let rows: [&[(Round, u64, Option<bool>)]; 4] = [
            &[
                (failed(), 15, Some(false)),
                (failed(), 30, Some(false)),
                (failed(), 45, Some(false)),
                (failed(), 59, Some(false)),
                (failed(), 60, None),
            ],
            // (a process that was stopped for long has not looked meanwhile)
            &[
                (failed(), 900, Some(false)),
                (failed(), 901, Some(false)),
                (failed(), 902, Some(false)),
                (failed(), 903, None),
            ],
            &[
                (failed(), 30, Some(false)),
                (failed(), 40, Some(false)),
                (failed(), 50, Some(false)),
                (Round::Unknown, 59, Some(true)),
                (failed(), 70, Some(false)),
                (Round::Reached(false), 80, Some(true)),
                (Round::Reached(true), 90, Some(true)),
                (failed(), 140, Some(false)),
                (failed(), 150, Some(false)),
                (failed(), 151, Some(false)),
                (failed(), 152, None),
            ],
            &[(Round::Reached(true), 10, Some(true)), (Round::Open("open".into()), 20, None)],
        ];
        for row in rows {
            let mut judge = Judge::new(begun);
            for (round, seconds, expected) in row {
                let heard = judge.hears(round, at(*seconds));
                assert_eq!(heard.as_ref().ok(), expected.as_ref(), "{round:?} at {seconds}");
                let is_open = matches!(round, Round::Open(_));
                assert!(heard.is_ok() || is_open || heard.unwrap_err().ends_with("nobody accepts"));
            }
        }
        let all = [Round::Reached(true), Round::Reached(false), Round::Unknown, failed()];
        for (at, one) in all.iter().enumerate() {
            for other in &all[..=at] {
                assert_eq!(worse(one.clone(), other.clone()), *one);
                assert_eq!(worse(other.clone(), one.clone()), *one);
            }
        }
    }
    #[test]
    fn who_has_no_parent_for_minutes_ends_if_it_finds_one_that_it_never_heard() {
        let begun = Time::after(LOST);
        // at which seconds it looks, and ends, if each look finds that, and so many answered
        let lives = |found: bool, answers: fn(u64) -> u64| {
            let (mut alone, mut came, mut looks) = (Alone::default(), None, Vec::new());
            for seconds in (0..400).step_by(2) {
                let now = begun + Duration::from_secs(seconds);
                match alone.misses((false, answers(seconds)), came.take(), now) {
                    Misses::Nothing => (),
                    Misses::Looks => (came, looks) = (Some(found), [looks, vec![seconds]].concat()),
                    Misses::Ends => return (looks, Some(seconds)),
                }
            }
            (looks, None)
        };
        assert_eq!(lives(true, |_| 7), (vec![180, 240], Some(242)));
        assert_eq!(lives(false, |_| 7), (vec![180, 240, 300, 360], None));
        // (if it hears one, too, it is that one that does not take it)
        assert_eq!(lives(true, |seconds| seconds / 100), (Vec::new(), None));
        let mut alone = Alone::default();
        let has = |alone: &mut Alone, seconds| {
            alone.misses((seconds == 100, 7), None, begun + Duration::from_secs(seconds))
        };
        assert!([0, 100, 110, 289].map(|it| has(&mut alone, it)) == [Misses::Nothing; 4]);
        assert_eq!(has(&mut alone, 290), Misses::Looks);
    }

    #[test]
    fn looks_are_soon_again_after_one_that_failed_and_rarer_at_a_leaf() {
        let all = [(true, false), (true, true), (false, false), (false, true)];
        assert_eq!(all.map(|it| pause(it.0, it.1).as_secs()), [10, 30, 5, 5]);
        let looked = Time::after(LOST);
        assert!(!is_lost(looked, looked + LOST) && is_lost(looked, looked + LOST + AGAIN));
    }
}

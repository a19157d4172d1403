//! Answers for those who watch, each of which is given again for a while: however many ask, making
//! them takes a small part of the loop's time.
use rignolda_machine::Time;
use std::sync::Arc;
use std::time::Duration;

/// An answer is given again for so many times what it took to make it, but not for longer; one that
/// took next to nothing is made for each who asks.
const TIMES: u32 = 10;
const LONGEST: Duration = Duration::from_secs(10);
const FREE: Duration = Duration::from_millis(3);

/// What is asked for.
#[derive(Clone, Copy, Debug, PartialEq, Eq)]
pub enum What {
    Counts,
    Page,
    Status,
    Tree,
}

/// The answers that are given again.
#[derive(Debug, Default)]
pub struct Answers(Vec<Made>);

#[derive(Debug)]
struct Made {
    what: What,
    /// The number of the last change: what was before that change is not given after it.
    changed: u64,
    bytes: Arc<[u8]>,
    until: Time,
}

impl Answers {
    /// The answer that is given again, if there is one.
    pub fn again(&mut self, what: What, changed: u64, now: Time) -> Option<Arc<[u8]>> {
        self.passes(now);
        let is = |it: &&Made| (it.what, it.changed) == (what, changed);
        self.0.iter().find(is).map(|it| it.bytes.clone())
    }

    /// An answer was made, which took so long.
    pub fn keep(&mut self, what: What, changed: u64, bytes: &Arc<[u8]>, took: Duration, now: Time) {
        self.0.retain(|it| it.what != what);
        if took > FREE {
            let until = now + (took * TIMES).min(LONGEST);
            self.0.push(Made { what, changed, bytes: bytes.clone(), until });
        }
    }

    /// Those whose time is over are not kept. (One that is further ahead than any is spoiled.)
    pub fn passes(&mut self, now: Time) {
        self.0.retain(|it| now < it.until && it.until <= now + LONGEST);
    }

    /// Something was done that they may not show yet.
    pub fn forget(&mut self) {
        self.0.clear();
    }
}

#[cfg(test)]
mod tests {
    use super::*;

    /// How many answers are made for so many who ask in a minute, each of which takes so long.
    fn made(took: Duration, asked: u32) -> u32 {
        let (mut answers, begun, mut made) = (Answers::default(), crate::system::time(), 0);
        for at in 0..asked {
            let now = begun + Duration::from_secs(60) * at / asked;
            if answers.again(What::Page, 1, now).is_none() {
                made += 1;
                answers.keep(What::Page, 1, &b"it"[..].into(), took, now);
            }
        }
        made
    }

    #[test]
    fn however_many_ask_making_answers_takes_a_tenth_of_the_time() {
        for (millis, asked, expected) in
            [(100, 60, 60), (100, 6_000, 60), (1_000, 6_000, 6), (60_000, 6_000, 6), (1, 600, 600)]
        {
            let made = made(Duration::from_millis(millis), asked);
            assert_eq!(made, expected, "{millis} ms, {asked} who ask");
        }
    }

    #[test]
    fn what_was_before_a_change_or_a_request_is_not_shown_after_it() {
        let (mut answers, now) = (Answers::default(), crate::system::time());
        let took = Duration::from_secs(1);
        let bytes: Arc<[u8]> = b"it"[..].into();
        answers.keep(What::Tree, 1, &bytes, took, now);
        assert_eq!(answers.again(What::Tree, 1, now), Some(bytes.clone()));
        assert_eq!(answers.again(What::Status, 1, now), None);
        assert_eq!(answers.again(What::Tree, 2, now), None);
        answers.forget();
        assert_eq!(answers.again(What::Tree, 1, now), None);
        // (a clock that was spoiled shows nothing for long)
        answers.keep(What::Tree, 1, &bytes, took, now + Duration::from_secs(1 << 20));
        assert_eq!(answers.again(What::Tree, 1, now), None);
    }
}

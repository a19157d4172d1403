//! What repeats in the journal: of lines that anybody can cause at any rate a few are written, and
//! the others counted.
use crate::prelude::*;
use crate::{Fact, Time};
use core::mem;
use core::time::Duration;

/// How many lines of one kind about one other end are written at once, and after how long one more.
const LINES: u32 = 20;
const EACH: Duration = Duration::from_secs(3);
/// The same of all together: few enough for the journal of a machine.
const ALL_LINES: u32 = 1_000;
const EACH_OF_ALL: Duration = Duration::from_millis(10);
/// After how long lines that were not written are counted, where none follows.
const COUNTS: Duration = Duration::from_secs(30);
/// Of how many other ends it is known what repeats; of more, they count as one.
const ENDS: usize = 4_096;

/// How many lines of a kind may be written at once now.
#[derive(Debug)]
struct Room {
    left: u32,
    since: Time,
}

impl Room {
    fn new(most: u32, now: Time) -> Room {
        Room { left: most, since: now }
    }

    /// What time brought back.
    fn passes(&mut self, most: u32, each: Duration, now: Time) {
        // (ahead of now is what was spoiled)
        self.since = self.since.min(now);
        let went = now.since(self.since);
        let back = u32::try_from(went.as_millis() / each.as_millis()).unwrap_or(most).min(most);
        self.left = self.left.saturating_add(back).min(most);
        self.since = if self.left == most { now } else { self.since + each * back };
    }
}

/// Lines of one kind about one other end.
#[derive(Debug)]
struct Lines {
    room: Room,
    /// How many were not written, and when the last line was.
    more: u64,
    said: Time,
}

/// What repeats, by its kind and whom it is about; and how many lines of all may be written.
#[derive(Debug, Default)]
pub struct Repeats {
    all: BTreeMap<(&'static str, String), Lines>,
    room: Option<Room>,
}

impl Repeats {
    /// Whether this line is written; then also how many like it were not since the last one.
    pub fn says(&mut self, fact: &Fact, now: Time) -> Option<u64> {
        let mut key = (fact.kind(), fact.about().to_owned());
        if self.all.len() >= ENDS && !self.all.contains_key(&key) {
            key.1.clear();
        }
        let new = || Lines { room: Room::new(LINES, now), more: 0, said: now };
        let lines = self.all.entry(key).or_insert_with(new);
        lines.room.passes(LINES, EACH, now);
        let room = self.room.get_or_insert_with(|| Room::new(ALL_LINES, now));
        room.passes(ALL_LINES, EACH_OF_ALL, now);
        if lines.room.left == 0 || room.left == 0 {
            lines.more += 1;
            return None;
        }
        lines.room.left -= 1;
        room.left -= 1;
        lines.said = now;
        Some(mem::take(&mut lines.more))
    }

    /// What is to be said by now of lines that were not written; and what does not repeat any more
    /// is forgotten. To be asked each second or two.
    pub fn passes(&mut self, now: Time) -> Vec<Fact> {
        let mut counts = Vec::new();
        self.all.retain(|(kind, about), lines| {
            lines.said = lines.said.min(now);
            lines.room.passes(LINES, EACH, now);
            let is_over = now >= lines.said + COUNTS;
            if lines.more > 0 && is_over {
                let (about, more) = (if about.is_empty() { "others" } else { about }, lines.more);
                counts.push(Fact::More(kind, about.into(), more));
                (lines.more, lines.said) = (0, now);
            }
            lines.more > 0 || lines.room.left < LINES
        });
        counts
    }
}

rignolda::spoils! { Room { left, since } }
rignolda::spoils! { Lines { room, more, said } }
rignolda::spoils! { Repeats { all, room } }

#[cfg(test)]
mod tests {
    use super::*;

    fn connected(name: &str) -> Fact {
        Fact::Connected { whom: name.into(), anew: true }
    }

    fn closed() -> Fact {
        Fact::Closed { whom: "evil".into(), why: "it left".into(), place: None }
    }

    fn refused(at: u32) -> Fact {
        Fact::Refused(format!("n{at} is refused"), 1)
    }

    #[test]
    fn a_child_that_connects_without_end_fills_no_journal() {
        let begun = Time::after(Duration::from_secs(3_600));
        let (mut repeats, mut written, mut counted) = (Repeats::default(), 0, 0);
        for at in 0..30_000_u64 {
            let now = begun + Duration::from_millis(at);
            for fact in [connected("evil"), closed()] {
                if let Some(more) = repeats.says(&fact, now) {
                    (written, counted) = (written + 1, counted + more);
                }
            }
            // (what happens to others is said beside it)
            if at % 3_000 == 0 {
                assert_eq!(repeats.says(&connected("left"), now), Some(0));
            }
        }
        // (however often it is asked, what comes back comes back)
        let most = 2 * (u64::from(LINES) + 10);
        assert!((most - 2..=most).contains(&written), "{written}");
        let end = begun + Duration::from_secs(99);
        let rest = repeats.passes(end);
        assert_eq!(rest.len(), 2);
        let left: u64 = 60_000 - written - counted;
        let said = |kind, count| Fact::More(kind, "evil".into(), count);
        assert_eq!(rest, [said("closed", left / 2), said("connected", left / 2)]);
        assert!(repeats.passes(end + Duration::from_secs(99)).is_empty());
        assert!(repeats.all.is_empty());
    }

    #[test]
    fn who_was_calm_for_long_has_no_more_lines_at_once_and_what_is_spoiled_comes_back() {
        let begun = Time::after(Duration::from_secs(3_600));
        let after = |seconds| begun + Duration::from_secs(seconds);
        let mut repeats = Repeats::default();
        let written = |repeats: &mut Repeats, at| {
            (0..100).filter(|_| repeats.says(&closed(), at).is_some()).count()
        };
        for hour in 0..3 {
            assert_eq!(written(&mut repeats, after(hour * 3_600)), LINES as usize, "{hour}");
            assert!(repeats.says(&closed(), after(hour * 3_600 + 45)).is_some());
        }
        for lines in repeats.all.values_mut() {
            (lines.room.since, lines.said) = (after(1 << 20), after(1 << 20));
        }
        // (of 15 that had come back one was written)
        assert_eq!(written(&mut repeats, after(10_000)), 14);
        assert_eq!(written(&mut repeats, after(10_003)), 1);
        repeats.all.values_mut().for_each(|it| it.said = after(1 << 20));
        assert_eq!(repeats.passes(after(10_100)).len(), 0);
        assert_eq!(repeats.passes(after(10_130)).len(), 1);
    }

    #[test]
    fn however_many_others_there_are_lines_and_memory_are_bounded() {
        let begun = Time::after(Duration::from_secs(3_600));
        let (mut repeats, mut written) = (Repeats::default(), 0);
        for at in 0..100_000_u32 {
            let now = begun + Duration::from_micros(300 * u64::from(at));
            written += u32::from(repeats.says(&refused(at), now).is_some());
        }
        assert!(written <= ALL_LINES + 3_000 && repeats.all.len() <= ENDS + 1, "{written}");
        // (who is known keeps lines of its own)
        let later = begun + Duration::from_secs(60);
        let known = |repeats: &mut Repeats| repeats.says(&refused(7), later);
        let others = |repeats: &mut Repeats| repeats.says(&refused(99_999), later);
        for _ in 0..2 * LINES {
            others(&mut repeats);
        }
        assert_eq!((others(&mut repeats), known(&mut repeats)), (None, Some(0)));
    }
}

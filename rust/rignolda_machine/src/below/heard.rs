//! What a child says, as far as it is read.
use super::last_said::LastSaid;
use super::reports::{self, Changes, Id};
use super::said::{bound, whole, Said};
use super::{BYTES, EACH};
use crate::control::Seen;
use crate::net::wire::REPORT_BYTES;
use crate::prelude::*;
use crate::{Sha256, Time};
use core::time::Duration;

/// How many agents are read or changed at once, where more waits.
const AT_ONCE: usize = 1_000;
/// A list is looked through as a whole after each change: that costs as much as to read one so many
/// times shorter.
const LOOKS: usize = 4;
/// How many reports of changes wait at most: as many as are sent in some seconds.
const WAITING: usize = 64;
/// For how long nothing is read after a report at most. (What is longer is spoiled.)
const RESTS: Duration = Duration::from_secs(2);
/// How often a child is asked for a whole report at most, whatever it sends.
const ASKS: Duration = Duration::from_secs(2);

/// What is known of a child. What comes much sooner after another report than one is sent waits
/// until that can be read: the last whole one that came, and what changed since. So no report costs
/// much, and the newest one counts.
#[derive(Debug, Default)]
pub(super) struct Heard {
    /// Whether it said anything by the connection that it has: so it says all of it anew.
    pub(super) is_here: bool,
    pub(super) said: Option<Said>,
    /// What it said, where nobody says it anew.
    pub(super) last: Option<LastSaid>,
    /// By which report that came to be, where what changed since can be read.
    base: Option<Id>,
    /// Whether a whole report of it is needed; whether it was asked for one, and none has come
    /// since; and when it was asked last.
    pub(super) needs: bool,
    awaits: bool,
    asked: Option<Time>,
    /// When a report was read last, and for how long no other one is.
    read: Option<(Time, Duration)>,
    /// What waits, and when each came.
    pub(super) waits: VecDeque<(Time, Vec<u8>)>,
}

/// What became of reports that were read.
pub(super) struct Read {
    pub(super) sha: Sha256,
    /// Whether one said something.
    pub(super) is_news: bool,
    /// How many were none.
    pub(super) none: u64,
    /// Whether other groups may be in the list than before.
    pub(super) has_other_groups: bool,
    /// Whether a whole report is needed.
    pub(super) asks: bool,
}

impl Read {
    /// Nothing became of them.
    pub(super) fn of(sha: Sha256) -> Read {
        Read { sha, is_news: false, none: 0, has_other_groups: false, asks: false }
    }
}

impl Heard {
    /// What it said, unless that is spoiled.
    pub(super) fn list(&self, sha: Sha256) -> Option<Cow<'_, [Seen]>> {
        match (&self.said, &self.last) {
            (Some(said), _) => Some(Cow::from(&said.list)),
            (None, last) => Some(Cow::from(last.as_ref()?.list(sha)?)),
        }
    }

    /// Of which groups the agents in it are; where it is kept apart, each kind once.
    pub(super) fn groups(&self, sha: Sha256) -> Vec<Cow<'_, [String]>> {
        match (&self.said, &self.last) {
            (Some(said), _) => groups_of(&said.list).map(Cow::from).collect(),
            (None, Some(last)) => last.groups(sha).into_iter().map(Cow::from).collect(),
            (None, None) => Vec::new(),
        }
    }

    /// When that came.
    pub(super) fn at(&self) -> Option<Time> {
        let last = || self.last.as_ref().map(|last| last.at);
        self.said.as_ref().map(|said| said.at).or_else(last)
    }

    /// What nobody says anew is kept apart, once all of it is read.
    pub(super) fn keeps(&mut self, sha: Sha256, now: Time) {
        // (what is ahead of now is spoiled)
        self.last.iter_mut().for_each(|last| last.at = last.at.min(now));
        (self.needs, self.awaits) = (false, false);
        if let Some(mut said) = self.said.take_if(|_| self.waits.is_empty()) {
            said.list.iter_mut().take(1).for_each(|own| own.ahead = said.ahead);
            self.base = None;
            self.last = Some(LastSaid::new(&said.list, said.depth, sha, said.at));
        }
    }

    /// Whether it is to be asked for a whole report now: once until one comes, and not much sooner
    /// after the last time, since what comes may be none.
    pub(super) fn asks(&mut self, now: Time) -> bool {
        let is_early = self.asked.is_some_and(|at| at <= now && now < at + ASKS);
        let asks = self.needs && !self.awaits && !is_early;
        if asks {
            (self.needs, self.awaits, self.asked) = (false, true, Some(now));
        }
        asks
    }

    /// Until when nothing is read, if there is such a time. (What is ahead of now is spoiled.)
    pub(super) fn rests(&self, now: Time) -> Option<Time> {
        let (at, pause) = self.read.filter(|(at, pause)| *at <= now && *pause <= RESTS)?;
        Some(at + pause).filter(|until| now < *until)
    }

    /// Nothing waits any more, and what changes that is no use.
    pub(super) fn forgets_what_waits(&mut self) {
        self.waits.clear();
        self.base = None;
    }

    /// Puts a report behind what waits, or in its place. Whether there is room for it.
    pub(super) fn puts(&mut self, bytes: &[u8], now: Time) -> bool {
        let is_whole = reports::parts(bytes).is_none();
        if is_whole {
            self.waits.clear();
            (self.needs, self.awaits) = (false, false);
        }
        // (a whole one is the first of them)
        let changes = self.waits.iter().filter(|it| reports::parts(&it.1).is_some());
        let taken: usize = changes.map(|it| it.1.len()).sum();
        let is_little = self.waits.len() < WAITING && taken + bytes.len() <= REPORT_BYTES;
        let has_room = is_whole || is_little;
        if has_room {
            self.waits.push_back((now, bytes.into()));
        }
        has_room
    }

    /// Reads what waits, as much as may be read at once. (It costs as much where it is none.)
    pub(super) fn reads(&mut self, child: &str, sha: Sha256, now: Time) -> Read {
        let (mut read, mut work) = (Read::of(sha), 0);
        while work < AT_ONCE {
            let Some((came, bytes)) = self.waits.pop_front() else { break };
            work += match reports::parts(&bytes) {
                None => self.reads_whole(child, &bytes, came, &mut read),
                Some((base, changes)) if self.is_base(base) => {
                    self.reads_changes(changes, &bytes, came, &mut read)
                }
                Some(_) => {
                    // (what there is stays)
                    read.asks = true;
                    0
                }
            };
        }
        self.read = Some((now, EACH * work as u32 / 4));
        read
    }

    /// Reads a list: how much work that was, counted in agents.
    fn reads_whole(&mut self, child: &str, bytes: &[u8], came: Time, read: &mut Read) -> usize {
        self.base = None;
        let Some(said) = whole(child, bytes, came) else {
            read.none += 1;
            return bytes.len() / BYTES + 1;
        };
        let old = self.list(read.sha).unwrap_or_default();
        read.has_other_groups |= !groups_of(&old).eq(groups_of(&said.list));
        let work = said.list.len().max(bytes.len() / BYTES);
        self.becomes(said, bytes, read);
        work
    }

    /// Whether changes of the report of this name can be read.
    fn is_base(&self, base: &[u8]) -> bool {
        self.said.is_some() && self.base.is_some_and(|it| it == *base)
    }

    /// Reads what changed in the list, in the same way.
    fn reads_changes(
        &mut self,
        changes: &[u8],
        bytes: &[u8],
        came: Time,
        read: &mut Read,
    ) -> usize {
        self.base = None;
        let changes = Changes::read(changes, bound);
        let said = self.said.take_if(|said| changes.as_ref().is_some_and(|it| said.may_be(it)));
        let (Some(changes), Some(said)) = (changes, said) else {
            read.none += 1;
            return bytes.len() / BYTES + 1;
        };
        read.has_other_groups |= changes.may_change_groups();
        let work = said.list.len() / LOOKS + changes.agents().max(bytes.len() / BYTES);
        match said.changed(&changes, came) {
            Some(said) => self.becomes(said, bytes, read),
            None => read.none += 1,
        }
        work
    }

    fn becomes(&mut self, said: Said, report: &[u8], read: &mut Read) {
        self.base = said.is_all.then(|| reports::id(report, read.sha));
        (self.said, self.last) = (Some(said), None);
        read.is_news = true;
    }
}

/// Of which groups each agent of a list is.
fn groups_of(list: &[Seen]) -> impl Iterator<Item = &[String]> {
    list.iter().map(|seen| &seen.groups[..])
}

rignolda::spoils! { Heard { is_here, said, last, base, needs, awaits, asked, read, waits } }

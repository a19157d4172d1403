//! What came to an agent, and what became of it: the part of [`Machine`](crate::machine::Machine)
//! that [`Peers`](crate::net::Peers) tell.
use crate::apply::{Applied, Applier, Outcome};
use crate::below::Below;
use crate::net::Body;
use crate::prelude::*;
use crate::published::Ends;
use crate::repeats::Repeats;
use crate::root::Root;
use crate::settings::{furthest, Meaning, Table, Taker};
use crate::standby::Standby;
use crate::{Fact, Sha256, Ticket, Time};
use core::time::Duration;

/// Writes a line at once, before anything follows from it, for trials.
pub type Trace = fn(&Fact);

/// What came, and what became of it.
#[derive(Debug)]
pub struct Came {
    /// When it is.
    pub now: Time,
    /// What it publishes, if it is the root.
    pub root: Option<Root<Ticket>>,
    pub table: Table,
    pub applier: Option<Applier>,
    /// Where it may be promoted.
    pub standby: Option<Standby<Ticket>>,
    pub below: Below,
    /// The number that is furthest ahead of its own, of those that agents below say now; and of all
    /// that they ever said, which counts where it is promoted.
    pub ahead: u64,
    pub seen: u64,
    /// Whether a connection ended since it was learned who has one.
    pub ended: bool,
    pub received: u64,
    pub garbage: u64,
    /// How many reports of children were none.
    pub bad_reports: u64,
    pub round_at: Option<Time>,
    /// Whether there is something new to say upwards.
    pub changed: bool,
    /// Whether the parent asks for all there is to say.
    pub asks_for_all: bool,
    /// Since when files are being applied, where some are.
    pub applying: Option<Time>,
    /// Where each body is a fact of the journal, for trials.
    pub traces: Option<Trace>,
    said: Option<Time>,
    /// What connections make happen at any rate.
    repeats: Repeats,
    /// What is to be written into the journal, in its order.
    pub facts: Vec<Fact>,
}

impl Came {
    /// Of an agent whose files have this number, when nothing has come yet.
    pub fn new(
        applier: Option<Applier>,
        standby: Option<Standby<Ticket>>,
        floor: u64,
        sha: Sha256,
        now: Time,
    ) -> Came {
        let mut table = Table::default();
        table.taker = Taker::new(floor);
        Came {
            now,
            root: None,
            table,
            applier,
            standby,
            below: Below::new(sha),
            ahead: 0,
            seen: 0,
            ended: false,
            received: 0,
            garbage: 0,
            bad_reports: 0,
            round_at: Some(now),
            changed: true,
            asks_for_all: false,
            applying: None,
            traces: None,
            said: None,
            repeats: Repeats::default(),
            facts: Vec::new(),
        }
    }

    /// Begins as an agent below a root, of which nothing has come yet.
    pub fn begins(&mut self, now: Time) {
        self.restarts(self.table.taker.floor);
        self.below.begins();
        (self.ahead, self.seen) = (0, 0);
        self.round_at = Some(now);
    }

    /// Its files are of this number, and nothing has come yet.
    pub fn restarts(&mut self, floor: u64) {
        self.table = Table::default();
        self.table.taker = Taker::new(floor);
        self.changed = true;
    }

    /// Its own number, that of its files, and the one that is furthest ahead of those below.
    pub fn numbers(&self) -> [u64; 3] {
        [self.table.taker.number, self.table.taker.floor, self.ahead]
    }

    /// The digest of its files, where these are a whole table, and nothing waits.
    pub fn whole(&self) -> Option<String> {
        self.applier.as_ref().filter(|_| self.table.taker.is_whole())?.whole()
    }

    /// Whether to say now what a peer can make happen at any rate: once in a second, but in trials.
    fn may_say(&mut self, now: Time) -> bool {
        let is_traced = self.traces.is_some();
        let may = is_traced || self.said.is_none_or(|at| now >= at + Duration::from_secs(1));
        self.said = if may { Some(now) } else { self.said };
        may
    }

    /// At the root: what agents of the groups that there are ought to have is known from now on.
    pub fn follow_groups(&mut self) {
        if let Some(Root { published, .. }) = &mut self.root {
            let own = self.applier.as_ref().map_or(Vec::new(), Applier::groups);
            let groups = self.below.groups();
            published.follow(&own, groups.iter().map(|all| all.iter().map(|it| &**it)));
        }
    }

    /// Takes up what children said.
    pub fn heard(&mut self) {
        let (news, number) = (self.below.news(), self.table.taker.number);
        for child in &news {
            let numbers = self.below.seen(child).into_iter().chain([self.seen]);
            self.seen = furthest(number, numbers);
        }
        if !news.is_empty() {
            (self.changed, self.ahead) = (true, self.below.ahead(number));
        }
        if self.below.has_other_groups() {
            self.follow_groups();
        }
        for (child, count) in self.below.were_none() {
            self.bad_reports += count;
            self.fact(Fact::NoReport(child, self.bad_reports));
        }
    }

    /// These children there are, and whether each is connected: of others no number counts.
    pub fn learns<'a>(&mut self, children: impl Iterator<Item = (&'a str, bool)>) {
        self.ended = false;
        self.below.learns(children);
        let number = self.table.taker.number;
        let (old, new) = (furthest(number, [self.ahead]), self.below.ahead(number));
        (self.ahead, self.changed) = (new, self.changed || new != old);
    }

    /// Takes up what was done about settings.
    pub fn applied(&mut self, now: Time) {
        if let Some(floor) = self.applier.as_mut().and_then(Applier::found_later) {
            self.fact(Fact::Forgot(floor));
            self.restarts(floor);
        }
        let Some(applier) = &mut self.applier else { return };
        let done = applier.done();
        let is_busy = applier.is_busy();
        self.changed |= !done.is_empty() || self.applying.is_some() != is_busy;
        self.applying = is_busy.then(|| self.applying.unwrap_or(now));
        // (what fails for one reason is one line)
        let mut whys: BTreeMap<String, Vec<String>> = BTreeMap::new();
        for Applied { key, sequence, status } in done {
            match status {
                Outcome::Done => self.facts.push(Fact::Applied(sequence, key)),
                why => whys.entry(why.to_string()).or_default().push(key),
            }
        }
        self.facts.extend(whys.into_iter().map(|(why, keys)| Fact::Failed(keys, why)));
    }

    /// What of facts that repeat is to be said by now.
    pub fn passes(&mut self, now: Time) {
        self.facts.extend(self.repeats.passes(now));
    }

    fn tell(&mut self, fact: Fact) {
        self.facts.push(fact);
    }
}

/// What its connections tell an agent.
impl Came {
    /// An item came, or was published: whether it is a whole table.
    pub fn item(&mut self, body: &Arc<Body>, now: Time) -> bool {
        self.received += 1;
        let Some((sequence, meaning)) = body.meaning() else {
            self.note_garbage(body, now);
            return false;
        };
        let (was_full, strays) = (self.table.full, self.table.strays);
        let takes = self.table.takes(sequence, &meaning);
        let is_table = matches!(meaning, Meaning::Table(_));
        // (of the items of a round that nothing follows from, the table that ends it tells)
        self.changed |= !takes || meaning != Meaning::Harmless;
        self.note_published(sequence, &meaning, is_table && self.table.heard.looks);
        // (before a line is written, so that the files wait for nothing)
        if let (true, Some(applier)) = (takes, &mut self.applier) {
            if !applier.take(body, &meaning, sequence, self.table.heard) {
                self.table.misses();
            }
            self.applying = self.applying.or_else(|| applier.is_busy().then_some(now));
        }
        if self.table.full && !was_full {
            self.tell(Fact::Full(sequence));
        }
        if let Some(writes) = self.traces {
            // (what a trial judges is written before anything follows from it)
            writes(&match self.root {
                Some(_) => Fact::Published(sequence),
                None => Fact::Received(sequence),
            });
        }
        if self.table.strays > strays && self.may_say(now) {
            self.tell(Fact::Stray(sequence, self.table.strays));
        }
        if takes && is_table {
            self.round_at = Some(now);
        }
        takes && is_table
    }

    /// A body has no meaning.
    fn note_garbage(&mut self, body: &Body, now: Time) {
        self.changed = true;
        self.garbage += 1;
        if self.may_say(now) {
            self.tell(Fact::Garbage(body.item, body.bytes.len(), self.garbage));
        }
    }

    /// At the root: this is published, and may end a round.
    fn note_published(&mut self, sequence: u64, meaning: &Meaning<'_>, is_end: bool) {
        let Some(Root { published, .. }) = &mut self.root else { return };
        published.take(sequence, meaning, if is_end { Ends::ARound } else { Ends::Nothing });
        if published.has_other_groups() || is_end {
            self.follow_groups();
        }
    }

    /// A child reports this.
    pub fn report(&mut self, child: &str, report: &[u8], now: Time) {
        self.below.heard(child, report, now);
        self.heard();
    }

    /// The parent asks for all there is to say.
    pub fn is_asked_for_all(&mut self) {
        (self.changed, self.asks_for_all) = (true, true);
    }

    /// A child is one no longer.
    pub fn gone(&mut self, child: &str) {
        (self.changed, self.ended) = (true, true);
        self.below.forget(child);
    }

    /// A fact that may repeat at any rate.
    pub fn fact(&mut self, fact: Fact) {
        self.changed = true;
        self.ended |= matches!(fact, Fact::Closed { .. });
        match self.repeats.says(&fact, self.now) {
            None if self.traces.is_none() => (),
            Some(more @ 1..) => self.tell(Fact::Again(Box::new(fact), more)),
            _ => self.tell(fact),
        }
    }
}

rignolda::spoils! { Came {
    now, root, table, applier, standby, below, ahead, seen, ended, received, garbage, bad_reports,
    round_at, changed, asks_for_all, applying, said, repeats
} }

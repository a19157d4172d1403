//! The root's settings: a folder is the truth, and what differs from it is published.
//!
//! Nothing here waits for the disk, looks at a clock or writes: what is to be done is a [`Job`],
//! what came of it is [told](Root::done), and what there is to say is a [`Fact`]. A round, and each
//! table, is of what the folder had when it was asked for; where the disk does not answer in time,
//! it is of what was known before.
use crate::config::{Root as Config, DEEP};
use crate::control::Diff;
use crate::prelude::*;
use crate::published::Published;
use crate::settings::{Faults, Publisher};
use crate::{Fact, Refused, Sha256, Time};
use asks::Cost;
use core::mem;
use core::time::Duration;
use hold::Guard;

mod asked;
mod asks;
mod hold;
mod job;
mod numbers;
mod publish;
mod read;
mod record;

pub use job::{Done, Empty, Job, Kept, Written};
pub use record::Record;

/// How long after a change of the folder it is read.
const SETTLES: Duration = Duration::from_millis(5);
/// How long a round or a table waits for the disk.
const PATIENCE: Duration = Duration::from_secs(5);
/// How long it drains at most: who forgets that it does must not stop it for ever.
const DRAINS: Duration = Duration::from_secs(600);

/// The root. `W`: who asks it for something, and is answered later.
#[derive(Debug)]
pub struct Root<W> {
    config: Config,
    sha: Sha256,
    /// What the disk is to do and was not told yet, and what there is to say.
    jobs: Vec<Job>,
    facts: Vec<Fact>,
    publisher: Publisher,
    /// The digests of what was published.
    pub published: Published,
    /// Whether it publishes nothing, and until when.
    draining: bool,
    drains_until: Option<Time>,
    /// Whether all settings were read once. Before that a table would unset what it does not name.
    known: bool,
    /// Whether a setting was there at the start whose value is not known yet: no table is
    /// published.
    holds: bool,
    /// Whether the folder is empty, and the first setting may be published.
    is_new: bool,
    /// What was applied here by an earlier life, and what that published, until all settings were
    /// read; whether that was kept; and whether there was an earlier life at all, as agents say.
    applied: BTreeMap<String, Vec<u8>>,
    before: Record,
    was_kept: bool,
    has_before: bool,
    /// What may go but a part of.
    guard: Guard,
    /// What is published, as it is kept on the disk; when it is, where something is new; and
    /// whether the disk is asked to, or to recall it.
    record: Record,
    keeps: Option<Time>,
    kept: Time,
    keeping: bool,
    cannot_keep: bool,
    /// Why the folder has no settings, where it had none when it was read last.
    lost: Option<String>,
    /// What of the folder waits until it is confirmed, and the digest of what was confirmed.
    held: Option<Diff>,
    confirmed: Option<String>,
    /// Who asked for what is not published yet.
    diffing: Vec<W>,
    next_round: Time,
    /// How deep the tree was when each of the last rounds began, the last one first. An agent above
    /// may forget for a while what is below it, as after a fault.
    deepest: [u32; 4],
    next_scan: Option<Time>,
    /// How often the disk was asked to read, and has not answered.
    reads: u32,
    /// Until when the next body waits for the disk, and whether it is late already.
    until: Option<Time>,
    is_late: bool,
    /// Whether a round begins then; whether a table is waited for, and when it was read.
    begins: bool,
    for_table: bool,
    fresh: Option<Time>,
    /// What was asked for and is not begun, each key once in a job, and by whom; who asked for the
    /// job under way, where one is; and for which keys that are written and not published.
    asked: Vec<(Job, Vec<Asker<W>>)>,
    writing: Vec<Asker<W>>,
    written: Vec<(String, W)>,
    /// Who asked for a look, and for a round.
    looking: Vec<W>,
    rounding: Vec<W>,
    answers: Vec<Answer<W>>,
    /// Whether it was time for a round while one was under way.
    overdue: bool,
    /// How often its numbers went on above others since the last round began.
    went_above: u8,
    faults: Faults,
}

/// Who asked for a change, or to promote a value, and what that may add.
type Asker<W> = (W, Cost);

/// To whom, and that all is published, or why something is not.
pub type Answer<W> = (W, Result<(), Refused>);

impl<W> Root<W> {
    /// One that publishes what follows this number, after what an earlier life applied.
    pub fn new(
        config: &Config,
        applied: BTreeMap<String, Vec<u8>>,
        first: u64,
        sha: Sha256,
        now: Time,
    ) -> Root<W> {
        let before = Record::of(&applied, sha);
        let mut root = Root {
            config: config.clone(),
            sha,
            jobs: vec![Job::Recall],
            facts: Vec::new(),
            publisher: Publisher::new(first),
            published: Published::new(sha),
            draining: false,
            drains_until: None,
            known: false,
            holds: false,
            is_new: false,
            guard: Guard::new(applied.keys().cloned(), [], now),
            applied,
            before,
            was_kept: false,
            has_before: false,
            record: Record::default(),
            keeps: None,
            kept: now,
            keeping: true,
            cannot_keep: false,
            lost: None,
            held: None,
            confirmed: None,
            diffing: Vec::new(),
            next_round: now,
            deepest: [DEEP; 4],
            next_scan: None,
            reads: 0,
            until: None,
            is_late: false,
            begins: false,
            for_table: false,
            fresh: None,
            asked: Vec::new(),
            writing: Vec::new(),
            written: Vec::new(),
            looking: Vec::new(),
            rounding: Vec::new(),
            answers: Vec::new(),
            overdue: false,
            went_above: 0,
            faults: Faults::default(),
        };
        root.look(now);
        root
    }

    /// What the disk is to do now, one after the other.
    pub fn jobs(&mut self) -> Vec<Job> {
        mem::take(&mut self.jobs)
    }

    /// Whether what is published is on the disk, where one that begins looks for it.
    pub fn is_kept(&self) -> bool {
        self.keeps.is_none() && !self.keeping
    }

    /// How many jobs have no answer yet.
    pub fn jobs_out(&self) -> u32 {
        self.reads + u32::from(!self.writing.is_empty()) + u32::from(self.keeping)
    }

    /// What there is to say.
    pub fn facts(&mut self) -> Vec<Fact> {
        mem::take(&mut self.facts)
    }

    /// Ends it: who asked for something and was not answered.
    pub fn ends(self) -> Vec<W> {
        let asked = self.asked.into_iter().flat_map(|(_, who)| who).map(|(who, _)| who);
        let written = self.written.into_iter().map(|(_, who)| who);
        let answered = self.answers.into_iter().map(|(who, _)| who);
        let looking = self.looking.into_iter().chain(self.rounding).chain(self.diffing);
        let looking = looking.chain(self.writing.into_iter().map(|(who, _)| who));
        asked.chain(written).chain(answered).chain(looking).collect()
    }

    /// Takes a new period and number of harmless items. The folder stays.
    pub fn reload(&mut self, config: &Config, now: Time) {
        self.next_round = self.next_round.min(now + config.round);
        self.config = Config { settings: self.config.settings.clone(), ..config.clone() };
    }

    /// Whether it wants to know when the folder changes: it does not know that already.
    pub fn awaits_changes(&self) -> bool {
        self.next_scan.is_none() && !self.is_busy()
    }

    pub fn settings(&self) -> u64 {
        self.publisher.settings().len() as u64
    }

    /// What of the folder cannot be published, and why.
    pub fn faults(&self) -> &Faults {
        &self.faults
    }

    /// The folder may have changed: when it is read is said by [`Root::deadline`].
    pub fn notified(&mut self, now: Time) {
        self.next_scan.get_or_insert(now + SETTLES);
    }

    /// Publishes nothing more until it resumes.
    pub fn drain(&mut self, now: Time) {
        (self.draining, self.drains_until) = (true, Some(now + DRAINS));
    }

    pub fn resume(&mut self) {
        (self.draining, self.drains_until) = (false, None);
    }

    pub fn is_draining(&self) -> bool {
        self.draining
    }

    /// Of how many settings a change waits until it is confirmed.
    pub fn held(&self) -> u64 {
        self.held.as_ref().map_or(0, |it| it.changes.len() as u64)
    }

    /// What of its state cannot be, where something cannot.
    pub fn fault(&self, config: &Config) -> Option<&'static str> {
        (self.config != *config).then_some("the root's configuration is another one")
    }

    /// Brings back to its bound what has one.
    fn mend(&mut self, now: Time) {
        self.next_round = self.next_round.min(now + self.config.round);
        self.next_scan = self.next_scan.map(|at| at.min(now + SETTLES));
        self.until = self.until.map(|at| at.min(now + PATIENCE));
        self.keeps = self.keeps.map(|at| at.min(now + PATIENCE * 2));
        self.kept = self.kept.min(now);
        self.draining = self.drains_until.is_some_and(|at| (now..=now + DRAINS).contains(&at));
    }

    /// When to come again.
    pub fn deadline(&self) -> Time {
        let scan = self.next_scan.filter(|_| self.reads == 0);
        let all = [scan, self.until].into_iter().flatten();
        all.fold(self.next_round, Time::min)
    }

    /// Whether the disk has something to answer.
    pub fn is_busy(&self) -> bool {
        self.reads > 0 || !self.writing.is_empty()
    }

    /// How many harmless items a round begins with now.
    pub fn harmless(&self) -> u32 {
        let depth = self.deepest.iter().fold(1, |most, it| most.max(*it));
        self.config.harmless(depth)
    }

    /// Takes up what came of a job.
    pub fn done(&mut self, done: Done, now: Time) {
        self.mend(now);
        match done {
            Done::Recalled(record) => self.recalls(record, now),
            Done::Kept(done) => self.take_kept(done, now),
            Done::Written { all, others } => self.take_written(all, others, now),
            Done::Keys(changes) => self.take_changes(changes, now),
            Done::Read(read) => self.take_read(read, now),
        }
    }

    /// Has the folder read and begins a round, where it is time. `depth`: asked for each round how
    /// deep the tree is, as far as it is known.
    pub fn tick(&mut self, now: Time, depth: impl Fn() -> u32) {
        self.mend(now);
        if self.reads == 0 && self.next_scan.is_some_and(|scan| now >= scan) {
            self.next_scan = None;
            self.reads += 1;
            self.jobs.push(Job::Changed);
        }
        if !self.keeping && self.keeps.is_some_and(|at| now >= at) {
            (self.keeps, self.kept, self.keeping) = (None, now, true);
            self.jobs.push(Job::Keep(self.record.text(self.guard.gone())));
        }
        if self.until.is_some_and(|until| now >= until) {
            if !mem::replace(&mut self.is_late, true) {
                let late = format!("{}: the disk does not answer", self.config.settings);
                self.faults.add(late.clone());
                self.facts.push(Fact::Settings(late));
            }
            self.goes_on(now);
        }
        if now >= self.next_round {
            self.overdue = self.publisher.is_in_a_round();
            self.deepest.rotate_right(1);
            self.deepest[0] = depth();
            self.begin_round(now);
        }
    }

    /// What an earlier life published is known, where it was kept.
    fn recalls(&mut self, record: Option<Record>, now: Time) {
        self.keeping = false;
        if let Some(record) = record {
            self.guard = Guard::new(record.keys().cloned(), record.gone.iter().cloned(), now);
            (self.before, self.was_kept) = (record, true);
        }
    }

    fn take_kept(&mut self, done: Result<(), String>, now: Time) {
        self.keeping = false;
        if done.is_err() {
            // (there may be room again before anything else is published)
            self.keeps.get_or_insert(now + PATIENCE);
        }
        let could_not = mem::replace(&mut self.cannot_keep, done.is_err());
        let is_not_kept = |why| {
            let folder = &self.config.settings;
            Fact::Settings(format!("{folder}: what is published cannot be kept: {why}"))
        };
        self.facts.extend(done.err().filter(|_| !could_not).map(is_not_kept));
    }

    /// A round begins once the folder is read. One that is under way goes on instead.
    pub fn begin_round(&mut self, now: Time) {
        self.next_round = now + self.config.round;
        self.begins = true;
        self.look(now);
    }

    /// Has the whole folder read, before anything more is published.
    fn look(&mut self, now: Time) {
        let patience = if self.is_late { Duration::ZERO } else { PATIENCE };
        self.until.get_or_insert(now + patience);
        // (one that is under way may be past what changed since)
        if self.reads < 2 {
            self.reads += 1;
            self.jobs.push(Job::Read);
        }
    }

    fn look_anew(&mut self, now: Time) {
        let reads = self.reads;
        self.look(now);
        if self.reads == reads && !self.is_late {
            self.reads += 1;
            self.jobs.push(Job::Read);
        }
    }
}

rignolda::spoils! { Root<W> {
    config, publisher, published, draining, drains_until, known, holds, is_new, applied, before,
    was_kept, has_before, guard, record, keeps, kept, keeping, cannot_keep, lost, held, confirmed,
    diffing, next_round, deepest, next_scan, reads, until, is_late, begins, for_table, fresh, asked,
    writing, written, looking, rounding, overdue, went_above, faults
} }

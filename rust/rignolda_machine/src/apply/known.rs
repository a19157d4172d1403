//! What is known of files and hooks.
use super::running::Step;
use super::{Applied, Applier, HOOKS};
use crate::config::Apply;
use crate::prelude::*;
use crate::settings::{older, Waiting};
use crate::{first_of, Fact};
use core::array;
use core::mem::take;

/// How much is said of why something failed, in characters.
const WHY: usize = 200;

impl Applier {
    /// The number of the files, where these were found to be from a later body than was handed
    /// over: what comes from now on is to be what an agent takes that starts with such files.
    pub fn found_later(&mut self) -> Option<u64> {
        self.later.take()
    }

    /// What was done since it was asked last: changes, and what failed.
    pub fn done(&mut self) -> Vec<Applied> {
        take(&mut self.done)
    }

    /// What there is to be said since then.
    pub fn facts(&mut self) -> Vec<Fact> {
        take(&mut self.facts)
    }

    /// Whether files wait that may be kept.
    pub fn waits(&self) -> bool {
        !self.holds && !self.files.is_empty()
    }

    /// Whether files wait or are kept, or something was done.
    pub fn is_busy(&self) -> bool {
        self.waits() || self.turn.is_some() || !self.done.is_empty()
    }

    /// The oldest number whose files are not kept yet.
    fn files_first(&self) -> Option<u64> {
        let kept = self.turn.as_ref().map(|turn| turn.first);
        self.files.first().into_iter().chain(kept).reduce(older)
    }

    /// The sequence number up to which everything is applied, hooks included, where bodies up to
    /// `sequence` were handed over; 0 while these wait. What failed counts as applied, and is in
    /// `failing`.
    pub fn applied(&self, sequence: u64) -> u64 {
        if self.holds {
            return 0;
        }
        let oldest = self.files_first().into_iter().chain(self.hooks_first()).reduce(older);
        oldest.map_or(sequence, |oldest| older(sequence, oldest.saturating_sub(1)))
    }

    /// The number up to which the files are what bodies said, where those up to `sequence` were
    /// handed over, and the digest that they have: as they were written, or looked at in a round.
    pub fn files(&self, sequence: u64) -> Option<(u64, u64)> {
        let digest = self.digest.filter(|_| !self.holds)?;
        let oldest = self.files_first();
        let before = oldest.map_or(sequence, |oldest| older(sequence, oldest.saturating_sub(1)));
        Some((before, digest))
    }

    /// The [digest of all files](super::Digest::whole), where they may be promoted, are
    /// what bodies said, and nothing waits.
    pub fn whole(&self) -> Option<String> {
        let waits = self.holds || self.turn.is_some() || !self.files.is_empty();
        self.whole.clone().filter(|_| self.digest.is_some() && !waits)
    }

    /// Which workers have a job.
    pub fn asked(&self) -> [bool; 1 + HOOKS] {
        let is_asked = |at: usize| match at.checked_sub(1) {
            Some(at) => self.running[at].as_ref().is_some_and(|it| it.step != Step::Ended),
            None => self.is_asked,
        };
        array::from_fn(is_asked)
    }

    /// What of its state cannot be, where something cannot: to be asked each second or two.
    pub fn fault(&self, config: &Apply) -> Option<&'static str> {
        let hooks = config.hooks.iter().collect::<BTreeSet<_>>();
        let is_same = *self.config == *config && self.runs.keys().eq(hooks);
        // (hooks are told of changes alone: for a whole table there, everybody would wait for ever)
        let mut waits = self.runs.values().flat_map(|it| [&it.waiting, &it.changing]);
        let is_whole = self.hooks.is_whole() || waits.any(Waiting::is_whole);
        first_of([
            (!is_same, "what is applied is configured otherwise"),
            (is_whole, "a whole table waits for hooks"),
        ])
    }

    /// The groups whose values count here.
    pub fn groups(&self) -> Vec<String> {
        self.config.groups.clone()
    }

    /// How many settings have a file or hook that failed last.
    pub fn failing(&self) -> u64 {
        self.failing.len() as u64
    }

    /// The first of these, so many at most, each with why.
    pub fn failures(&self, most: usize) -> Vec<String> {
        let all = self.failing.iter().take(most);
        all.map(|(key, why)| format!("{key}: {why}").chars().take(WHY).collect()).collect()
    }

    /// How many hooks failed since the start.
    pub fn hook_failures(&self) -> u64 {
        self.failures
    }

    /// How many files somebody else had changed and were put again, since the start.
    pub fn mended(&self) -> u64 {
        self.mended
    }
}

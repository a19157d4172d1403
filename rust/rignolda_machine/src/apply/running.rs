//! Hooks that run.
use super::{Applier, Done, Hook, Outcome, Runs, What};
use crate::prelude::*;
use crate::settings::{is_newer, older};

/// A hook that a worker runs: that of a key, or one that has one run for many.
#[derive(Debug)]
pub(super) struct Running {
    pub(super) hook: Option<Hook>,
    pub(super) keys: BTreeSet<String>,
    /// The first and the last number that it is told of.
    pub(super) first: u64,
    pub(super) last: u64,
    pub(super) step: Step,
}

#[derive(Debug, PartialEq)]
pub(super) enum Step {
    Runs,
    /// It ended well.
    Ended,
    /// The marks of its keys are going.
    Settles,
}

impl Applier {
    /// The keys of which no hook is due any more, where one has ended well and no file is put:
    /// their marks are to go. Without any, it is over.
    pub(super) fn settles(&mut self, at: usize) -> Option<What> {
        let is_put = self.is_asked && self.turn.is_some();
        let ended = |it: &mut Running| it.step == Step::Ended && !is_put;
        let mut it = self.running[at].take_if(ended)?;
        let keys = it.keys.iter().filter(|key| !self.is_gone(&it) && !self.lacks(key));
        let keys: Vec<String> = keys.cloned().collect();
        if keys.is_empty() {
            self.over(it, Outcome::Done);
            return None;
        }
        it.step = Step::Settles;
        self.running[at] = Some(it);
        Some(What::Settle(keys))
    }

    /// What a worker of hooks begins to run, where it has nothing to do: one for many keys, and
    /// else that of the oldest change whose key has none that runs.
    pub(super) fn runs(&mut self, at: usize) -> Option<What> {
        let is_none = self.hooks.is_empty() && self.runs.is_empty();
        if is_none || self.running[at].is_some() {
            return None;
        }
        let running = || self.running.iter().flatten();
        let is_free = |hook: &Hook| !running().any(|it| it.hook.as_ref() == Some(hook));
        let mut many = self.runs.iter_mut().filter(|(hook, _)| is_free(hook));
        let many = many.find_map(|(hook, runs)| Some((hook, runs.begin()?)));
        let (run, what) = if let Some((hook, (keys, first, last))) = many {
            let what = What::Many(hook.clone(), keys.clone(), last);
            (Running { hook: Some(hook.clone()), keys, first, last, step: Step::Runs }, what)
        } else {
            let has = |it: &Running, key: &str| it.hook.is_none() && it.keys.contains(key);
            let (key, change) = self.hooks.pop_of(|key| !running().any(|it| has(it, key)))?;
            let (keys, first, last) = ([key.clone()].into(), change.first, change.last);
            let what = What::One(key, change, self.floor);
            (Running { hook: None, keys, first, last, step: Step::Runs }, what)
        };
        self.running[at] = Some(run);
        Some(what)
    }

    /// Takes up what came of what a worker of hooks did.
    pub(super) fn ran(&mut self, at: usize, done: Done) {
        let Some(mut it) = self.running.get_mut(at).and_then(Option::take) else { return };
        match done {
            Done::Ran(Ok(())) => {
                it.step = Step::Ended;
                self.running[at] = Some(it);
            }
            Done::Ran(Err(why)) => self.over(it, Outcome::Hook(why)),
            Done::Newer(number, _) if is_newer(number, self.floor) => {
                // (its value is none of those that the files have)
                self.due.extend(it.keys);
                self.falls_behind(number);
            }
            Done::Newer(_, change) => {
                // (that number came meanwhile: it is told then, or of what waits since)
                for key in it.keys {
                    let newer = self.hooks.pop_of(|it| it == key).map(|(_, newer)| newer);
                    self.hooks.put(&key, change.clone());
                    newer.into_iter().for_each(|newer| self.hooks.put(&key, newer));
                }
            }
            _ => self.over(it, Outcome::Done),
        }
    }

    /// A hook has ended, and nothing more is to be done for that.
    fn over(&mut self, it: Running, outcome: Outcome) {
        let failed = outcome != Outcome::Done;
        self.failures += u64::from(failed);
        let key = || it.keys.first().cloned().unwrap_or_default();
        let (name, due) = match &it.hook {
            None => (key(), Some(&mut self.failed)),
            // (else all hooks are told of them at the next round, and this one fails no more)
            Some(hook) => (hook.name(), self.runs.get_mut(hook).map(|runs| &mut runs.due)),
        };
        if let Some(due) = due {
            due.extend(it.keys.into_iter().filter(|_| failed));
            self.report(&name, it.last, outcome);
        }
    }

    /// Whether the hook that runs is one that there is no more.
    pub(super) fn is_gone(&self, it: &Running) -> bool {
        it.hook.as_ref().is_some_and(|hook| !self.runs.contains_key(hook))
    }

    /// Whether some run of a hook is for this key, one that goes on or is to come.
    fn lacks(&self, key: &str) -> bool {
        let all = [&self.failed, &self.due];
        let mut running = self.running.iter().flatten().filter(|it| it.step != Step::Settles);
        self.hooks.has(key)
            || all.iter().any(|it| it.contains(key))
            || self.runs.values().any(|it| it.lacks(key))
            || running.any(|it| it.keys.contains(key) && !self.is_gone(it))
    }

    /// The oldest number of which hooks are still to be told.
    pub(super) fn hooks_first(&self) -> Option<u64> {
        let running = self.running.iter().flatten().filter(|it| !self.is_gone(it));
        let running = running.map(|it| it.first);
        let runs = self.runs.values().filter_map(Runs::first);
        self.hooks.first().into_iter().chain(running).chain(runs).reduce(older)
    }
}

rignolda::spoils! { Running { hook, keys, first, last, step } }
rignolda::spoils_one_of! { Step { Runs, Ended, Settles } }

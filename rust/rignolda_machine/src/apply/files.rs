//! Keeps files: what of them the worker is to do next, and what came of that.
use super::running::Step;
use super::{Applied, Applier, Ended, Hook, Identity, Kept, Mark, Outcome, Runs, What};
use super::{GROUPS, LISTS, MARKER};
use crate::config::Apply;
use crate::prelude::*;
use crate::settings::{is_key, Change, Waiting};
use crate::{Fact, Time};
use core::mem::take;
use core::time::Duration;

/// How many files are kept in one job, so that the hooks of the first ones do not wait for all.
const PART: usize = 64;
/// How long the file of a key waits at most while its hook's mark is going.
const UNMARKS: Duration = Duration::from_secs(5);

/// Files that are being kept.
#[derive(Debug)]
pub(super) struct Turn {
    /// The first number of them.
    pub(super) first: u64,
    pub(super) config: Arc<Apply>,
    pub(super) looks: bool,
    /// Whether they are those of a whole table.
    pub(super) is_whole: bool,
    /// Those that are left; and until when they wait for marks that are going.
    pub(super) left: VecDeque<(String, Change)>,
    pub(super) waits: Option<Time>,
    /// Those that were not as they were put.
    pub(super) mended: Vec<String>,
}

impl Applier {
    /// What the worker of files is to do, if it is to do anything.
    pub(super) fn keeps(&mut self, now: Time) -> Option<What> {
        if self.is_asked {
            return None;
        }
        let what = if let Some(turn) = &mut self.turn {
            let settling = self.running.iter().flatten().filter(|it| it.step == Step::Settles);
            let is_going = |key: &String| settling.clone().any(|it| it.keys.contains(key));
            let until = turn.waits.map_or(now + UNMARKS, |at| at.min(now + UNMARKS));
            if now < until && turn.left.iter().take(PART).any(|(key, _)| is_going(key)) {
                turn.waits = Some(until);
                return None;
            }
            turn.waits = None;
            let part = turn.left.drain(..turn.left.len().min(PART)).collect();
            What::Keep(part, turn.left.is_empty())
        } else if self.waits() {
            What::Mark(self.begins())
        } else {
            self.rests.take_if(|at| *at <= now || *at > now + LISTS)?;
            What::Rest
        };
        self.is_asked = true;
        Some(what)
    }

    /// Begins to keep what waits.
    fn begins(&mut self) -> Mark {
        let (files, forgets) = (take(&mut self.files), take(&mut self.forgets));
        let looks = take(&mut self.looks) || !files.is_whole();
        self.is_known &= !forgets;
        self.turn = Some(Turn {
            first: files.first().unwrap_or(0),
            config: self.config.clone(),
            looks,
            is_whole: files.is_whole(),
            left: VecDeque::new(),
            waits: None,
            mended: Vec::new(),
        });
        let lacks = self.failing.get(MARKER).cloned().filter(|_| !files.is_whole());
        let goes = self.running.iter().flatten().any(|it| it.step == Step::Settles);
        let goes_on = !goes && !files.is_whole() && files.count() <= PART;
        Mark { files, floor: self.floor, looks, forgets, lacks, goes_on }
    }

    /// The folder is marked: the files are to be kept.
    pub(super) fn marked(&mut self, mut turn: Turn, mut files: Waiting, is: Option<Identity>) {
        if self.failing.contains_key(MARKER) {
            self.report(MARKER, turn.first, Outcome::Done);
        }
        if self.taken != is {
            // (of another folder nothing is known, and a change alone does not make it right)
            (self.taken, self.is_known, turn.looks) = (is, false, true);
            self.looks |= !files.is_whole();
        }
        if files.is_whole() {
            let runs = self.runs.values().map(|it| &it.due);
            let due = [&self.due, &self.failed].into_iter().chain(runs);
            files.unset_others(due.flatten().cloned());
            if turn.looks {
                // (of what no table and no file has nothing fails any more)
                let is_hook = |name: &str| turn.config.hooks.iter().any(|it| it.name() == name);
                self.failing.retain(|name, _| {
                    files.has(name) || name.starts_with(GROUPS) || !is_key(name) && is_hook(name)
                });
                self.is_again = self.is_known && self.mode == turn.config.mode;
                self.mode = turn.config.mode;
                // (else what it says was of the files of others)
                self.is_known = self.config.groups == turn.config.groups;
            }
        }
        if !self.forgets {
            turn.left = files.in_order().into();
        }
        self.turn = Some(turn);
    }

    /// Some files were kept, or the last ones, and all else that there is in the folder.
    pub(super) fn kept(
        &mut self,
        mut turn: Turn,
        kept: Vec<Kept>,
        ended: Option<Ended>,
        now: Time,
    ) {
        for it in kept {
            self.kept_one(&mut turn, it);
        }
        let Some(Ended { is, sum, whole, grouped, facts }) = ended else {
            self.turn = Some(turn);
            return;
        };
        if turn.is_whole {
            // (nor does a value for a group that no table and no file has)
            let named: BTreeSet<&str> = grouped.iter().map(|it| &*it.key).collect();
            self.failing.retain(|name, _| !name.starts_with(GROUPS) || named.contains(&**name));
        }
        for Applied { key, sequence, status } in grouped {
            match status {
                Outcome::Done => drop(self.failing.remove(&key)),
                status => self.report(&key, sequence, status),
            }
        }
        self.facts.extend(facts);
        self.mended += turn.mended.len() as u64;
        let first = turn.mended.first().cloned();
        self.facts.extend(first.map(|first| Fact::Mended(turn.mended.len(), first)));
        self.runs.values_mut().for_each(Runs::changed);
        if self.taken != is {
            // (what was put before that is gone)
            (self.taken, self.looks, self.is_known) = (is, true, false);
        }
        let is_known = self.is_known && !self.forgets;
        (self.digest, self.whole) = (is_known.then_some(sum), whole.filter(|_| is_known));
        self.rests = Some(now + LISTS);
    }

    /// Lets the hooks of a key wait, whose file was kept.
    fn kept_one(&mut self, turn: &mut Turn, kept: Kept) {
        let Kept { key, change, put, differs, done } = kept;
        if turn.looks && self.is_again && put && differs {
            turn.mended.push(key.clone());
        }
        // (also where the file is right, hooks of its key may be due)
        let all = differs || self.due.contains(&key);
        let own = all || self.failed.contains(&key);
        let is_due = |it: &Hook| self.runs.get(it).is_some_and(|it| it.due.contains(&key));
        let hooks = turn.config.hooks.iter().filter(|it| all && it.is_for(&key) || is_due(it));
        let hooks: Vec<&Hook> = hooks.collect();
        if !own && hooks.is_empty() {
            return;
        }
        if done.is_err() || self.forgets {
            // (its file is not so, or those that are there are from later)
            self.due.insert(key.clone());
            let why = done.err().map(Outcome::File);
            why.into_iter().for_each(|why| self.report(&key, change.last, why));
            return;
        }
        if all {
            self.due.remove(&key);
        }
        for hook in hooks {
            match self.runs.get_mut(hook) {
                Some(runs) => runs.change(&key, &change),
                // (there are others meanwhile)
                None => drop(self.due.insert(key.clone())),
            }
        }
        if own {
            self.failed.remove(&key);
            match turn.config.hook {
                None => self.report(&key, change.last, Outcome::Done),
                Some(_) => self.hooks.put(&key, if differs { change } else { change.alone() }),
            }
        }
    }
}

rignolda::spoils! { Turn { first, config, looks, is_whole, left, waits, mended } }

//! What somebody asks a root for.
use super::asks::{Asks, Cost};
use super::{hold, Job, Root, Written};
use crate::control::Diff;
use crate::prelude::*;
use crate::settings::{no_key, parts, published_by, shown};
use crate::sha::is_sha256;
use crate::{Refused, Time};
use core::mem;

impl<W> Root<W> {
    /// Writes a setting's file after [`Root::commit`], and publishes it then; without a value,
    /// removes it.
    pub fn ask(&mut self, name: &str, value: Option<Vec<u8>>, who: W) -> Result<(), Refused> {
        let key = self.may_change(name)?;
        let settings = self.publisher.settings();
        let cost = Cost::of(settings, &key, value.as_deref());
        match &value {
            Some(value) if !self.publisher.has_room(&key, value) => Err("it is too long"),
            _ if !self.waiting().has_room(settings, cost) => {
                Err("too much waits for the disk: try again")
            }
            _ => Ok(()),
        }?;
        match self.asked.last_mut() {
            Some((Job::Write(batch), all)) if batch.iter().all(|it| it.0 != key) => {
                batch.push((key, value));
                all.push((who, cost));
            }
            _ => self.asked.push((Job::Write(vec![(key, value)]), vec![(who, cost)])),
        }
        Ok(())
    }

    /// What is not written yet.
    fn waiting(&self) -> Asks {
        let asked = self.asked.iter().flat_map(|(_, who)| who);
        asked.chain(&self.writing).map(|(_, cost)| *cost).collect()
    }

    /// Makes the value that a setting has for a group the one for all, after [`Root::commit`]: by
    /// one change, so that no agent has another value in between.
    pub fn promote(&mut self, name: &str, who: W) -> Result<(), Refused> {
        let key = self.may_change(name)?;
        let settings = self.publisher.settings();
        let value = settings.get(&key);
        match parts(&key) {
            // (what the folder has of it may be what is held)
            _ if self.held.is_some() => Err(Refused::IsHeld),
            (_, None) => Err(format!("`{name}` is for no group: KEY@GROUP is expected").into()),
            _ if value.is_none() => Err(format!("`{name}` is not set").into()),
            (file, _) if value.is_some_and(|it| !self.publisher.has_room(file, it)) => {
                Err("there is no room for a second one".into())
            }
            _ => {
                self.asked.push((Job::Promote(key), vec![(who, Cost::default())]));
                Ok(())
            }
        }
    }

    /// The key of a setting that is to be changed, or why it cannot be now. What is held stays so,
    /// but for a key that somebody names.
    fn may_change(&self, name: &str) -> Result<String, Refused> {
        let is_readable = self.lost.is_none() && (self.known || self.held.is_some());
        match published_by(name) {
            _ if self.draining => Err(Refused::Drains),
            _ if !is_readable && !self.is_first() => {
                let first = self.faults.texts.first().map_or("it is not read yet", |it| it);
                let why = self.lost.as_deref().unwrap_or(first);
                Err(format!("{} is not known: {why}", self.config.settings).into())
            }
            // (a body has all values of a key, and of this one there are some that are not known)
            Some(key) if !self.known && self.lacks_beside(&key) => Err(Refused::IsHeld),
            key => key.ok_or_else(|| no_key(name).into()),
        }
    }

    /// Whether an earlier life published a value of this key, for all or for another group, that is
    /// not known.
    fn lacks_beside(&self, key: &str) -> bool {
        let (file, settings) = (parts(key).0, self.publisher.settings());
        let is_beside = |it: &str| it != key && parts(it).0 == file;
        self.before.keys().any(|it| is_beside(it) && !settings.contains_key(it))
    }

    /// Whether the folder is empty, and may be: nothing was ever published of it, or all of that is
    /// unset. What agents have of an earlier life was published.
    fn is_first(&self) -> bool {
        let is_before = self.has_before && !self.was_kept;
        let has_none = match self.known {
            true => self.publisher.settings().is_empty(),
            false => self.guard.is_empty() && !is_before,
        };
        self.is_new && has_none
    }

    /// Has what was asked for written, one job after the other.
    pub fn commit(&mut self) {
        if self.writing.is_empty() && !self.asked.is_empty() {
            let (job, who) = self.asked.remove(0);
            self.writing = who;
            self.jobs.push(job);
        }
    }

    pub(super) fn take_written(&mut self, all: Vec<Written>, others: bool, now: Time) {
        others.then(|| self.notified(now));
        let writing = mem::take(&mut self.writing);
        if writing.len() == all.len() {
            for (((key, value), done), (who, _)) in all.into_iter().zip(writing) {
                let done = match done {
                    // (the folder lacks it, and that is held)
                    Err(Refused::NotSet) if self.is_published_before(&key) => Ok(()),
                    Err(Refused::NotSet) => Err(format!("`{}` is not set", shown(&key)).into()),
                    done => done,
                };
                // (also where it is as it was: whoever asked for it is told a number)
                match done.map(|()| self.put_written(&key, value)) {
                    Ok(()) => self.written.push((key, who)),
                    Err(why) => self.answers.push((who, Err(why))),
                }
            }
        } else if let Some((who, _)) = writing.into_iter().next() {
            // (a value is promoted by two changes)
            let (mut last, mut failed) = (None, None);
            for ((key, value), done) in all {
                match done {
                    Ok(()) => self.put_written(&key, value),
                    Err(why) => failed = failed.or(Some(why)),
                }
                last = Some(key);
            }
            match (last, failed) {
                (Some(key), None) => self.written.push((key, who)),
                (_, why) => {
                    self.answers.push((who, Err(why.unwrap_or("nothing is written".into()))))
                }
            }
        }
        if !self.known {
            self.look(now);
        }
        self.commit();
    }

    /// Whether agents have this key.
    fn is_published_before(&self, key: &str) -> bool {
        let is_before = || self.before.keys().any(|it| it == key);
        self.publisher.settings().contains_key(key) || !self.known && is_before()
    }

    /// Takes up what a file is now by request.
    fn put_written(&mut self, key: &str, value: Option<Vec<u8>>) {
        if value.is_none() {
            self.guard.unset(key);
        }
        if !self.known {
            self.before.put(key, value.as_deref(), self.sha);
        }
        self.publisher.put(key, value);
    }

    /// Begins a round for somebody who asks for it: the answer comes when its table is published.
    pub fn ask_round(&mut self, now: Time, who: W) -> Result<(), Refused> {
        if self.draining {
            return Err(Refused::Drains);
        }
        self.rounding.push(who);
        self.begin_round(now);
        Ok(())
    }

    /// Looks at the folder for somebody who has just changed it: the answer comes when all that it
    /// saw is published.
    pub fn look_again(&mut self, now: Time, who: W) {
        self.looking.push(who);
        self.look_anew(now);
    }

    /// Looks at the folder for somebody who asks what of it is not published.
    pub fn ask_diff(&mut self, now: Time, who: W) {
        self.diffing.push(who);
        self.look_anew(now);
    }

    /// Those who asked for that, once the folder is read, and what it is.
    pub fn diffs(&mut self) -> Option<(Vec<W>, Diff)> {
        if self.diffing.is_empty() || self.reads > 0 && !self.is_late {
            return None;
        }
        let waits = || hold::diff(self.publisher.changed(), String::new(), self.sha);
        let diff = self.held.clone().unwrap_or_else(waits);
        Some((mem::take(&mut self.diffing), diff))
    }

    /// Publishes what is held, where the folder has it still: `digest` is that of what was seen, or
    /// empty. It is answered as a look is.
    pub fn confirm(&mut self, digest: &str, now: Time, who: W) -> Result<(), Refused> {
        match &self.held {
            _ if !digest.is_empty() && !is_sha256(digest) => {
                let text = "a change is confirmed by 64 hexadecimal digits, as `diff` shows them: \
                            another one may have fewer of them too";
                Err(text.into())
            }
            None => Err(Refused::NothingIsHeld),
            _ if self.draining => Err(Refused::Drains),
            Some(held) if !digest.is_empty() && *digest != *held.digest => {
                Err(format!("another change is held since, {}", held.digest).into())
            }
            Some(held) => {
                self.confirmed = Some(held.digest.clone());
                self.look_again(now, who);
                Ok(())
            }
        }
    }
}

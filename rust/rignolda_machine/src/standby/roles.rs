//! The files by which an agent that may be promoted knows at a start what it is, and what a
//! promotion copies.
//!
//! They lie in the root's folder, beside the settings. With a file `.root` it is the root; that has
//! its rank, a number above all that it had seen when it was promoted. With a file `.stands-by` it
//! was the root, and has found another one: it is an agent until somebody says more. Else it is an
//! agent as any other one. `.applied` has the digest of the last whole table that it applied, so
//! that nothing less is ever promoted. `.published` has the number up to which the root may have
//! published: what its children have above it at a start, [another root](super::says) published.
use super::{Begun, Done, Job};
use crate::apply::{beside, marker, published, Digest, FileSystem, Step, GROUPS};
use crate::control::Standby as Role;
use crate::prelude::*;
use crate::root::Kept;
use crate::settings::{as_key, differences, is_newer, published_by, Found};
use crate::sha::{is_sha256, Sha256};
use crate::{Fact, Refused};
use core::fmt::Display;

const ROOT: &str = ".root";
const STANDS_BY: &str = ".stands-by";
const APPLIED: &str = ".applied";
const PUBLISHED: &str = ".published";
/// The file by which an empty folder is meant.
const EMPTY: &str = ".empty";
/// How many files are written at once.
const FILES: usize = 64;

type Settings = BTreeMap<String, Vec<u8>>;

/// The root's folder, and that of what is applied.
#[derive(Clone, Debug)]
pub struct Folders<S> {
    pub system: S,
    pub sha: Sha256,
    pub root: String,
    pub applied: String,
}

fn at(path: &str) -> impl Fn(&dyn Display) -> String + '_ {
    move |error| format!("{path}: {error}")
}

impl<S: FileSystem> Folders<S> {
    /// What they say at a start.
    pub fn begun(&self) -> Begun {
        let (role, rank, fact) = self.role();
        // (what is below its rank is spoiled)
        let may = self.number(PUBLISHED);
        let may = Some(may).filter(|may| *may > 0 && !is_newer(rank, *may));
        Begun { role, rank, noted: self.noted(), may, fact }
    }

    /// The path of a file in the root's folder.
    fn file(&self, name: &str) -> String {
        [&*self.root, "/", name].concat()
    }

    /// What it is at a start, and its rank; and what is wrong with that. Whoever writes to the
    /// folder makes nobody the root: a file that says so is the agent's own, or the
    /// administrator's.
    fn role(&self) -> (Role, u64, Option<Fact>) {
        let is_there = |name: &str| self.system.look(&self.file(name)).ok();
        let (root, path) = (is_there(ROOT), self.file(ROOT));
        let fact = |words| Some(Fact::Mark(path.clone(), words));
        let others = "does not belong to the user of the agent alone: left out";
        match root {
            _ if is_there(STANDS_BY).is_some() => (Role::StandsBy, 0, None),
            None => (Role::Below, 0, None),
            Some(it) if !it.is_file => (Role::StandsBy, 0, fact("is no plain file: it stands by")),
            Some(_) if !self.system.is_own(&path) => (Role::Below, 0, fact(others)),
            Some(_) => match self.number(ROOT) {
                0 => (Role::Looks, 0, fact("has no number: any other root goes on")),
                rank => (Role::Looks, rank, None),
            },
        }
    }

    /// The number that a file there has; 0 where it has none.
    fn number(&self, name: &str) -> u64 {
        marker::read(&self.system, &self.file(name))
    }

    /// The digest of the last whole table that was applied.
    fn noted(&self) -> Option<String> {
        let text = String::from_utf8(self.system.read(&self.file(APPLIED), 80).ok()?).ok()?;
        Some(text.trim_end().to_owned()).filter(|it| is_sha256(it))
    }

    /// Does a job to its end.
    pub fn work(&self, job: Job) -> Done {
        match job {
            Job::Promote { rank, copies, digest } => {
                Done::Promoted(rank, self.promote(rank, copies, digest))
            }
            Job::Demote => Done::Demoted(self.remove(ROOT).and_then(|()| self.remove(STANDS_BY))),
            Job::StandBy => {
                Done::StandsBy(self.put(STANDS_BY, "").and_then(|()| self.remove(ROOT)))
            }
            Job::Reserve(number) => {
                // (where that fails, nothing at all is known at the next start)
                let (path, text) = (self.file(PUBLISHED), marker::text(number));
                if self.system.does(&self.root, Step::Rewrite(&path, &text)).is_err() {
                    let _ = self.system.does(&path, Step::RemoveFile);
                }
                Done::Reserved(number)
            }
            Job::Note(digest) => {
                // (one that cannot be written is one that is not there)
                let _ = self.put(APPLIED, &format!("{digest}\n"));
                Done::Noted
            }
        }
    }

    /// Puts a file into the root's folder, whole and on the disk.
    fn put(&self, name: &str, text: &str) -> Result<(), String> {
        self.keep_all(&[(name.into(), Some(text.into()))])
    }

    fn keep_all(&self, all: &[Kept]) -> Result<(), String> {
        let done = self.system.keep_all(&self.root, all).into_iter();
        done.collect::<Result<(), _>>().map_err(|error| error.to_string())
    }

    /// Removes a file from there, if it is there.
    fn remove(&self, name: &str) -> Result<(), String> {
        let path = self.file(name);
        match self.system.does(&path, Step::RemoveFile) {
            Err(error) if !S::is_missing(&error) => Err(at(&path)(&error)),
            _ => self.system.does(&self.root, Step::Sync).map_err(|error| at(&self.root)(&error)),
        }
    }

    /// Says that it is the root, after all else is right: so half a copy is never published.
    fn promote(
        &self,
        rank: u64,
        copies: bool,
        digest: Option<String>,
    ) -> Result<Settings, Refused> {
        if self.system.open(&self.root, false).is_err() {
            return Err(format!("{} is no folder", self.root).into());
        }
        let applied = self.found(&self.applied, as_key);
        let applied = match copies {
            true => self.copy(applied?, digest)?,
            false => self.published(applied.unwrap_or_default())?,
        };
        self.put(PUBLISHED, &marker::text(rank))?;
        // (what it published when it was the root last is older than this)
        let _ = self.system.does(&self.root, Step::ForgetRecord);
        self.put(ROOT, &marker::text(rank))?;
        self.remove(STANDS_BY)?;
        Ok(applied)
    }

    /// Makes the root's folder what was applied.
    fn copy(&self, found: Found, digest: Option<String>) -> Result<Settings, Refused> {
        let (mut own, mut grouped) = (Digest::new(self.sha), Digest::new(self.sha));
        let there = self.grouped()?;
        found.settings.iter().for_each(|(key, value)| own.set(key, Some(value)));
        found.unread.keys().for_each(|key| own.set(key, None));
        there.settings.iter().for_each(|(key, value)| grouped.set(&beside(key), Some(value)));
        there.unread.keys().for_each(|key| grouped.set(&beside(key), None));
        let is_whole = digest.or_else(|| self.noted()) == Some(own.whole(&grouped));
        if !is_whole || !found.unread.is_empty() {
            return Err(format!(
                "{} is not a whole table as it was applied: put what is right into {}, and \
                 `promote --as-is`",
                self.applied, self.root
            )
            .into());
        }
        let applied = self.published(found)?;
        let there = || self.found(&self.root, published_by);
        let old = there()?.settings;
        let changes = differences(&old, &applied).into_iter();
        let changes: Vec<Kept> =
            changes.map(|(key, value)| (key.into(), value.map(<[u8]>::to_vec))).collect();
        changes.chunks(FILES).try_for_each(|some| self.keep_all(some))?;
        if applied.is_empty() {
            self.put(EMPTY, "")?;
        }
        match there()?.settings == applied {
            true => Ok(applied),
            false => Err(format!("somebody else changes {} now", self.root).into()),
        }
    }

    fn found(&self, path: &str, by: fn(&str) -> Option<String>) -> Result<Found, String> {
        self.system.found(path, by).map_err(|error| at(path)(&error))
    }

    /// The values as they were published, of keys that have one for some group.
    fn grouped(&self) -> Result<Found, String> {
        let folder = [&*self.applied, "/", GROUPS].concat();
        match self.system.look(&folder) {
            Ok(_) => self.found(&folder, as_key),
            Err(_) => Ok(Found::default()),
        }
    }

    /// What was published where this is applied: of a setting that has values for groups, all of
    /// these.
    fn published(&self, found: Found) -> Result<Settings, Refused> {
        let grouped = self.grouped()?;
        if let Some(key) = grouped.unread.keys().next() {
            return Err(format!("{}/{GROUPS}: {key} cannot be read", self.applied).into());
        }
        Ok(published(found.settings, grouped.settings))
    }
}

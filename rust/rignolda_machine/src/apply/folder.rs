//! Files of settings in a folder that is held open.
use super::{FileSystem, Identity, Place, Step};
use crate::prelude::*;
use crate::settings::{is_key, VALUE_BYTES};
use core::hash::BuildHasher;

/// The file that is written before it takes the place of a setting.
const NEW: &str = ".new";
/// The mode of the file that is there before any other one, at most.
const FIRST: u32 = 0o644;

/// A folder with a file for each setting: its name is the key, its bytes are the value.
///
/// A reader finds each file whole, as it was or as it is now. Nothing in the folder has to be
/// right: whatever is in the place of a file is replaced. No file is synced to the disk, so after a
/// loss of power each one is to be put again that [differs](Folder::differs).
///
/// Once it is [open](Folder::open), all is done in that folder until it is closed, and nothing in
/// another one that comes to its place.
#[derive(Debug)]
pub struct Folder<S: FileSystem> {
    system: S,
    path: String,
    /// The folder, while it is open; and which it was last.
    place: Option<Place<S::Held>>,
    is: Option<Identity>,
    /// A file that is there before any other one is put, and what it has.
    first: Option<(&'static str, Vec<u8>)>,
    /// The digests of the values that were put, or found there, last. Nobody makes two values with
    /// one digest.
    put: BTreeMap<String, u64>,
    digest: S::Digest,
    /// The mode that a new file of it had by itself, as it was seen last.
    exact: Option<u32>,
}

impl<S: FileSystem> Folder<S> {
    /// The folder at this path. It is made when the first file is put.
    pub fn new(system: S, path: String) -> Folder<S> {
        let (put, digest, place) = (BTreeMap::new(), S::Digest::default(), None);
        Folder { system, path, place, is: None, first: None, put, digest, exact: None }
    }

    /// Where it is.
    pub(super) fn path(&self) -> &str {
        &self.path
    }

    /// A path to it that leads nowhere else as long as it is open.
    pub(super) fn at(&self) -> &str {
        self.place.as_ref().map_or(&self.path, |place| &place.at)
    }

    /// The path of a file in it.
    pub(super) fn file(&self, name: &str) -> String {
        [self.at(), "/", name].concat()
    }

    /// Which folder it is, or was when it was open last.
    pub(super) fn is(&self) -> Option<Identity> {
        self.is
    }

    /// Opens what is at its path now, and makes it where nothing is, or no folder: whether it is
    /// another folder than the last one.
    pub fn open(&mut self) -> Result<bool, S::Error> {
        let open = self.is.filter(|_| self.place.is_some());
        if open.is_some_and(|is| self.system.is_there(&self.path, is)) {
            return Ok(false);
        }
        let place = self.system.open_or_make(&self.path)?;
        Ok(self.is_at(place))
    }

    /// Works in this folder from now on: whether it is another one than the last.
    pub(super) fn is_at(&mut self, place: Place<S::Held>) -> bool {
        let is_other = self.is != Some(place.is);
        (self.is, self.place) = (Some(place.is), Some(place));
        is_other
    }

    /// Closes it, and it is the one that it was before.
    pub(super) fn leave(&mut self, was: Option<Identity>) {
        (self.place, self.is) = (None, was);
    }

    /// Closes it, so that it may be moved, or its disk be taken away.
    pub(super) fn close(&mut self) {
        self.place = None;
    }

    /// Forgets what was put: nothing is known of what is there.
    pub(super) fn forget(&mut self) {
        self.put.clear();
        self.exact = None;
    }

    /// Before a file is put, one of this name is there, with these bytes where it is not.
    pub fn begins_with(&mut self, name: &'static str, bytes: Vec<u8>) {
        self.first = Some((name, bytes));
    }

    /// Where it is there and is the folder that it was, the file is put that is there before any
    /// other one.
    pub fn begins_again(&mut self) {
        let place = self.system.open(&self.path, false).ok();
        if let Some(place) = place.filter(|it| self.is == Some(it.is)) {
            self.is_at(place);
            let _ = self.begins();
            self.close();
        }
    }

    /// The name of something that is as a setting is named, and is no file that has the value that
    /// is said of it, or that was put last; nothing where all that is there is the agent's own.
    pub(super) fn stranger<'a>(&self, said: impl Fn(&str) -> Option<&'a [u8]>) -> Option<String> {
        let is_own = |name: &String| {
            let value = self.read(name);
            value.is_ok_and(|it| said(name) == Some(&it[..]) || self.had(name, &it))
        };
        let there = self.listed(|_, name| is_key(name));
        there.into_iter().find(|name| !is_own(name))
    }

    /// The names of all that is there and is no folder. A link to one is none.
    pub fn names(&self) -> Vec<String> {
        self.listed(|is_folder, _| !is_folder)
    }

    /// The names of what is there and is nothing of settings, whether whole or while it is written:
    /// folders, and names that are no keys. What is no text is shown as well as it may be.
    pub fn others(&self) -> Vec<String> {
        self.listed(|is_folder, name| name != NEW && (is_folder || !is_key(name)))
    }

    fn listed(&self, is: impl Fn(bool, &str) -> bool) -> Vec<String> {
        let all = self.system.list(self.at()).into_iter().flatten();
        all.filter(|(name, is_folder)| is(*is_folder, name)).map(|(name, _)| name).collect()
    }

    /// Makes the folder one that its owner can use, where it is there or can be made.
    pub fn mend(&self) -> Result<(), S::Error> {
        self.system.does(self.at(), Step::Mend)
    }

    /// Whether a setting's file is to be put: it is no plain file with this value and mode, or,
    /// without a value, something is there that is no folder; or another value was put last, since
    /// then nobody looks.
    pub fn differs(&mut self, key: &str, value: Option<&[u8]>, mode: u32) -> bool {
        let had = value.is_none_or(|value| self.had(key, value));
        if !had && self.put.contains_key(key) || !self.is_as(key, value, mode) {
            return true;
        }
        if let (false, Some(value)) = (had, value) {
            self.knows_as(key, self.digest.hash_one(value));
        }
        false
    }

    /// Whether this value was put, or found there, last. No file is looked at, so what somebody
    /// else did in the folder is not seen.
    pub fn had(&self, key: &str, value: &[u8]) -> bool {
        self.put.get(key) == Some(&self.digest.hash_one(value))
    }

    /// Whether any value of this key was put, or found there, last.
    pub fn knows(&self, key: &str) -> bool {
        self.put.contains_key(key)
    }

    /// The names of all files there, or the keys of those that were put, or found there, last.
    pub(super) fn there(&self, looks: bool) -> Vec<String> {
        if looks {
            self.names()
        } else {
            self.put.keys().cloned().collect()
        }
    }

    /// The value that a file has.
    pub(super) fn read(&self, key: &str) -> Result<Vec<u8>, S::Error> {
        self.system.read(&self.file(key), VALUE_BYTES)
    }

    fn is_as(&mut self, key: &str, value: Option<&[u8]>, mode: u32) -> bool {
        let path = self.file(key);
        let (is, value) = match (self.system.look(&path), value) {
            (Ok(is), Some(value)) => (is, value),
            (there, value) => return there.map_or(true, |it| it.is_folder) && value.is_none(),
        };
        if is.mode != mode {
            self.exact = None;
            return false;
        }
        is.is_file && is.bytes == value.len() as u64 && self.system.has(&path, value)
    }

    /// Makes a setting's file, or, without a value, removes it: whether it is what it should be, by
    /// what was read of it before it was moved to its place. The folder is mended where that is in
    /// the way, and made anew where it was removed. A folder that has the name of a file which is
    /// to go is none of the agent's, and stays. Where that fails, the file is as it was.
    pub fn put(&mut self, key: &str, value: Option<&[u8]>, mode: u32) -> Result<bool, S::Error> {
        let done = match self.put_once(key, value, mode) {
            Err(error) if S::is_denied(&error) => {
                self.mend().and_then(|()| self.put_once(key, value, mode))
            }
            Err(error) if S::is_missing(&error) => {
                self.is_there_again().and_then(|()| self.put_once(key, value, mode))
            }
            done => done,
        };
        match value.filter(|_| done.is_ok()).map(|value| self.digest.hash_one(value)) {
            Some(digest) => self.knows_as(key, digest),
            None => drop(self.put.remove(key)),
        }
        done
    }

    /// Opens it anew, where it is the same folder, or was removed, and is made anew then.
    fn is_there_again(&mut self) -> Result<(), S::Error> {
        let was_removed = self.system.look(&self.path).is_err_and(|e| S::is_missing(&e));
        let is = self.is;
        if self.open()? {
            if !was_removed {
                self.leave(is);
                return Err(S::because("another folder is in the place of its folder".into()));
            }
            self.forget();
        }
        Ok(())
    }

    /// The file is there that is there before others.
    pub(super) fn begins(&self) -> Result<(), S::Error> {
        match &self.first {
            Some((name, bytes)) if self.system.look(&self.file(name)).is_err() => {
                self.system.write(&self.file(name), FIRST, None, bytes).map(drop)
            }
            _ => Ok(()),
        }
    }

    fn knows_as(&mut self, key: &str, digest: u64) {
        match self.put.get_mut(key) {
            Some(it) => *it = digest,
            None => drop(self.put.insert(key.into(), digest)),
        }
    }

    fn put_once(&mut self, key: &str, value: Option<&[u8]>, mode: u32) -> Result<bool, S::Error> {
        if !is_key(key) {
            return Err(S::because("it is no key".into()));
        }
        let path = self.file(key);
        let Some(value) = value else { return self.system.unlink(&path).map(|()| true) };
        self.begins()?;
        // (else the mask of the process leaves its mode as it is)
        let (new, is_known) = (self.file(NEW), Some(self.exact == Some(mode)));
        let (is_so, had) = self.system.write(&new, mode, is_known, value)?;
        self.exact = Some(had).filter(|had| *had == mode);
        self.system.does(&path, Step::Take(&new))?;
        Ok(is_so)
    }
}

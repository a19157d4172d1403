//! Who has what: the files that an agent applied, and which value of a key each agent has.
//!
//! An agent's files are read by whoever asks, and not by the agent: so they show what is there now,
//! and nobody sees more than the rights of the folder let him.
use crate::source::{no_key, read_folder, read_plain};
use crate::{digest, Compared, Key, Keys, Seen};
use rignolda_machine::settings::{is_key, is_newer, that_counts, VALUE_BYTES};
use serde::Serialize;
use std::collections::BTreeSet;
use std::io::{self, ErrorKind};
use std::path::Path;

/// A setting, as its file is.
#[derive(Debug, PartialEq, Serialize)]
pub struct File {
    pub key: String,
    pub bytes: usize,
    /// Its [digest], in hexadecimal digits.
    pub digest: String,
}

impl File {
    fn new(key: &str, value: &[u8]) -> File {
        let digest = digits(digest(key, Some(value)));
        File { key: key.into(), bytes: value.len(), digest }
    }
}

/// The settings of a folder in the order of their keys, and what there is no file of one, and why.
pub fn list(folder: &Path) -> io::Result<(Vec<File>, BTreeSet<String>)> {
    let found = read_folder(folder)?;
    let files = found.settings.iter().map(|(key, value)| File::new(key, value));
    Ok((files.collect(), found.faults.texts))
}

/// The value of a setting, and what is said of it.
pub fn get(folder: &Path, key: &str) -> Result<(Vec<u8>, File), String> {
    if !is_key(key) {
        return Err(no_key(key));
    }
    let path = folder.join(key);
    let value = read_plain(&path, VALUE_BYTES).map_err(|error| match error.kind() {
        ErrorKind::NotFound if folder.is_dir() => format!("`{key}` is not set at this agent"),
        _ => format!("{}: {error}", path.display()),
    })?;
    let file = File::new(key, &value);
    Ok((value, file))
}

/// Which value of a key an agent has.
#[derive(Debug, PartialEq, Serialize)]
pub struct Holder {
    pub agent: String,
    /// The digest of the value; empty where it has none, or it is not known.
    pub digest: String,
    /// What is to be said besides.
    pub note: String,
}

/// Which value each agent of the root's list has, as far as its files are known to be what was
/// published up to a number.
pub fn holders(list: &[Seen], keys: &Keys) -> Vec<Holder> {
    list.iter().map(|seen| holder(seen, keys)).collect()
}

/// Shows the digest of the value that the first one has, where that can be read, in place of its
/// label. An agent says no digest of a value, since that tells one that can be guessed.
pub fn name(holders: &mut [Holder], own: Option<File>) {
    let label = holders.first().map_or(String::new(), |it| it.digest.clone());
    if let Some(file) = own.filter(|_| !label.is_empty()) {
        let same = holders.iter_mut().filter(|it| it.digest == label);
        same.for_each(|it| it.digest = file.digest.clone());
    }
}

/// What counted as of some number.
enum Then {
    Now(u64),
    Before(u64),
    NotKnown,
}

/// What an agent of these groups had of a key as of a number.
fn then(keys: &Keys, groups: &[String], number: u64) -> Then {
    let is_as_of = |since| !is_newer(since, number);
    let of = |key: &Key| {
        Some(if is_as_of(key.number) {
            Then::Now(key.digest)
        } else if key.old_number != 0 && is_as_of(key.old_number) {
            Then::Before(key.old)
        } else {
            Then::NotKnown
        })
    };
    let value = |group: Option<&str>| match group {
        None => of(&keys.all),
        Some(group) => match keys.groups.get(group) {
            Some(key) => of(key).filter(|it| !matches!(it, Then::Before(0))),
            None => Some(Then::NotKnown).filter(|_| !is_as_of(keys.since)),
        },
    };
    that_counts(groups, value).unwrap_or(Then::NotKnown)
}

fn holder(seen: &Seen, keys: &Keys) -> Holder {
    let is_heard = seen.is_heard();
    let (digest, note) = match seen.compared {
        _ if !is_heard && seen.connected => (0, "not known: it has said nothing yet"),
        _ if !is_heard => (0, "never heard of"),
        Compared::Nothing => (0, "keeps no files"),
        Compared::NotKnown => (0, "not known"),
        Compared::Differs => (0, "not known: its files differ"),
        Compared::Same => match then(keys, &seen.groups, seen.files) {
            Then::Now(0) => (0, "unset"),
            Then::Now(digest) => (digest, ""),
            Then::Before(digest) => (digest, "older"),
            Then::NotKnown => (0, "not known: it has older files"),
        },
    };
    let away = if is_heard && !seen.connected { "away" } else { "" };
    let notes: Vec<&str> = [note, away].into_iter().filter(|it| !it.is_empty()).collect();
    let digest = if digest == 0 { String::new() } else { digits(digest) };
    Holder { agent: seen.name.clone(), digest, note: notes.join(", ") }
}

fn digits(digest: u64) -> String {
    format!("{digest:016x}")
}

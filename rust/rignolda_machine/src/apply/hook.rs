//! Hooks: programs that are told of changes. One is run for each change of a key. Others are each
//! for the keys that some patterns name, with one run for all of these that changed together.
use crate::prelude::*;
use crate::settings::{older, Change, Waiting};
use core::mem;
use core::time::Duration;

/// A hook that has one run for all of its keys that changed together.
#[derive(Clone, Debug, Default, Eq, Ord, PartialEq, PartialOrd)]
pub struct Hook {
    /// Patterns of which a key fits one.
    pub keys: Vec<String>,
    pub run: String,
    pub timeout: Duration,
}

impl Hook {
    /// Whether it is told of this key.
    pub fn is_for(&self, key: &str) -> bool {
        self.keys.iter().any(|pattern| fits(pattern, key))
    }

    /// What is said of it.
    pub fn name(&self) -> String {
        format!("{} of {}", self.run, self.keys.join(" "))
    }
}

/// Whether a key fits a pattern, in which each `*` stands for any letters, or none, and everything
/// else for itself.
fn fits(pattern: &str, key: &str) -> bool {
    let mut parts = pattern.split('*');
    let front = parts.next().unwrap_or_default();
    let Some(mut rest) = key.strip_prefix(front) else { return false };
    let Some(back) = parts.next_back() else { return rest.is_empty() };
    // (of each part in between the first place will do)
    for part in parts {
        match rest.split_once(part) {
            Some((_, behind)) => rest = behind,
            None => return false,
        }
    }
    rest.ends_with(back)
}

/// What a hook is still to be told.
#[derive(Debug, Default)]
pub struct Runs {
    /// The keys that change now, together; and those that changed since the last run began.
    pub changing: Waiting,
    pub waiting: Waiting,
    /// The keys of runs that failed.
    pub due: BTreeSet<String>,
}

impl Runs {
    /// The oldest number that is not told yet.
    pub fn first(&self) -> Option<u64> {
        self.waiting.first().into_iter().chain(self.changing.first()).reduce(older)
    }

    /// Whether a run is to come for this key.
    pub fn lacks(&self, key: &str) -> bool {
        self.waiting.has(key) || self.changing.has(key) || self.due.contains(key)
    }

    /// A key changes: the hook is told of it together with others.
    pub fn change(&mut self, key: &str, change: &Change) {
        self.due.remove(key);
        self.changing.put(key, Change { value: None, ..change.clone() });
    }

    /// Those that changed together are known.
    pub fn changed(&mut self) {
        for (key, change) in mem::take(&mut self.changing).in_order() {
            self.waiting.put(&key, change);
        }
    }

    /// Begins a run where something waits: of these keys, and the first and the last number.
    pub fn begin(&mut self) -> Option<(BTreeSet<String>, u64, u64)> {
        let first = self.waiting.first()?;
        let changes = mem::take(&mut self.waiting).in_order();
        let last = changes.last().map_or(first, |(_, change)| change.last);
        let keys: BTreeSet<String> = changes.into_iter().map(|(key, _)| key).collect();
        Some((keys, first, last))
    }
}

rignolda::spoils! { Hook { keys, run, timeout } }
rignolda::spoils! { Runs { changing, waiting, due } }

#[cfg(test)]
mod tests {
    use super::*;

    #[test]
    fn a_star_stands_for_any_letters() {
        for (pattern, key) in [
            ("*", "a"),
            ("app.*", "app."),
            ("app.*", "app.a.b"),
            ("*.conf", "app.conf"),
            ("a*b*c", "abc"),
            ("a*b*c", "aXbYbZc"),
            ("a**c", "ac"),
            ("*b*b", "abb"),
            ("ab*ab", "abab"),
            ("colour", "colour"),
        ] {
            assert!(fits(pattern, key), "{pattern} {key}");
        }
        for (pattern, key) in [
            ("", "a"),
            ("app.*", "app"),
            ("app.*", "Xapp.a"),
            ("*.conf", "app.conf2"),
            ("a*b*c", "acb"),
            ("ab*ab", "ab"),
            ("ab*b", "ab"),
            ("colour", "colours"),
            ("a?", "ab"),
            ("[a]", "a"),
        ] {
            assert!(!fits(pattern, key), "{pattern} {key}");
        }
    }
}

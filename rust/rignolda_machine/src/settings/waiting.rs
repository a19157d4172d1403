//! Changes that wait to be applied.
use super::groups::{of_group, parts, that_counts};
use super::{is_key, is_newer, older, proved, Meaning};
use crate::net::Body;
use crate::prelude::*;
use alloc::collections::BTreeMap;
use alloc::sync::Arc;
use core::ops::{Deref, Range};

/// Changes that wait to be applied: of those of one key, the last alone.
///
/// So whoever applies settings more slowly than they come ends with what they are now. Sequence
/// numbers say how far that is: nothing waits that is older than [`Waiting::first`].
///
/// ```
/// use rignolda_machine::net::Body;
/// use rignolda_machine::settings::{Meaning, Waiting};
///
/// let mut waiting = Waiting::default();
/// let said = |number, entries| Body::new(number, &Meaning::Changes(entries));
/// let before = said(7, vec![("colour", Some(&b"red"[..])), ("size", None)]);
/// for body in [before, said(8, vec![("colour", Some(b"blue"))])] {
///     let (number, meaning) = body.meaning().expect("it fits its item");
///     waiting.take(&body, number, &meaning);
/// }
/// let (key, change) = waiting.pop().expect("a change waits");
/// assert_eq!((&*key, change.value.as_deref()), ("colour", Some(&b"blue"[..])));
/// assert_eq!((change.first, change.last), (7, 8));
/// assert_eq!(waiting.first(), Some(7));
/// ```
#[derive(Clone, Debug, Default)]
pub struct Waiting {
    changes: BTreeMap<String, Change>,
    /// The first and the last number that wait for the whole table, if one waits.
    whole: Option<(u64, u64)>,
}

/// A change that waits.
#[derive(Clone, Debug)]
pub struct Change {
    /// What the setting is to be, unless it is unset.
    pub value: Option<Value>,
    /// The sequence number of the first change that waits for this one.
    pub first: u64,
    /// Its own.
    pub last: u64,
}

impl Change {
    /// The same with the bytes of its value alone: for what may wait long, since else the whole
    /// body that it came with would wait with it.
    pub fn alone(mut self) -> Change {
        self.value = self.value.map(|value| Value::alone(&value));
        self
    }
}

/// What waits of a key that files have: for all agents, and by their own keys those for groups.
#[derive(Default)]
struct Values {
    for_all: Option<Change>,
    of_groups: BTreeMap<String, Change>,
}

impl Values {
    /// What waits for an agent of these groups.
    fn counting(&self, file: &str, groups: &[String]) -> Change {
        let value = |group: Option<&str>| {
            let change = match group {
                Some(group) => self.of_groups.get(&of_group(file, group)),
                None => self.for_all.as_ref(),
            };
            change?.value.clone()
        };
        let all = || self.of_groups.values().chain(&self.for_all);
        let newer = |one, other| if is_newer(one, other) { one } else { other };
        Change {
            value: that_counts(groups, value),
            first: all().map(|it| it.first).reduce(older).unwrap_or(0),
            last: all().map(|it| it.last).reduce(newer).unwrap_or(0),
        }
    }
}

/// The bytes of a value, as a part of the body that it came with.
#[derive(Clone, Debug)]
pub struct Value(Arc<Body>, Range<usize>);

impl Value {
    /// A value of this body. (One that lies elsewhere is copied.)
    fn of(body: &Arc<Body>, value: &[u8]) -> Value {
        let at = (value.as_ptr() as usize).wrapping_sub(body.bytes.as_ptr() as usize);
        match at.checked_add(value.len()).filter(|end| *end <= body.bytes.len()) {
            Some(end) => Value(body.clone(), at..end),
            None => Value::alone(value),
        }
    }

    fn alone(value: &[u8]) -> Value {
        Value(Arc::new(Body { item: 0, bytes: value.into() }), 0..value.len())
    }
}

impl Deref for Value {
    type Target = [u8];

    fn deref(&self) -> &[u8] {
        // (where that is spoilt, it is none)
        self.0.bytes.get(self.1.clone()).unwrap_or_default()
    }
}

impl Waiting {
    /// Takes what a body with this number says. A key that is none is left out.
    pub fn take(&mut self, body: &Arc<Body>, sequence: u64, meaning: &Meaning<'_>) {
        let (mut first, last) = (sequence, sequence);
        let (Meaning::Changes(entries) | Meaning::Table(entries)) = meaning else { return };
        if matches!(meaning, Meaning::Table(_)) {
            // (whatever waited waits for this table now)
            first = self.first().map_or(sequence, |first| older(first, sequence));
            self.changes.clear();
            self.whole = Some((first, last));
        }
        for (key, value) in entries {
            let value = value.map(|it| Value::of(body, it));
            self.put(key, Change { value, first, last });
        }
    }

    /// What waits may be older than all numbers: a whole table that makes up for what was left out
    /// brings changes of before.
    pub fn dates_back(&mut self) {
        self.whole = self.whole.map(|(_, last)| (0, last));
        self.changes.values_mut().for_each(|change| change.first = 0);
    }

    /// Whether nothing waits.
    pub fn is_empty(&self) -> bool {
        self.changes.is_empty() && self.whole.is_none()
    }

    /// How many changes wait.
    pub fn count(&self) -> usize {
        self.changes.len()
    }

    /// Puts a change in the place of the one of its key that waits.
    pub fn put(&mut self, key: &str, change: Change) {
        let mut waits = self.beside(key);
        if is_key(key) && waits.on_change(change.first, change.last) {
            self.insert(key, change.value, &waits);
        }
    }

    /// The numbers of what waits beside a key.
    fn beside(&self, key: &str) -> proved::Waits {
        let waits = self.changes.get(key);
        waits.map_or(proved::Waits::default(), |change| proved::Waits {
            first: change.first,
            last: change.last,
            is_there: 1,
        })
    }

    fn insert(&mut self, key: &str, value: Option<Value>, waits: &proved::Waits) {
        let (first, last) = (waits.first, waits.last);
        self.changes.insert(key.into(), Change { value, first, last });
    }

    /// What waits for an agent of these groups: under the key that its file has, [the value that
    /// counts](that_counts) of each setting. And beside that, as they are published, all values of
    /// the keys that have one for some group; what is none of these any more is unset.
    pub fn of_groups(mut self, groups: &[String]) -> (Waiting, Waiting) {
        let (mut all, whole) = (Waiting::default(), self.whole);
        all.whole = whole;
        // (what a whole table does not name is unset by it, and by its number; what came since has
        // its own)
        let is_since = |change: &Change| whole.is_none_or(|(_, last)| is_newer(change.last, last));
        let is_said = |change: &Change| change.value.is_some() || is_since(change);
        for (file, values) in self.take_grouped() {
            let counts = values.counting(&file, groups);
            if is_said(&counts) {
                self.changes.insert(file.clone(), counts.clone());
            }
            let has_groups = values.of_groups.values().any(|it| it.value.is_some());
            let unset = Change { value: None, ..counts };
            let for_all = (file, values.for_all.unwrap_or_else(|| unset.clone()));
            for (key, change) in values.of_groups.into_iter().chain([for_all]) {
                let change = if has_groups { change } else { unset.clone() };
                if is_said(&change) {
                    all.changes.insert(key, change);
                }
            }
        }
        (self, all)
    }

    /// Takes out what waits of keys that have values for groups, or had.
    fn take_grouped(&mut self) -> BTreeMap<String, Values> {
        let mut grouped: BTreeMap<String, Values> = BTreeMap::new();
        for key in self.changes.keys() {
            if let (file, Some(_)) = parts(key) {
                grouped.entry(file.to_owned()).or_default();
            }
        }
        if grouped.is_empty() {
            return grouped;
        }
        for (key, change) in core::mem::take(&mut self.changes) {
            match grouped.get_mut(parts(&key).0) {
                None => drop(self.changes.insert(key, change)),
                Some(values) if parts(&key).1.is_none() => values.for_all = Some(change),
                Some(values) => drop(values.of_groups.insert(key, change)),
            }
        }
        grouped
    }

    /// Whether a whole table waits.
    pub fn is_whole(&self) -> bool {
        self.whole.is_some()
    }

    /// Where a whole table waits: what is there, and nothing names, is to be unset.
    pub fn unset_others(&mut self, there: impl IntoIterator<Item = String>) {
        if let Some((first, last)) = self.whole {
            for key in there.into_iter().filter(|key| is_key(key)) {
                let mut waits = self.beside(&key);
                if waits.on_left_out(first, last) {
                    self.insert(&key, None, &waits);
                }
            }
        }
    }

    /// The oldest number that waits.
    pub fn first(&self) -> Option<u64> {
        let whole = self.whole.map(|(first, _)| first);
        self.changes.values().map(|change| change.first).chain(whole).reduce(older)
    }

    /// Whether a change of this key waits.
    pub fn has(&self, key: &str) -> bool {
        self.changes.contains_key(key)
    }

    /// The value that a key is to have, where a change of it waits that sets it.
    pub fn value(&self, key: &str) -> Option<&[u8]> {
        self.changes.get(key)?.value.as_deref()
    }

    /// Whether something that waits sets a key.
    pub fn sets(&self) -> bool {
        self.changes.values().any(|change| change.value.is_some())
    }

    /// Takes out the change that has waited longest.
    pub fn pop(&mut self) -> Option<(String, Change)> {
        self.pop_of(|_| true)
    }

    /// Takes out the one that has waited longest of those whose keys may go.
    pub fn pop_of(&mut self, may_go: impl Fn(&str) -> bool) -> Option<(String, Change)> {
        let changes = self.changes.iter().filter(|(key, _)| may_go(key));
        let oldest = changes.reduce(|one, other| {
            if older(one.1.first, other.1.first) == one.1.first {
                one
            } else {
                other
            }
        });
        let key = oldest?.0.clone();
        self.changes.remove_entry(&key)
    }

    /// All changes, in the order in which they were published.
    pub fn in_order(self) -> Vec<(String, Change)> {
        let mut all: Vec<_> = self.changes.into_iter().collect();
        // (counted from one of them, since numbers go round)
        let from = all.first().map_or(0, |(_, change)| change.last);
        all.sort_by_key(|(_, change)| change.last.wrapping_sub(from) as i64);
        all
    }
}

rignolda::spoils! { Waiting { changes, whole } }
rignolda::spoils! { Change { value, first, last } }
rignolda::spoils! { Value { 0, 1 } }

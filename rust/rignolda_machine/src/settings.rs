//! Settings that travel down a tree: a key, which is a text, and a value, which is bytes.
//!
//! The root has a [`Publisher`]: changes that wait are merged, and a round brings all settings
//! anew. Every agent has a [`Table`], which says of each body whether it is to be applied; where
//! that takes longer than they come, [`Waiting`] merges them.
//!
//! So after any fault of any agents all have the root's settings after two rounds: one under way,
//! and a whole one. A round needs [enough harmless items](Publisher::begin_round), and gets to all
//! before the next one begins. Before [each table](Publisher::is_table_next) the root takes [its
//! settings](Publisher::replace) anew from where they are kept, since what it remembers may be
//! spoiled too; and each agent looks at all of its files when [that of a round](Heard::looks)
//! comes.
//!
//! ```
//! use rignolda_machine::settings::{Meaning, Publisher, Table};
//!
//! let (mut publisher, mut table) = (Publisher::new(7), Table::default());
//! publisher.set("colour", b"red".to_vec());
//! publisher.set("colour", b"blue".to_vec());
//! let published = publisher.next(100).expect("the whole table comes first");
//! let (sequence, meaning) = published.body.meaning().expect("it fits its item");
//! assert_eq!(meaning, Meaning::Table(vec![("colour", Some(b"blue"))]));
//! assert!(table.takes(sequence, &meaning) && table.heard.applies);
//! assert!(publisher.next(100).is_none());
//! ```
#![warn(missing_docs)]
use crate::net::wire::HEAD_BYTES;
use crate::net::Body;
use crate::prelude::*;
use alloc::collections::BTreeMap;
use alloc::sync::Arc;

mod found;
mod groups;
#[allow(unsafe_code)]
pub(crate) mod proved;
mod publisher;
mod waiting;

pub use found::{no_key, Faults, Found};
pub use groups::{is_group, of_group, parts, published_by, shown, that_counts, values_of};
pub use proved::Taker;
pub use publisher::{differences, Published, Publisher};
pub use waiting::{Change, Value, Waiting};

/// The longest key of a setting, in bytes.
pub const KEY_BYTES: usize = 128;
/// The longest value of a setting, in bytes.
pub const VALUE_BYTES: usize = 1 << 20;
/// How many settings there are at most.
pub const SETTINGS: usize = 1 << 16;
/// How many bytes a body with entries has before them.
const HEAD: usize = 13;

/// Whether this may be the key of a setting, by the rule of [names](crate::net::is_name). So a key
/// is a file's name, and no file whose name begins with a dot is a setting.
pub fn is_key(text: &str) -> bool {
    (1..=KEY_BYTES).contains(&text.len())
        && !text.starts_with(['.', '-'])
        && text.bytes().all(|b| b.is_ascii_alphanumeric() || b"._-".contains(&b))
}

/// The key that a file of this name has, if it is one.
pub fn as_key(name: &str) -> Option<String> {
    is_key(name).then(|| name.into())
}

/// What a body says.
///
/// A body is `kind u8 | sequence u64 | rest`, numbers in big-endian order. A harmless one has no
/// rest. That of changes and of a whole table is `count u32` and `count` entries, in the order of
/// the keys: `'S' | length u8 | key | length u32 | value`, or `'U' | length u8 | key`.
#[derive(Clone, Debug, PartialEq, Eq)]
pub enum Meaning<'a> {
    /// Settings that changed: each key once, with its value, or with none where it is unset.
    Changes(Vec<Entry<'a>>),
    /// All settings: what is not named here is unset.
    Table(Vec<Entry<'a>>),
    /// Nothing: it may be lost, or come at any time.
    Harmless,
}

impl Meaning<'_> {
    /// The byte with which its bodies begin.
    fn kind(&self) -> u8 {
        match self {
            Meaning::Changes(_) => b'C',
            Meaning::Table(_) => b'T',
            Meaning::Harmless => b'H',
        }
    }
}

/// A key, and its value, unless it is unset.
pub type Entry<'a> = (&'a str, Option<&'a [u8]>);

impl Body {
    /// A body that says this, under a sequence number. Where none can, since a key or a value is
    /// too long, it is one without bytes, which says nothing.
    pub fn new(sequence: u64, meaning: &Meaning<'_>) -> Arc<Body> {
        let entries = match meaning {
            Meaning::Changes(entries) | Meaning::Table(entries) => entries.as_slice(),
            Meaning::Harmless => &[],
        };
        let rest: usize = entries.iter().map(entry_bytes).sum();
        let bytes = proved::body(meaning.kind(), sequence, entries, HEAD + rest);
        Arc::new(Body::of(bytes))
    }

    /// The sequence and what the body says, or nothing where it does not fit its item or says
    /// nothing that [`Body::new`] writes.
    pub fn meaning(&self) -> Option<(u64, Meaning<'_>)> {
        let head = proved::body_head(self.item, &self.bytes)?;
        let mut entries = Vec::with_capacity(head.count as usize);
        let mut at = HEAD;
        for _ in 0..head.count {
            let (entry, end) = proved::body_entry(&self.bytes, at)?;
            entries.push(entry);
            at = end;
        }
        let meaning = match head.kind as u8 {
            b'C' => Meaning::Changes(entries),
            b'T' => Meaning::Table(entries),
            _ => Meaning::Harmless,
        };
        Some((head.number, meaning))
    }
}

/// The whole table that begins so, made of what an agent keeps: the last whole one, and what came
/// since, in this order.
///
/// ```
/// use rignolda_machine::settings::{table_of, Meaning};
/// use rignolda_machine::net::Body;
///
/// let table = Body::new(5, &Meaning::Table(vec![("a", Some(b"1")), ("b", Some(b"2"))]));
/// let change = Body::new(6, &Meaning::Changes(vec![("a", None), ("c", Some(b"3"))]));
/// let next = Body::new(9, &Meaning::Table(vec![("b", Some(b"2")), ("c", Some(b"3"))]));
/// let head = next.bytes[..9].try_into()?;
/// assert_eq!(table_of(&head, &[&table, &change]), Some(next));
/// # Ok::<(), std::array::TryFromSliceError>(())
/// ```
pub fn table_of(head: &[u8; HEAD_BYTES], since: &[&Body]) -> Option<Arc<Body>> {
    let (first, rest) = since.split_first()?;
    let mut settings: BTreeMap<&str, &[u8]> = match first.meaning()? {
        (_, Meaning::Table(all)) => all.into_iter().filter_map(set).collect(),
        _ => return None,
    };
    for (_, meaning) in rest.iter().filter_map(|body| body.meaning()) {
        match meaning {
            Meaning::Table(all) => settings = all.into_iter().filter_map(set).collect(),
            Meaning::Changes(changes) => changes.into_iter().for_each(|(key, value)| match value {
                Some(value) => drop(settings.insert(key, value)),
                None => drop(settings.remove(key)),
            }),
            Meaning::Harmless => (),
        }
    }
    let all = settings.into_iter().map(|(key, value)| (key, Some(value)));
    let [_, number @ ..] = *head;
    let table = Body::new(u64::from_be_bytes(number), &Meaning::Table(all.collect()));
    Some(table).filter(|it| it.bytes.starts_with(head))
}

fn set<'a>((key, value): Entry<'a>) -> Option<(&'a str, &'a [u8])> {
    value.map(|value| (key, value))
}

/// How many bytes of a body an entry takes.
pub fn entry_bytes((key, value): &Entry<'_>) -> usize {
    2 + key.len() + value.map_or(0, |value| 4 + value.len())
}

/// Whether a body with this number is newer than one with that. Numbers go round, past 0, which is
/// none and older than all: the newer one is less than half of them ahead.
pub fn is_newer(number: u64, than: u64) -> bool {
    proved::is_newer(than, number)
}

/// The older one of two numbers; 0 is older than all.
pub fn older(one: u64, other: u64) -> u64 {
    if is_newer(one, other) {
        other
    } else {
        one
    }
}

/// Of these numbers the one that is furthest ahead of this one; itself where none is.
pub fn furthest(number: u64, others: impl IntoIterator<Item = u64>) -> u64 {
    let further = |one, other| proved::further(number, one, other);
    others.into_iter().fold(number, further)
}

/// How many harmless items a round needs in a tree this deep: the sharper bound of the deepest
/// agent, one by which it is known to be a round, and one to spare.
pub fn harmless_for(depth: u32) -> u32 {
    depth.saturating_mul(2).saturating_add(3)
}

/// What an agent does with a body.
#[derive(Clone, Copy, Debug, Default, PartialEq, Eq)]
pub struct Heard {
    /// Whether it takes it.
    pub takes: bool,
    /// Whether what waited before it is dropped: it lacks something, and is older than the files.
    pub drops: bool,
    /// Whether it applies it, with all that waited. Else what was taken waits.
    pub applies: bool,
    /// Whether it is a whole table that makes up for something: the first one, or a number was left
    /// out before it. It may bring changes that are older than itself.
    pub fills: bool,
    /// Whether it is the whole table of a round, or one that makes up for something: then all files
    /// are to be looked at. Others come between rounds.
    pub looks: bool,
}

/// What an agent does with bodies: [which of them it takes](Taker), and which settings there are.
/// What would make more of them, or more bytes of them, than a root may have is left out.
///
/// Nothing of it has to be right: a spoiled one is right after a whole round, or, where its numbers
/// are ahead, once the root has [gone above them](Publisher::go_above).
#[derive(Debug, Default)]
pub struct Table {
    /// The numbers.
    pub taker: Taker,
    /// What was done with the last body that was taken.
    pub heard: Heard,
    /// The number of the last whole table.
    pub round: u64,
    /// The keys of all settings, and how many bytes of a whole table each takes.
    pub keys: BTreeMap<String, usize>,
    /// The number of the last body that changed something, as far as can be seen here.
    pub changed: u64,
    /// Whether what a body said was left out, since there was no room. A whole table ends it.
    pub full: bool,
    /// Bodies that were older than the last, and not taken.
    pub strays: u64,
    /// How often a number was left out before a body that is no whole table.
    pub gaps: u64,
    /// What all settings take.
    room: proved::Room,
}

impl Table {
    /// Whether to take a body that came now. Whether to apply it, `heard` says. What there is no
    /// room for is as if it did not come.
    pub fn takes(&mut self, sequence: u64, meaning: &Meaning<'_>) -> bool {
        let before = self.taker.number;
        if let Meaning::Changes(entries) = meaning {
            if is_newer(sequence, before) && !self.has_room(entries) {
                self.misses();
                return false;
            }
        }
        let heard = self.taker.hears(meaning.kind(), sequence);
        if !heard.takes {
            self.strays += 1;
            return false;
        }
        self.heard = heard;
        let is_gap = before != 0 && sequence != proved::next(before);
        self.gaps += u64::from(is_gap && !matches!(meaning, Meaning::Table(_)));
        match meaning {
            Meaning::Table(entries) => {
                self.round = sequence;
                self.changed = if heard.fills { sequence } else { self.changed };
                self.full = false;
                let keys = entries.iter().map(|it| (it.0.to_owned(), entry_bytes(it)));
                self.keys = keys.collect();
                self.room = self.keys.values().copied().collect();
            }
            Meaning::Changes(entries) => entries.iter().for_each(|it| {
                self.changed = sequence;
                let old = match it.1 {
                    Some(_) => self.keys.insert(it.0.to_owned(), entry_bytes(it)),
                    None => self.keys.remove(it.0),
                };
                self.room.change(old.unwrap_or(0), it.1.map_or(0, |_| entry_bytes(it)));
            }),
            Meaning::Harmless => (),
        }
        true
    }

    /// What a body says is left out, for want of room: a whole table is waited for.
    pub fn misses(&mut self) {
        self.taker.misses();
        self.full = true;
    }

    /// Whether there is room for these changes.
    fn has_room(&self, entries: &[Entry<'_>]) -> bool {
        let mut room = self.room;
        for it in entries {
            let old = self.keys.get(it.0).copied();
            room.change(old.unwrap_or(0), it.1.map_or(0, |_| entry_bytes(it)));
        }
        room.fits()
    }
}

rignolda::spoils! { Heard { takes, drops, applies, fills, looks } }
rignolda::spoils! { Table { taker, heard, round, keys, changed, full, strays, gaps, room } }

//! What the root publishes.
use super::groups::{parts, values_of};
use super::{entry_bytes, proved, Entry, Meaning, HEAD, SETTINGS, VALUE_BYTES};
use crate::net::{Body, BODY_BYTES};
use crate::prelude::*;
use alloc::collections::{BTreeMap, BTreeSet, VecDeque};
use alloc::sync::Arc;

/// All settings, as the root has them, and which bodies it publishes.
///
/// Changes that wait are merged: of each key the last value alone is published. A round is a number
/// of harmless items and then the whole table; while changes come, they and the harmless items take
/// turns. Which body is next, its number and what it has of all this is said by calls of the proved
/// library; its crate `rignolda_agent` has the laws.
///
/// A key may have values for [groups](super::parts) besides the one for all. A body that has one of
/// them has all that are set: so whoever takes it needs nothing else to see which one counts.
#[derive(Debug)]
pub struct Publisher {
    settings: BTreeMap<String, Vec<u8>>,
    /// What a whole table of them takes.
    room: proved::Room,
    /// The keys whose last value is not published yet, behind the one that files have; and these in
    /// the order in which they came.
    changed: BTreeMap<String, BTreeSet<String>>,
    order: VecDeque<String>,
    numbers: proved::Publisher,
}

/// A body to publish.
#[derive(Debug)]
#[non_exhaustive]
pub struct Published {
    /// The body.
    pub body: Arc<Body>,
    /// Whether it is a whole table.
    pub is_table: bool,
    /// The keys of those changes that were waiting and are in it.
    pub keys: BTreeSet<String>,
}

/// What has to be changed to make these settings those: each key with its new value, and then those
/// that are unset, with none.
///
/// ```
/// use rignolda_machine::settings::differences;
///
/// let all = |all: &[(&str, &str)]| all.iter().map(|it| (it.0.into(), it.1.into())).collect();
/// let (old, new) = (all(&[("a", "1"), ("b", "2"), ("c", "3")]), all(&[("a", "1"), ("c", "4")]));
/// assert_eq!(differences(&old, &new), [("c", Some(&b"4"[..])), ("b", None)]);
/// ```
pub fn differences<'a>(
    old: &'a BTreeMap<String, Vec<u8>>,
    new: &'a BTreeMap<String, Vec<u8>>,
) -> Vec<Entry<'a>> {
    let set = new.iter().filter(|(key, value)| old.get(*key) != Some(value));
    let set = set.map(|(key, value)| (key.as_str(), Some(value.as_slice())));
    let gone = old.keys().filter(|key| !new.contains_key(*key));
    set.chain(gone.map(|key| (key.as_str(), None))).collect()
}

impl Publisher {
    /// A publisher without settings, whose bodies have the numbers after this one: to be above
    /// those of an earlier life, it may be that of a clock. It begins with the whole table,
    /// unless it is [held](Publisher::hold).
    pub fn new(sequence: u64) -> Publisher {
        Publisher {
            settings: BTreeMap::new(),
            room: proved::Room::default(),
            changed: BTreeMap::new(),
            order: VecDeque::new(),
            numbers: proved::Publisher::new(sequence),
        }
    }

    /// All settings.
    pub fn settings(&self) -> &BTreeMap<String, Vec<u8>> {
        &self.settings
    }

    /// What these settings take.
    pub(crate) fn room_of(settings: &BTreeMap<String, Vec<u8>>) -> proved::Room {
        settings.iter().map(|(key, value)| entry_bytes(&(key, Some(value)))).collect()
    }

    /// Whether there is room for this setting beside all others.
    pub fn has_room(&self, key: &str, value: &[u8]) -> bool {
        let mut room = self.room;
        room.change(self.bytes_at(key), entry_bytes(&(key, Some(value))));
        value.len() <= VALUE_BYTES && room.fits()
    }

    /// How many bytes of them are this setting's.
    fn bytes_at(&self, key: &str) -> usize {
        let old = self.settings.get(key);
        old.map_or(0, |old| entry_bytes(&(key, Some(old))))
    }

    /// Makes a setting. It is published even where it is as it was.
    pub fn set(&mut self, key: &str, value: Vec<u8>) {
        self.changes(key);
        self.room.change(self.bytes_at(key), entry_bytes(&(key, Some(&value))));
        self.settings.insert(key.into(), value);
    }

    /// Removes a setting.
    pub fn unset(&mut self, key: &str) {
        self.changes(key);
        self.room.change(self.bytes_at(key), 0);
        self.settings.remove(key);
    }

    /// A change of this key waits, at the place of the one that waits already.
    fn changes(&mut self, key: &str) {
        let file = parts(key).0;
        match self.changed.get_mut(file) {
            Some(keys) => drop(keys.insert(key.into())),
            None => {
                self.order.push_back(file.into());
                self.changed.insert(file.into(), [key.into()].into());
            }
        }
    }

    /// Makes a setting, or, without a value, removes it, as [`set`](Publisher::set) and
    /// [`unset`](Publisher::unset) do.
    pub fn put(&mut self, key: &str, value: Option<Vec<u8>>) {
        match value {
            Some(value) => self.set(key, value),
            None => self.unset(key),
        }
    }

    /// Takes all settings anew: what differs is published.
    pub fn replace(&mut self, settings: BTreeMap<String, Vec<u8>>) {
        let differ = differences(&self.settings, &settings).into_iter();
        let differ: Vec<String> = differ.map(|(key, _)| key.to_owned()).collect();
        self.room = Publisher::room_of(&settings);
        self.settings = settings;
        differ.iter().for_each(|key| self.changes(key));
    }

    /// The keys whose last value is not published yet, each with this value, or none where it is
    /// unset.
    pub fn changed(&self) -> impl Iterator<Item = Entry<'_>> {
        self.changed.values().flatten().map(|key| self.entry(key))
    }

    fn entry<'a>(&'a self, key: &'a str) -> Entry<'a> {
        (key, self.settings.get(key).map(Vec::as_slice))
    }

    /// A round with `harmless` harmless items begins, 65,535 at most. One that is under way goes on
    /// instead, with no more items than that. Where the deepest agent is `d` links below the root,
    /// `2 * d + 3` are enough: more than can be missing after a fault, so that each agent gets some
    /// of them.
    ///
    /// Unless it is [held](Publisher::hold), the table comes after `4 * harmless + 1` other bodies
    /// at most, while no agent says a newer number.
    pub fn begin_round(&mut self, harmless: u32) {
        self.numbers.begin_round(harmless);
    }

    /// Goes on above this number, where it is ahead: an agent has it, so it would take nothing
    /// else. The whole table comes next. Whether it was ahead.
    ///
    /// Where it is ahead by more than a quarter of all numbers, this goes on by a quarter alone, so
    /// that those who have the last number take that table. Once it is published, this is called
    /// again.
    pub fn go_above(&mut self, number: u64) -> bool {
        self.numbers.go_above(number)
    }

    /// Whether a round is under way.
    pub fn is_in_a_round(&self) -> bool {
        self.numbers.is_in_a_round()
    }

    /// Publishes no table from now on, or does again: as long as a setting is there whose value is
    /// not known, a table would unset it. Changes alone are published then, and no round.
    pub fn hold(&mut self, holds: bool) {
        self.numbers.hold(holds);
    }

    /// Whether something waits to be published.
    pub fn waits(&self) -> bool {
        self.numbers.waits(self.changed.len())
    }

    /// Whether a change waits, or the first table.
    pub fn is_changed(&self) -> bool {
        self.is_table_first() || !self.changed.is_empty()
    }

    /// Whether a table is due before all else: the first one, or one with a number that it went
    /// [above](Publisher::go_above).
    pub fn is_table_first(&self) -> bool {
        self.numbers.is_table_first()
    }

    /// Whether the next body is the whole table, where `limit` items may follow one at most. Before
    /// that the root takes [its settings](Publisher::replace) anew, since what it remembers may be
    /// spoiled.
    pub fn is_table_next(&self, limit: u64) -> bool {
        self.next_body(limit).kind == b'T'
    }

    /// The number of the next body, where one [waits](Publisher::waits).
    pub fn next_number(&self, limit: u64) -> u64 {
        self.next_body(limit).number
    }

    fn next_body(&self, limit: u64) -> proved::NextBody {
        self.numbers.next(self.changed.len(), self.settings.len(), limit)
    }

    /// All that there is to say of a key that files have: the values that are set, and behind them
    /// what is unset since the last body.
    fn entries_of<'a>(&'a self, file: &'a str) -> Vec<Entry<'a>> {
        let set = values_of(&self.settings, file);
        let set = set.map(|(key, value)| (key.as_str(), Some(&value[..])));
        let changed = self.changed.get(file).into_iter().flatten();
        let unset = changed.map(|key| self.entry(key)).filter(|it| it.1.is_none());
        set.chain(unset).collect()
    }

    /// What a body says of the first keys that changed, this many at most, and of how many. (Of
    /// those that unset keys and those that set others there may be more than it has room for.)
    fn changes_of(&self, most: usize) -> (Vec<Entry<'_>>, usize) {
        let (mut entries, mut room, mut count) = (Vec::new(), BODY_BYTES - HEAD, 0);
        for file in self.order.iter().take(most) {
            let mut own = self.entries_of(file);
            let mut bytes = own.iter().map(entry_bytes).sum::<usize>();
            let lacks =
                |own: &[Entry<'_>], bytes| bytes > room || entries.len() + own.len() > SETTINGS;
            // (all that is set has room in a table, and which of the others are unset, that says
            // too)
            while count == 0 && lacks(&own, bytes) {
                bytes -= own.pop().map_or(bytes, |last| entry_bytes(&last));
            }
            if lacks(&own, bytes) {
                break;
            }
            room -= bytes;
            count += 1;
            entries.append(&mut own);
        }
        entries.sort_unstable_by_key(|entry| entry.0);
        (entries, count)
    }

    /// The next body to publish. `limit`: how many items may follow a table at most.
    #[must_use = "it counts as published"]
    pub fn next(&mut self, limit: u64) -> Option<Published> {
        if self.order.len() != self.changed.len() {
            // (one is spoilt; and what has no place in the order would never be published)
            self.order = self.changed.keys().cloned().collect();
        }
        let (next, changes) = (self.next_body(limit), self.changed.len());
        let (meaning, files) = match next.kind {
            0 => return None,
            b'H' => (Meaning::Harmless, 0),
            b'C' => {
                let (entries, files) = self.changes_of(next.entries as usize);
                (Meaning::Changes(entries), files)
            }
            _ => {
                let all = self.settings.iter().take(next.entries as usize);
                let all = all.map(|(key, value)| (key.as_str(), Some(value.as_slice())));
                (Meaning::Table(all.collect()), self.order.len())
            }
        };
        let body = Body::new(next.number, &meaning);
        self.numbers.publish(changes, limit, body.bytes.len());
        let files = self.order.drain(..files);
        let keys = files.filter_map(|file| self.changed.remove(&file)).flatten();
        let keys = keys.collect();
        Some(Published { body, is_table: next.kind == b'T', keys })
    }
}

rignolda::spoils! { Publisher { settings, room, changed, order, numbers } }
rignolda::spoils! { Published { body, is_table, keys } }

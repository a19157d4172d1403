//! How much waits for the disk of what was asked for.
use crate::prelude::*;
use crate::settings::{entry_bytes, Publisher};

/// How many changes wait at most, of whatever keys.
const CHANGES: usize = 1 << 12;

/// What a change may add to what is published.
#[derive(Clone, Copy, Debug, Default, PartialEq)]
pub struct Cost {
    changes: usize,
    keys: usize,
    bytes: usize,
}

impl Cost {
    /// That of a change, as if whatever it takes away stayed: it may fail.
    pub fn of(settings: &BTreeMap<String, Vec<u8>>, key: &str, value: Option<&[u8]>) -> Cost {
        let is_new = value.is_some() && !settings.contains_key(key);
        let bytes = value.map_or(0, |_| entry_bytes(&(key, value)));
        Cost { changes: 1, keys: is_new.into(), bytes }
    }
}

/// What waits. It is counted each time, so that a wrong count lasts no longer than what it is of.
#[derive(Debug, Default)]
pub struct Asks(Cost);

impl FromIterator<Cost> for Asks {
    fn from_iter<I: IntoIterator<Item = Cost>>(all: I) -> Asks {
        let add = |sum: Cost, more: Cost| Cost {
            changes: sum.changes.saturating_add(more.changes),
            keys: sum.keys.saturating_add(more.keys),
            bytes: sum.bytes.saturating_add(more.bytes),
        };
        Asks(all.into_iter().fold(Cost::default(), add))
    }
}

impl Asks {
    /// Whether there is room for one more beside these settings and what waits.
    pub fn has_room(&self, settings: &BTreeMap<String, Vec<u8>>, more: Cost) -> bool {
        let Cost { changes, keys, bytes } = self.0;
        let all = || {
            let room = Publisher::room_of(settings).beside(keys, bytes);
            room.beside(more.keys, more.bytes)
        };
        // (one alone was looked at already, with what it takes the place of)
        changes == 0 || changes < CHANGES && (more.bytes == 0 || all().fits())
    }
}

rignolda::spoils! { Cost { changes, keys, bytes } }
rignolda::spoils! { Asks { 0 } }

#[cfg(test)]
mod tests {
    use super::*;
    use crate::settings::SETTINGS;

    #[test]
    fn what_adds_nothing_has_room_beside_as_many_settings_as_may_be() {
        let mut settings: BTreeMap<String, Vec<u8>> =
            (1..SETTINGS).map(|at| (format!("k{at}"), Vec::new())).collect();
        let asks = |all: &[Cost]| all.iter().copied().collect::<Asks>();
        let cost = |settings: &_, key, value| Cost::of(settings, key, value);
        let old = cost(&settings, "k1", Some(&b"2"[..]));
        let (new, none) = (cost(&settings, "new", Some(&b"1"[..])), cost(&settings, "k2", None));
        assert!([old, new, none].iter().all(|it| asks(&[]).has_room(&settings, *it)));
        assert!([old, new, none].iter().all(|it| asks(&[old]).has_room(&settings, *it)));
        let both = asks(&[old, new]);
        assert!(both.has_room(&settings, old) && both.has_room(&settings, none));
        assert!(!both.has_room(&settings, new));
        settings.insert("k0".into(), Vec::new());
        let one = asks(&[old]);
        assert!(one.has_room(&settings, none) && !one.has_room(&settings, new));
        // (whatever it is, not too much of it waits)
        assert!(!asks(&[none; CHANGES + 1]).has_room(&settings, none));
    }
}

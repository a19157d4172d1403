//! Where connections come from, and which of those that wait goes where there are too many.
use crate::prelude::*;
use alloc::collections::BTreeMap;
use core::net::{IpAddr, Ipv6Addr, SocketAddr};

/// Where a connection comes from: what somebody has few of, unlike ports, or addresses of IPv6.
#[derive(Clone, Copy, Debug, Default, PartialEq, Eq, PartialOrd, Ord, Hash)]
#[non_exhaustive]
pub enum Origin {
    /// This machine, or nobody knows.
    #[default]
    Here,
    /// An address of IPv4.
    V4([u8; 4]),
    /// The first half of an address of IPv6: whoever has one such address has all of that half.
    V6([u8; 8]),
    /// An address that was called: whoever calls knows few, so each port is one by itself.
    Called(SocketAddr),
    /// The agent itself, which looks from outside whether it can be reached: what becomes of that
    /// is nobody's business but its own, so it is neither counted nor said.
    Own,
}

/// ```
/// use rignolda_machine::net::Origin;
///
/// let origin = |text: &str| Origin::from(text.parse::<std::net::IpAddr>().unwrap());
/// assert_eq!(origin("2001:db8:1:2::3"), origin("2001:db8:1:2:ffff::"));
/// assert_ne!(origin("2001:db8:1:2::3"), origin("2001:db8:1:3::3"));
/// // (so an address of IPv4 looks where both are listened for)
/// assert_eq!(origin("::ffff:127.0.0.1"), origin("127.0.0.1"));
/// ```
impl From<IpAddr> for Origin {
    fn from(address: IpAddr) -> Origin {
        let six = |it: Ipv6Addr| match it.octets() {
            [0, 0, 0, 0, 0, 0, 0, 0, 0, 0, 0xff, 0xff, a, b, c, d] => Origin::V4([a, b, c, d]),
            [a, b, c, d, e, f, g, h, ..] => Origin::V6([a, b, c, d, e, f, g, h]),
        };
        match address {
            IpAddr::V4(it) => Origin::V4(it.octets()),
            IpAddr::V6(it) => six(it),
        }
    }
}

/// Where those are that proved their names: of each the place from which it connected last.
#[derive(Debug, Default)]
pub(super) struct Known {
    of: BTreeMap<String, Origin>,
    /// How many are at each place.
    at: BTreeMap<Origin, usize>,
}

impl Known {
    /// Who proved this name is there.
    pub(super) fn insert(&mut self, name: &str, origin: Origin) {
        if self.of.get(name) == Some(&origin) {
            return;
        }
        self.remove(name);
        self.of.insert(name.into(), origin);
        *self.at.entry(origin).or_insert(0) += 1;
    }

    fn remove(&mut self, name: &str) {
        let origin = self.of.remove(name);
        if let Some((origin, count)) = origin.and_then(|it| Some((it, self.at.get_mut(&it)?))) {
            *count = count.saturating_sub(1);
            if *count == 0 {
                self.at.remove(&origin);
            }
        }
    }

    /// Whether somebody is there.
    pub(super) fn has(&self, origin: &Origin) -> bool {
        self.at.contains_key(origin)
    }

    /// Of these names alone it is kept; and what was spoiled is counted again.
    pub(super) fn keep(&mut self, is: impl Fn(&str) -> bool) {
        self.of.retain(|name, _| is(name));
        self.at.clear();
        for origin in self.of.values() {
            *self.at.entry(*origin).or_insert(0) += 1;
        }
    }
}

/// How much the other end of a line has shown of who it is.
#[derive(Clone, Copy, Debug, Default, PartialEq, Eq, PartialOrd, Ord)]
pub enum Shown {
    /// Nothing came.
    #[default]
    Nothing,
    /// Something came, and says nothing yet.
    Something,
    /// Its certificate, which was verified.
    Certificate,
}

/// Which of those that wait goes, where one is too many. Each has its number, of which an older one
/// has a smaller one, its origin, and how much it has shown. Those that are alike in both drive out
/// their own: it is the oldest of the most that are alike, and where as many of others are too, of
/// those that have shown least.
pub(super) fn one_too_many<S: Ord + Copy>(
    waiting: impl Iterator<Item = (u64, Origin, S)> + Clone,
) -> Option<u64> {
    let mut counts = BTreeMap::new();
    for (_, origin, shown) in waiting.clone() {
        *counts.entry((origin, shown)).or_insert(0_usize) += 1;
    }
    let most = counts.values().copied().max()?;
    let may_go = waiting.filter(|(_, origin, shown)| counts[&(*origin, *shown)] == most);
    may_go.min_by_key(|it| (it.2, it.0)).map(|it| it.0)
}

rignolda::spoils! { Known { of, at } }
rignolda::spoils_one_of! { Origin { Here, Own } V4(at), V6(at) }
rignolda::spoils_one_of! { Shown { Nothing, Something, Certificate } }

#[cfg(test)]
mod tests {
    use super::*;

    /// Those that wait, and which one goes.
    type Row = (&'static [(u64, Origin, u8)], Option<u64>);

    #[test]
    fn of_each_name_the_last_place_is_known() {
        let [one, two] = [1, 2].map(|it| Origin::V4([127, 0, 0, it]));
        let mut known = Known::default();
        let places = |known: &Known| [one, two].map(|it| known.has(&it));
        for (name, origin, expected) in [
            ("a", one, [true, false]),
            ("a", one, [true, false]),
            ("b", one, [true, false]),
            ("a", two, [true, true]),
            ("b", two, [false, true]),
        ] {
            known.insert(name, origin);
            assert_eq!(places(&known), expected);
        }
        known.at = BTreeMap::from([(one, 7)]);
        known.keep(|name| name == "a");
        assert_eq!(places(&known), [false, true]);
        known.insert("a", one);
        assert_eq!(places(&known), [true, false]);
        known.keep(|_| false);
        assert_eq!(places(&known), [false, false]);
    }

    #[test]
    fn who_has_the_most_drives_out_its_own() {
        const ONE: Origin = Origin::V4([127, 0, 0, 1]);
        const TWO: Origin = Origin::V4([127, 0, 0, 2]);
        let rows: [Row; 6] = [
            (&[], None),
            (&[(1, ONE, 0), (2, TWO, 0), (3, TWO, 0)], Some(2)),
            // (an only one stays, whatever it has shown)
            (&[(1, ONE, 0), (2, TWO, 9), (3, TWO, 9)], Some(2)),
            (&[(1, ONE, 1), (2, ONE, 0), (3, ONE, 0)], Some(2)),
            (&[(1, ONE, 1), (2, ONE, 0), (3, TWO, 0)], Some(2)),
            (&[(1, ONE, 0), (2, Origin::Here, 0), (3, Origin::Here, 0)], Some(2)),
        ];
        for (waiting, expected) in rows {
            let goes = one_too_many(waiting.iter().copied());
            assert_eq!(goes, expected, "{:?}", waiting);
        }
    }
}

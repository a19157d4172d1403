//! What the root holds back of its folder until somebody confirms it, so that a folder of which a
//! part is missing, as of a mount, does not unset everything.
use crate::config::Root as Config;
use crate::control::{Diff, Difference};
use crate::net::checksum;
use crate::prelude::*;
use crate::settings::{shown, Entry};
use crate::sha::{hexadecimal, Sha256};
use crate::Time;
use core::time::Duration;

/// For how long a setting counts that went by a change of the folder: so it makes no difference
/// whether many go at once, or one after the other.
pub const WINDOW: Duration = Duration::from_secs(3_600);

/// What of the folder is not published yet.
pub fn diff<'a>(changes: impl IntoIterator<Item = Entry<'a>>, held: String, sha: Sha256) -> Diff {
    let changes: Vec<Entry<'a>> = changes.into_iter().collect();
    let digest = digest_of(&changes, sha);
    let difference = |(key, value): Entry<'a>| {
        let bytes = value.map(|it| it.len() as u64);
        Difference { key: shown(key).into(), bytes }
    };
    Diff { held, digest, changes: changes.into_iter().map(difference).collect() }
}

/// The digest of changes: the SHA-256 of all of them in the order of their keys, each as the length
/// of its key in 8 bytes, the key, a byte 1 and the length of its value in 8 bytes and the value;
/// or a byte 0, where it is unset. So no other changes have it. That of no changes is empty.
fn digest_of(changes: &[Entry<'_>], sha: Sha256) -> String {
    let mut in_order: Vec<&Entry<'_>> = changes.iter().collect();
    in_order.sort_unstable_by_key(|it| it.0);
    let head = |(key, value): &Entry<'_>| {
        let length = (key.len() as u64).to_be_bytes();
        let mut head = [&length, key.as_bytes(), &[value.is_some().into()]].concat();
        head.extend(value.iter().flat_map(|it| (it.len() as u64).to_be_bytes()));
        head
    };
    let heads: Vec<Vec<u8>> = in_order.iter().map(|it| head(it)).collect();
    let parts = heads.iter().zip(&in_order);
    let parts = parts.flat_map(|(head, it)| [&head[..], it.1.unwrap_or(&[])]);
    match changes {
        [] => String::new(),
        _ => hexadecimal(&sha(&parts.collect::<Vec<_>>())),
    }
}

/// The settings that a change of the folder may take but a part of.
///
/// They are those of the last round, and not what is published now: what came since is no part of
/// them. So they are a copy, and it is [looked at](Guard::mend) before it counts: one that is
/// spoiled is made anew of what is published. It is never made of what the folder has, since a part
/// of that may be missing.
#[derive(Debug, Default)]
pub struct Guard {
    /// Those of the last round, and those that went not long before.
    had: BTreeSet<String>,
    /// When those went that a change of the folder took, and nobody asked for that.
    gone: BTreeMap<String, Time>,
    /// The sums of the digests of these keys, and of those.
    sums: [u64; 2],
}

/// The sum of the digests of these keys.
fn sum<'a>(keys: impl IntoIterator<Item = &'a String>) -> u64 {
    let digest = |key: &String| u64::from(checksum(key.as_bytes()));
    keys.into_iter().map(digest).fold(0, u64::wrapping_add)
}

impl Guard {
    /// It counts from these settings, and those that went not long before.
    pub fn new(
        had: impl IntoIterator<Item = String>,
        gone: impl IntoIterator<Item = String>,
        now: Time,
    ) -> Guard {
        let gone: BTreeMap<_, _> = gone.into_iter().map(|key| (key, now)).collect();
        let had: BTreeSet<_> = had.into_iter().chain(gone.keys().cloned()).collect();
        Guard { sums: [sum(&had), sum(gone.keys())], had, gone }
    }

    fn sums(&self) -> [u64; 2] {
        [sum(&self.had), sum(self.gone.keys())]
    }

    /// To be called before it counts: what is spoiled of it is made anew. These keys are published:
    /// so they are what it had without what went, and of what it had the others went.
    pub fn mend<'a>(&mut self, published: impl IntoIterator<Item = &'a String>, now: Time) {
        let are = self.sums();
        if are == self.sums {
            return;
        }
        let published: BTreeSet<&String> = published.into_iter().collect();
        if are[0] == self.sums[0] {
            let had = &self.had;
            self.gone.retain(|key, _| had.contains(key));
            for key in had.iter().filter(|key| !published.contains(key)) {
                self.gone.entry(key.clone()).or_insert(now);
            }
        } else {
            self.had = published.into_iter().chain(self.gone.keys()).cloned().collect();
        }
        self.sums = self.sums();
    }

    /// Whether there is nothing that could go.
    pub fn is_empty(&self) -> bool {
        self.had.is_empty()
    }

    /// Those that went not long ago.
    pub fn gone(&self) -> impl Iterator<Item = &String> {
        self.gone.keys()
    }

    /// How many settings would be gone, where these are too many to unset them by a change of the
    /// folder alone: more than this number, or than half of them.
    pub fn lacks(&self, may_go: Option<usize>, is_there: impl Fn(&str) -> bool) -> Option<usize> {
        let gone = self.had.iter().filter(|key| !is_there(key)).count();
        let may_go = may_go.unwrap_or((self.had.len() / 2).max(1));
        Some(gone).filter(|gone| *gone > may_go)
    }

    /// A change of the folder is taken, after which these are there.
    pub fn takes(&mut self, is_there: impl Fn(&str) -> bool, now: Time) {
        self.gone.retain(|key, _| !is_there(key));
        for key in self.had.iter().filter(|key| !is_there(key)) {
            self.gone.entry(key.clone()).or_insert(now);
        }
        self.sums[1] = sum(self.gone.keys());
    }

    /// Somebody asked for this one to be unset.
    pub fn unset(&mut self, key: &str) {
        let taken = [self.had.take(key), self.gone.remove_entry(key).map(|it| it.0)];
        for (sum_of, taken) in self.sums.iter_mut().zip(taken) {
            *sum_of = sum_of.wrapping_sub(sum(&taken));
        }
    }

    /// Somebody confirmed that these are all.
    pub fn confirmed(&mut self, keys: impl IntoIterator<Item = String>, now: Time) {
        *self = Guard::new(keys, [], now);
    }

    /// A round of these ends: what went long ago counts no more.
    pub fn ends_round(&mut self, keys: impl IntoIterator<Item = String>, now: Time) {
        self.had = keys.into_iter().collect();
        let had = &mut self.had;
        self.gone.retain(|key, at| {
            // (the memory may be spoiled)
            *at = (*at).min(now);
            now.since(*at) < WINDOW && !had.contains(key)
        });
        had.extend(self.gone.keys().cloned());
        self.sums = self.sums();
    }
}

/// These changes of the folder, where they are held: by them too many settings would be gone, or
/// any where some were too many before; or each change is to be confirmed.
pub fn held(
    config: &Config,
    (guard, was_held): (&Guard, bool),
    found: &BTreeMap<String, Vec<u8>>,
    changes: Vec<Entry<'_>>,
    sha: Sha256,
) -> Option<Diff> {
    let may_go = if was_held { Some(0) } else { config.unsets };
    let why = match guard.lacks(may_go, |key| found.contains_key(key)) {
        _ if changes.is_empty() => return None,
        Some(gone) => format!("{gone} of {} settings would be unset", guard.had.len()),
        None if config.hold => format!("{} settings would change", changes.len()),
        None => return None,
    };
    Some(diff(changes, format!("{why}: held until `rignoldactl confirm`"), sha))
}

rignolda::spoils! { Guard { had, gone, sums } }

#[cfg(test)]
mod tests {
    use super::*;
    use crate::sha::sha256;

    /// The expected one is that of another program, of these bytes.
    #[test]
    fn a_digest_is_that_of_all_changes_in_the_order_of_their_keys() {
        let changes = [("b", Some(&b"2"[..])), ("a", None), ("c..eu", Some(b""))];
        let one = diff(changes, String::new(), sha256);
        let other = diff(changes.into_iter().rev(), String::new(), sha256);
        assert_eq!(one.digest, other.digest);
        let bytes = "0000000000000001 61 00 0000000000000001 62 01 0000000000000001 32 \
                     0000000000000005 632e2e6575 01 0000000000000000";
        let bytes: Vec<u8> = bytes
            .split_whitespace()
            .flat_map(|it| {
                (0..it.len()).step_by(2).map(|at| u8::from_str_radix(&it[at..at + 2], 16))
            })
            .collect::<Result<_, _>>()
            .unwrap();
        let sha = openssl::sha::sha256(&bytes);
        assert_eq!(one.digest, sha.map(|byte| format!("{byte:02x}")).concat());
        let keys: Vec<_> = one.changes.iter().map(|it| (&*it.key, it.bytes)).collect();
        assert_eq!(keys, [("b", Some(1)), ("a", None), ("c@eu", Some(0))]);
        assert_eq!(diff([], String::new(), sha256).digest, "");
        // (what is moved between a key and its value, or from one to the next, is another change)
        let ab = |all: &[Entry<'static>]| diff(all.to_vec(), String::new(), sha256).digest;
        let all = [
            ab(&[("a", Some(b"b"))]),
            ab(&[("ab", Some(b""))]),
            ab(&[("ab", None)]),
            ab(&[("a", None), ("b", None)]),
            ab(&[("a", Some(b"")), ("b", None)]),
        ];
        assert_eq!(all.iter().collect::<BTreeSet<_>>().len(), all.len());
    }

    #[test]
    fn what_goes_in_steps_counts_together_for_a_while() {
        let (begun, keys) = (Time::after(WINDOW), ["a", "b", "c", "d", "e", "f"].map(String::from));
        let mut guard = Guard::new(keys.clone(), [], begun);
        for most in [5, 4, 3] {
            let is_there = |key: &str| keys[..most].iter().any(|it| it == key);
            assert_eq!(guard.lacks(None, is_there), None, "{most}");
            guard.takes(is_there, begun);
            guard.ends_round(keys[..most].to_vec(), begun + WINDOW / 2);
        }
        let is_there = |key: &str| ["a", "b"].contains(&key);
        assert_eq!(guard.lacks(None, is_there), Some(4));
        assert_eq!(guard.gone().collect::<Vec<_>>(), ["d", "e", "f"]);
        // (one that is there again, or that somebody asked for, counts no more)
        guard.takes(|key| ["a", "b", "c", "f"].contains(&key), begun);
        guard.unset("e");
        assert_eq!(guard.gone().collect::<Vec<_>>(), ["d"]);
        guard.ends_round(["a", "b", "c"].map(String::from), begun + WINDOW - WINDOW / 9);
        assert_eq!(guard.lacks(None, |key| key == "a"), Some(3));
        guard.ends_round(["a", "b", "c"].map(String::from), begun + WINDOW);
        assert_eq!(guard.lacks(None, |key| key == "a"), Some(2));
        assert_eq!(guard.lacks(None, |key| key != "a"), None);
        guard.confirmed(["a".to_string()], begun);
        assert_eq!(guard.lacks(None, |_| false), None);
        assert_eq!(guard.lacks(Some(0), |_| false), Some(1));
    }

    #[test]
    fn what_is_spoiled_is_made_anew_of_what_is_published() {
        let (now, keys) = (Time::after(WINDOW), ["a", "b", "c", "d"].map(String::from));
        let made = || Guard::new(keys[..3].iter().cloned(), keys[3..].iter().cloned(), now);
        let spoil: [&dyn Fn(&mut Guard); 6] = [
            &|it| assert!(it.had.remove("a") && it.had.insert("\u{e1}".into())),
            &|it| it.had.clear(),
            &|it| it.sums[0] ^= 1,
            &|it| it.sums[1] ^= 1,
            &|it| assert_eq!(it.gone.insert("junk".into(), now), None),
            &|it| it.gone.clear(),
        ];
        for (at, spoil) in spoil.iter().enumerate() {
            let mut guard = made();
            spoil(&mut guard);
            guard.mend(&keys[..3], now);
            assert_eq!(guard.had.iter().collect::<Vec<_>>(), keys.each_ref(), "{at}");
            guard.ends_round(keys[..3].iter().cloned(), now);
            assert_eq!(guard.gone().collect::<Vec<_>>(), ["d"], "{at}");
            assert_eq!(guard.lacks(Some(1), |key| ["b", "c"].contains(&key)), Some(2), "{at}");
        }
    }
}

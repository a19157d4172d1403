//! The digest of files of settings.
use crate::prelude::*;
use crate::sha::{hexadecimal, of_setting, short, Sha256};

/// A digest of settings: the same ones have the same digest, in whatever order they came.
///
/// It is the sum of [that of each one](short), so a change costs no more than its own bytes. It
/// tells what came about by a fault, and is no signature. What follows from a digest goes by [that
/// of all](Digest::whole) instead.
#[derive(Clone, Debug)]
pub struct Digest {
    sha: Sha256,
    each: BTreeMap<String, [u8; 32]>,
    pub sum: u64,
}

impl Digest {
    /// That of no setting.
    pub fn new(sha: Sha256) -> Digest {
        Digest { sha, each: BTreeMap::new(), sum: 0 }
    }

    /// A setting has this value now; or none, where its file is there and cannot be read.
    pub fn set(&mut self, key: &str, value: Option<&[u8]>) {
        let part = of_setting(self.sha, key, value);
        let old = match self.each.get_mut(key) {
            Some(it) => Some(core::mem::replace(it, part)),
            None => self.each.insert(key.into(), part),
        };
        let old = old.map_or(0, |old| short(&old));
        self.sum = self.sum.wrapping_sub(old).wrapping_add(short(&part));
    }

    /// There is no such setting now.
    pub fn unset(&mut self, key: &str) {
        let old = self.each.remove(key).map_or(0, |old| short(&old));
        self.sum = self.sum.wrapping_sub(old);
    }

    /// The SHA-256 of those of all settings, in the order of their keys, and then of others beside
    /// them, in hexadecimal digits: nothing else has it, if no key is in both.
    pub fn whole(&self, beside: &Digest) -> String {
        let all = self.each.values().chain(beside.each.values());
        hexadecimal(&(self.sha)(&all.map(|it| &it[..]).collect::<Vec<_>>()))
    }
}

#[cfg(test)]
mod tests {
    use super::*;
    use crate::sha::sha256;

    /// Its value is of another program: `printf '\4\1pathup' | sha256sum`, and of all of these
    /// bytes again.
    #[test]
    fn one_setting() {
        let mut digest = Digest::new(sha256);
        digest.set("path", Some(b"up"));
        assert_eq!(digest.sum, 0x36e4_557c_afcc_3106);
        let whole = "dfbdd7be09cb69000067680348e603c86d6cfb3d7a02ee647c90addb7c2d2a2a";
        assert_eq!(digest.whole(&Digest::new(sha256)), whole);
    }

    #[test]
    fn the_same_settings_in_any_order() {
        let (mut one, mut other) = (Digest::new(sha256), Digest::new(sha256));
        one.set("a", Some(b"1"));
        one.set("b", Some(b"2"));
        for (key, value) in [("b", b"0"), ("c", b"3"), ("a", b"1"), ("b", b"2")] {
            other.set(key, Some(value));
        }
        assert!(
            one.sum != other.sum
                && one.whole(&Digest::new(sha256)) != other.whole(&Digest::new(sha256))
        );
        other.unset("c");
        other.unset("c");
        assert_eq!(
            (one.sum, one.whole(&Digest::new(sha256))),
            (other.sum, other.whole(&Digest::new(sha256)))
        );
        // (no two are of one text)
        other.unset("b");
        other.set("", Some(b"b2"));
        assert_ne!(one.sum, other.sum);
        other.set("", None);
        one.set("", Some(b""));
        assert_ne!(one.sum, other.sum);
    }
}

//! What a root published, as names and digests: so one that begins knows what its folder lacks,
//! also where it applies nothing, or what it applied is lost. It is kept on its disk as a text.
//!
//! Nothing in it has to be right: what is lacking or spoiled is as if it was not there.
use crate::prelude::*;
use crate::settings::{is_key, parts, Entry, SETTINGS};
use crate::sha::{hexadecimal, Sha256};

/// What stands in place of the digest of a key that went not long ago.
const GONE: &str = "-";

type Sha = [u8; 32];
type Settings = BTreeMap<String, Vec<u8>>;

/// What was published: of each key the SHA-256 of its value; and the keys that went not long ago.
#[derive(Debug, Default, PartialEq)]
pub struct Record {
    each: BTreeMap<String, Sha>,
    pub gone: BTreeSet<String>,
}

impl Record {
    /// That of these settings.
    pub fn of(settings: &Settings, sha: Sha256) -> Record {
        let each = settings.iter().map(|(key, value)| (key.clone(), sha(&[value])));
        Record { each: each.collect(), gone: BTreeSet::new() }
    }

    /// What a file says; nothing where it is none.
    pub fn parse(text: &str) -> Option<Record> {
        let mut kept = Record::default();
        for line in text.lines() {
            let (key, digits) = line.split_once(' ').filter(|(key, _)| is_key(key))?;
            match digits {
                GONE => drop(kept.gone.insert(key.into())),
                _ => drop(kept.each.insert(key.into(), read_digits(digits)?)),
            }
        }
        (kept.each.len() <= SETTINGS && kept.gone.len() <= SETTINGS).then_some(kept)
    }

    /// What a file says of it, and of these keys that went.
    pub fn text<'a>(&self, gone: impl Iterator<Item = &'a String>) -> String {
        let mut text = String::new();
        for (key, sha) in &self.each {
            text.extend([key, " "]);
            text.extend([&hexadecimal(sha), "\n"]);
        }
        let gone = gone.filter(|key| !self.each.contains_key(*key)).take(SETTINGS);
        gone.for_each(|key| text.extend([key, " ", GONE, "\n"]));
        text
    }

    /// The keys that were published.
    pub fn keys(&self) -> impl Iterator<Item = &String> {
        self.each.keys()
    }

    /// Whether this key was published.
    pub fn has(&self, key: &str) -> bool {
        self.each.contains_key(key)
    }

    /// This value is published, or without one, that there is none.
    pub fn put(&mut self, key: &str, value: Option<&[u8]>, sha: Sha256) {
        match value {
            Some(value) => drop(self.each.insert(key.into(), sha(&[value]))),
            None => drop(self.each.remove(key)),
        }
    }

    /// These settings are published, and no others: whether another key was kept, or one was not.
    pub fn follows(&mut self, settings: &Settings, sha: Sha256) -> bool {
        let before = self.each.len();
        self.each.retain(|key, _| settings.contains_key(key));
        let kept = self.each.len();
        for (key, value) in settings {
            if !self.each.contains_key(key) {
                self.put(key, Some(value), sha);
            }
        }
        before != kept || self.each.len() != kept
    }

    /// What has to be changed to make it these settings. A value that was applied was published,
    /// and what is kept may lack it.
    pub fn changes<'a>(
        &'a self,
        found: &'a Settings,
        applied: &Settings,
        sha: Sha256,
    ) -> Vec<Entry<'a>> {
        let differs = |(key, value): &(&String, &Vec<u8>)| {
            applied.get(*key) != Some(value) && !self.is_value(key, value, sha)
        };
        let set = found.iter().filter(differs).map(|(key, value)| (&**key, Some(&**value)));
        let gone = self.each.keys().filter(|key| !found.contains_key(*key));
        set.chain(gone.map(|key| (&**key, None))).collect()
    }

    fn is_value(&self, key: &str, value: &[u8], sha: Sha256) -> bool {
        self.each.get(key).is_some_and(|it| *it == sha(&[value]))
    }

    /// The values that were published, as far as they are among these, and whether that is all. Of
    /// a key that has values for groups there are all, or none.
    pub fn values(&self, sources: [&Settings; 2], sha: Sha256) -> (Settings, bool) {
        let (mut all, mut lacking) = (Settings::new(), BTreeSet::new());
        for key in self.each.keys() {
            let mut values = sources.iter().filter_map(|it| it.get(key));
            match values.find(|value| self.is_value(key, value, sha)) {
                Some(value) => drop(all.insert(key.clone(), value.clone())),
                None => drop(lacking.insert(parts(key).0)),
            }
        }
        all.retain(|key, _| !lacking.contains(parts(key).0));
        (all, lacking.is_empty())
    }
}

/// The digest that is written so.
fn read_digits(digits: &str) -> Option<Sha> {
    let bytes = digits.as_bytes().chunks(2).map(|pair| {
        let pair = core::str::from_utf8(pair).ok()?;
        u8::from_str_radix(pair, 16).ok()
    });
    bytes.collect::<Option<Vec<u8>>>()?.try_into().ok()
}

rignolda::spoils! { Record { each, gone } }

#[cfg(test)]
mod tests {
    use super::*;
    use crate::sha::sha256;

    fn settings_of(all: &[(&str, &str)]) -> Settings {
        all.iter().map(|(key, value)| (key.to_string(), value.as_bytes().to_vec())).collect()
    }

    #[test]
    fn what_is_kept_is_read_again_or_is_nothing() {
        let mut kept = Record::of(&settings_of(&[("a", "1"), ("b..eu", "2")]), sha256);
        let gone = ["a".to_string(), "c".to_string()];
        let text = kept.text(gone.iter());
        assert_eq!(text.lines().count(), 3);
        let read = Record::parse(&text).unwrap();
        assert_eq!((&read.gone, &read.each), (&["c".to_string()].into(), &kept.each));
        kept.put("a", None, sha256);
        kept.put("b..eu", Some(b"3"), sha256);
        assert_eq!(kept, Record::of(&settings_of(&[("b..eu", "3")]), sha256));
        let digits = "0".repeat(64);
        let (long, short) = (format!("a {digits}00"), format!("a {}", &digits[2..]));
        for spoiled in [&*long, &short, "a", "a  -", "a +0", "../a -", "a 0g", "\u{e4} -"] {
            assert_eq!(Record::parse(spoiled), None, "{spoiled}");
        }
        assert_eq!(Record::parse(""), Some(Record::default()));
    }

    #[test]
    fn what_was_published_is_put_together_where_all_of_it_is_there() {
        let was = settings_of(&[("a", "1"), ("b", "2"), ("b..eu", "3"), ("c", "4")]);
        let kept = Record::of(&was, sha256);
        let found = settings_of(&[("a", "1"), ("b", "2"), ("d", "5")]);
        let changes = kept.changes(&found, &settings_of(&[("d", "5")]), sha256);
        assert_eq!(changes, [("b..eu", None), ("c", None)]);
        let changes = kept.changes(&found, &Settings::new(), sha256);
        assert_eq!(changes, [("d", Some(&b"5"[..])), ("b..eu", None), ("c", None)]);
        let applied = settings_of(&[("a", "drifted"), ("b..eu", "3"), ("c", "4")]);
        assert_eq!(kept.values([&found, &applied], sha256), (was, true));
        let some = (settings_of(&[("a", "1"), ("c", "4")]), false);
        assert_eq!(
            kept.values([&found, &settings_of(&[("b..eu", "2"), ("c", "4")])], sha256),
            some
        );
    }
}

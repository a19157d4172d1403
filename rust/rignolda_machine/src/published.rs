//! What a root published, as digests: by these it sees whether an agent's files are that.
use crate::control::{Compared, Key, Keys, Seen};
use crate::prelude::*;
use crate::settings::{is_newer, parts, values_of, Entry, Meaning};
use crate::sha::{of_setting, short};
use crate::Sha256;
use core::mem;

/// For how many of its last changes a root remembers the digest, and for how many rounds.
const CHANGES: usize = 1 << 12;
const ROUNDS: u8 = 32;
/// Of how many lists of groups at most it knows what agents of them ought to have.
const GROUPS: usize = 256;

/// What a body ends.
#[derive(Clone, Copy, Debug, PartialEq, Eq)]
pub enum Ends {
    ARound,
    Nothing,
}

/// What a root published, as digests.
#[derive(Debug)]
pub struct Published {
    sha: Sha256,
    /// Of each value that is set its [digest](crate::sha::of_setting), as that of the key that its
    /// file has.
    each: BTreeMap<String, u64>,
    /// The number of its last body.
    number: u64,
    /// What the files of agents of these groups were and are; always also of those of none.
    files: BTreeMap<Vec<String>, Files>,
    /// Of each value that is set, what it is and was.
    keys: BTreeMap<String, Key>,
    /// For which groups there are values, each with how many rounds ended since it had one; and
    /// whether these may be other ones than before.
    groups: BTreeMap<String, u8>,
    has_other_groups: bool,
}

/// The digests that an agent's files have to have.
#[derive(Debug, Default)]
struct Files {
    sum: u64,
    /// The last one first, each with the number from which on it was that, and how many rounds
    /// ended since.
    since: VecDeque<(u64, u64, u8)>,
}

impl Files {
    /// Notes what they are from a body with this number on.
    fn note(&mut self, number: u64, ends: Ends) {
        if ends == Ends::ARound {
            self.since.iter_mut().for_each(|(.., rounds)| *rounds = rounds.saturating_add(1));
            self.since.retain(|(at, _, rounds)| *rounds <= ROUNDS && !is_newer(*at, number));
        }
        if ends == Ends::ARound
            || self.since.front().is_none_or(|(_, digest, _)| *digest != self.sum)
        {
            self.since.push_front((number, self.sum, 0));
            self.since.truncate(CHANGES);
        }
    }
}

impl Published {
    /// It has published nothing yet.
    pub fn new(sha: Sha256) -> Published {
        Published {
            sha,
            each: BTreeMap::new(),
            number: 0,
            files: BTreeMap::new(),
            keys: BTreeMap::new(),
            groups: BTreeMap::new(),
            has_other_groups: false,
        }
    }

    /// Takes a body that is published with this number. Nothing has to have been right before: of
    /// agents that are at a round's table or later all is known from it.
    pub fn take(&mut self, number: u64, meaning: &Meaning<'_>, ends: Ends) {
        self.number = number;
        self.files.entry(Vec::new()).or_default();
        match meaning {
            Meaning::Harmless => (),
            Meaning::Changes(entries) => self.changes(entries),
            Meaning::Table(entries) => {
                self.each = digests(entries, self.sha).collect();
                let sum = sums(&self.each);
                self.files.iter_mut().for_each(|(groups, files)| files.sum = sum(groups));
            }
        }
        self.take_keys(number, meaning);
        self.note_groups(meaning, ends);
        self.files.values_mut().for_each(|files| files.note(number, ends));
    }

    /// Takes changes, which have all values of the keys of files that they have some of.
    fn changes(&mut self, entries: &[Entry<'_>]) {
        let changed: BTreeSet<&str> = entries.iter().map(|(key, _)| parts(key).0).collect();
        let of_changed = |each: &BTreeMap<String, u64>| -> BTreeMap<String, u64> {
            let values = changed.iter().flat_map(|file| values_of(each, file));
            values.map(|(key, digest)| (key.clone(), *digest)).collect()
        };
        let old = of_changed(&self.each);
        for key in old.keys() {
            self.each.remove(key);
        }
        self.each.extend(digests(entries, self.sha));
        let new = of_changed(&self.each);
        let (old, new) = (sums(&old), sums(&new));
        for (groups, files) in &mut self.files {
            files.sum = files.sum.wrapping_sub(old(groups)).wrapping_add(new(groups));
        }
    }

    /// Notes for which groups there are values now. One that has none any more counts as long as
    /// agents may be compared with what they had by it.
    fn note_groups(&mut self, meaning: &Meaning<'_>, ends: Ends) {
        let rounds = u8::from(ends == Ends::ARound);
        self.groups.values_mut().for_each(|it| *it = it.saturating_add(rounds));
        if let Meaning::Changes(entries) | Meaning::Table(entries) = meaning {
            let set = entries.iter().filter(|(_, value)| value.is_some());
            for group in set.filter_map(|(key, _)| parts(key).1) {
                self.has_other_groups |= self.groups.insert(group.into(), 0).is_none();
            }
        }
        let before = self.groups.len();
        self.groups.retain(|_, it| *it <= ROUNDS);
        self.has_other_groups |= self.groups.len() != before;
    }

    /// Whether there are values for other groups than when this was asked last.
    pub fn has_other_groups(&mut self) -> bool {
        mem::take(&mut self.has_other_groups)
    }

    /// What counts of these groups: those for which there are values, each once.
    fn counting(&self, groups: &[String]) -> Vec<String> {
        let mut counting: Vec<String> = Vec::new();
        for group in groups {
            if self.groups.contains_key(group) && !counting.contains(group) {
                counting.push(group.clone());
            }
        }
        counting
    }

    /// The agent itself is of these groups, and those below each child are of those: of others
    /// nothing is known any more. What they ought to have is known from now on.
    pub fn follow<'a>(
        &mut self,
        own: &[String],
        children: impl Iterator<Item = impl Iterator<Item = &'a [String]>>,
    ) {
        let counting = |all: &mut dyn Iterator<Item = &'a [String]>| -> BTreeSet<Vec<String>> {
            all.map(|groups| self.counting(groups)).collect()
        };
        let children = children.map(|mut all| counting(&mut all)).collect();
        let own = BTreeSet::from([Vec::new(), self.counting(own)]);
        let mut all = shared(own, children, GROUPS);
        self.files.retain(|groups, _| all.contains(groups));
        all.retain(|groups| !self.files.contains_key(groups));
        if all.is_empty() {
            return;
        }
        let sum = sums(&self.each);
        for groups in all {
            let mut files = Files { sum: sum(&groups), ..Files::default() };
            files.note(self.number, Ends::Nothing);
            self.files.insert(groups, files);
        }
    }

    fn take_keys(&mut self, number: u64, meaning: &Meaning<'_>) {
        let (Meaning::Changes(entries) | Meaning::Table(entries)) = meaning else { return };
        for (key, _) in entries {
            match self.each.get(*key) {
                Some(digest) => {
                    let it = self.keys.entry((*key).into()).or_default();
                    // (no earlier one may count from later on)
                    if it.digest != *digest || is_newer(it.number, number) {
                        *it =
                            Key { digest: *digest, number, old: it.digest, old_number: it.number };
                    }
                }
                None => drop(self.keys.remove(*key)),
            }
        }
        if matches!(meaning, Meaning::Table(_)) {
            self.keys.retain(|key, _| self.each.contains_key(key));
        }
    }

    /// What is known of the values of a key: of that for all, and of those for groups. Of one that
    /// is unset, that is no more than since when all settings are as they are.
    pub fn key(&self, key: &str) -> Keys {
        let since = self.files.get(&[][..]).and_then(|it| it.since.front());
        let since = since.map_or(0, |(number, ..)| *number);
        let known = |key: &str| self.keys.get(key).cloned();
        let groups = values_of(&self.each, key).filter_map(|(key, _)| Some((key, parts(key).1?)));
        let groups = groups.filter_map(|(key, group)| Some((group.to_owned(), known(key)?)));
        let unset = Key { number: since, ..Key::default() };
        Keys { all: known(key).unwrap_or(unset), groups: groups.collect(), since }
    }

    /// The digest of the files of agents of these groups as of this number, unless that is not
    /// known.
    fn at(&self, groups: &[String], number: u64) -> Option<u64> {
        let mut since = self.files.get(groups)?.since.iter();
        let at =
            || since.find(|(since, ..)| !is_newer(*since, number)).map(|(_, digest, _)| *digest);
        (number != 0 && !is_newer(number, self.number)).then(at)?
    }

    /// Whether an agent's files are what was published up to the number that they are from.
    pub fn compared(&self, seen: &Seen) -> Compared {
        match self.at(&self.counting(&seen.groups), seen.files) {
            _ if !seen.applies => Compared::Nothing,
            Some(digest) if digest == seen.digest => Compared::Same,
            Some(_) => Compared::Differs,
            None => Compared::NotKnown,
        }
    }
}

/// The first ones of these lists, and of those of each child as many as there is room for: each
/// child has the same share, and what needs less is whole. So whoever has many drives nobody out.
fn shared(
    first: BTreeSet<Vec<String>>,
    children: Vec<BTreeSet<Vec<String>>>,
    most: usize,
) -> BTreeSet<Vec<String>> {
    let mut children: Vec<_> = children.into_iter().map(BTreeSet::into_iter).collect();
    let mut shared = first;
    while !children.is_empty() {
        children.retain_mut(|lists| {
            let new = lists.find(|list| !shared.contains(list));
            shared.len() < most && new.is_some_and(|list| shared.insert(list))
        });
    }
    shared
}

/// What gives the digest of all files of agents of some groups. For each list of groups it costs a
/// step for each value that is for a group, whatever the list is.
fn sums(each: &BTreeMap<String, u64>) -> impl Fn(&[String]) -> u64 + '_ {
    let mut all = 0_u64;
    let mut numbers: BTreeMap<&str, usize> = BTreeMap::new();
    let mut grouped: BTreeMap<&str, Vec<(usize, u64)>> = BTreeMap::new();
    for (key, digest) in each {
        match parts(key) {
            (_, None) => all = all.wrapping_add(*digest),
            (file, Some(group)) => {
                let next = numbers.len();
                let number = *numbers.entry(group).or_insert(next);
                grouped.entry(file).or_default().push((number, *digest));
            }
        }
    }
    // (each file with its value for all, if there is one)
    let grouped = grouped.into_iter();
    let grouped: Vec<_> =
        grouped.map(|(file, it)| (each.get(file).copied().unwrap_or(0), it)).collect();
    move |groups| {
        let mut ranks = vec![usize::MAX; numbers.len()];
        for (rank, group) in groups.iter().enumerate().rev() {
            numbers.get(&**group).into_iter().for_each(|number| ranks[*number] = rank);
        }
        grouped.iter().fold(all, |sum, (for_all, values)| {
            let first = values.iter().min_by_key(|(number, _)| ranks[*number]);
            let first = first.filter(|(number, _)| ranks[*number] < usize::MAX);
            first.map_or(sum, |(_, it)| sum.wrapping_sub(*for_all).wrapping_add(*it))
        })
    }
}

/// The digests of the values that are set, each as that of the key that its file has.
fn digests<'a>(entries: &'a [Entry<'a>], sha: Sha256) -> impl Iterator<Item = (String, u64)> + 'a {
    let set = entries.iter().filter(|it| it.1.is_some());
    set.map(move |(key, value)| ((*key).into(), short(&of_setting(sha, parts(key).0, *value))))
}

rignolda::spoils! { Published { each, number, files, keys, groups, has_other_groups } }
rignolda::spoils! { Files { sum, since } }

#[cfg(test)]
mod tests {
    use super::*;
    use crate::sha::sha256;

    fn digest(key: &str, value: &[u8]) -> u64 {
        short(&of_setting(sha256, key, Some(value)))
    }

    fn seen(files: u64, digest: u64) -> Seen {
        Seen { applies: true, files, digest, ..Seen::default() }
    }

    /// An agent is compared with what was published up to its number, and no later one.
    #[test]
    fn compared_as_of_a_number() {
        let mut published = Published::new(sha256);
        let with = |value: &'static [u8]| Meaning::Changes(vec![("key", Some(value))]);
        let table = |value: &'static [u8]| Meaning::Table(vec![("key", Some(value))]);
        let of = |value: &[u8]| digest("key", value);
        let (old, new) = (of(b"old"), of(b"new"));
        assert_eq!(published.compared(&seen(5, old)), Compared::NotKnown);
        published.take(10, &table(b"old"), Ends::ARound);
        published.take(11, &Meaning::Harmless, Ends::Nothing);
        published.take(12, &with(b"new"), Ends::Nothing);
        published.take(13, &Meaning::Harmless, Ends::Nothing);
        let is = |at, digest| published.compared(&seen(at, digest));
        assert_eq!([is(10, old), is(11, old), is(12, new), is(13, new)], [Compared::Same; 4]);
        assert_eq!([is(10, new), is(11, new), is(12, old), is(13, old)], [Compared::Differs; 4]);
        // (of before its first table, or ahead of it, or of no number, nothing is known)
        assert_eq!([is(9, old), is(14, new), is(0, new)], [Compared::NotKnown; 3]);
        let none = Seen { applies: false, ..seen(13, old) };
        assert_eq!(published.compared(&none), Compared::Nothing);
        // a table between rounds takes nothing away, and those of rounds do after a while
        published.take(14, &table(b"old"), Ends::Nothing);
        for number in 15..15 + u64::from(ROUNDS) {
            published.take(number, &table(b"new"), Ends::ARound);
            assert_eq!(published.compared(&seen(14, old)), Compared::Same);
            assert_eq!(published.compared(&seen(14, new)), Compared::Differs);
            assert_eq!(published.compared(&seen(number, new)), Compared::Same);
        }
        published.take(90, &table(b"new"), Ends::ARound);
        assert_eq!(published.compared(&seen(14, old)), Compared::NotKnown);
        published.take(91, &Meaning::Table(vec![]), Ends::Nothing);
        assert_eq!(published.compared(&seen(91, 0)), Compared::Same);
        assert_eq!(published.compared(&seen(90, new)), Compared::Same);
    }

    /// Whatever its memory holds, it is right from the next round on.
    #[test]
    fn right_after_a_round() {
        let far = u64::MAX / 2;
        for since in
            [vec![], vec![(900, 1, 0)], vec![(3, 0, 9), (far, 7, 255)], vec![(12, 9, 1); 9]]
        {
            let files = Files { sum: 6, since: since.into() };
            let files = BTreeMap::from([(Vec::new(), files)]);
            let mut published = Published { number: 77, files, ..Published::new(sha256) };
            published.each.insert("none".into(), 5);
            published.take(20, &Meaning::Table(vec![("key", Some(b"value"))]), Ends::ARound);
            published.take(21, &Meaning::Harmless, Ends::Nothing);
            let sum = digest("key", b"value");
            for at in 20..=21 {
                assert_eq!(published.compared(&seen(at, sum)), Compared::Same);
                assert_eq!(published.compared(&seen(at, 6)), Compared::Differs);
            }
        }
    }

    /// Of a key it is known what it is and was, and from which numbers on.
    #[test]
    fn what_a_key_was_is_remembered() {
        let of = |value: &[u8]| digest("key", value);
        let with = |value: &'static [u8]| vec![("key", Some(value)), ("other", Some(&b"1"[..]))];
        let is = |it: &Published| {
            let Key { digest, number, old, old_number } = it.key("key").all;
            (digest, number, old, old_number)
        };
        let mut it = Published::new(sha256);
        assert_eq!(is(&it), (0, 0, 0, 0));
        it.take(10, &Meaning::Table(with(b"1")), Ends::ARound);
        assert_eq!(is(&it), (of(b"1"), 10, 0, 0));
        it.take(11, &Meaning::Changes(with(b"2")), Ends::Nothing);
        it.take(12, &Meaning::Changes(with(b"2")), Ends::Nothing);
        it.take(13, &Meaning::Table(with(b"2")), Ends::ARound);
        assert_eq!(is(&it), (of(b"2"), 11, of(b"1"), 10));
        it.take(14, &Meaning::Table(with(b"3")), Ends::ARound);
        assert_eq!(is(&it), (of(b"3"), 14, of(b"2"), 11));
        // (what is unset is that since all settings are as they are)
        it.take(15, &Meaning::Changes(vec![("key", None)]), Ends::Nothing);
        it.take(16, &Meaning::Harmless, Ends::Nothing);
        assert_eq!(is(&it), (0, 15, 0, 0));
        it.take(17, &Meaning::Changes(with(b"3")), Ends::Nothing);
        it.take(18, &Meaning::Table(vec![]), Ends::ARound);
        assert_eq!((is(&it), it.keys.len()), ((0, 18, 0, 0), 0));
        // whatever its memory holds, of who is at a table or later all is known from that
        let spoilt = Key { digest: of(b"4"), number: u64::MAX / 3, old: 1, old_number: 2 };
        it.keys.insert("key".into(), spoilt);
        it.take(20, &Meaning::Table(with(b"4")), Ends::ARound);
        assert_eq!((it.key("key").all.digest, it.key("key").all.number), (of(b"4"), 20));
    }

    /// Agents of each list of groups are compared with what counts for them.
    #[test]
    fn compared_by_their_groups() {
        let all = |keys: &'static [(&'static str, &'static str)]| -> Vec<Entry<'static>> {
            keys.iter().map(|(key, value)| (*key, Some(value.as_bytes()))).collect()
        };
        let sum_of = |settings: &[(&str, &str)]| {
            let all = settings.iter().map(|(key, value)| digest(key, value.as_bytes()));
            all.fold(0, u64::wrapping_add)
        };
        let group = |names: &[&str]| names.iter().map(|it| (*it).to_string()).collect::<Vec<_>>();
        let [none, canary, both, other] =
            [&[][..], &["canary"], &["eu", "canary"], &["us"]].map(group);
        let mut it = Published::new(sha256);
        it.take(
            10,
            &Meaning::Table(all(&[("a", "1"), ("a..canary", "2"), ("b..eu", "3")])),
            Ends::ARound,
        );
        let lists = [&none, &canary, &both, &other];
        let knows = |it: &mut Published, lists: &[&Vec<String>]| {
            it.follow(&[], lists.iter().map(|list| std::iter::once(&list[..])));
        };
        knows(&mut it, &lists);
        let is = |it: &Published, at, expected: [&[(&str, &str)]; 4]| {
            for (groups, settings) in lists.into_iter().zip(expected) {
                let seen = Seen { groups: groups.clone(), ..seen(at, sum_of(settings)) };
                assert_eq!(it.compared(&seen), Compared::Same, "{at} {groups:?}");
                let seen = Seen { digest: seen.digest ^ 1, ..seen };
                assert_eq!(it.compared(&seen), Compared::Differs, "{at} {groups:?}");
            }
        };
        let first: [&[_]; 4] =
            [&[("a", "1")], &[("a", "2")], &[("a", "2"), ("b", "3")], &[("a", "1")]];
        is(&it, 10, first);
        // a change has all values of its key, also where one of them alone is another one
        it.take(
            11,
            &Meaning::Changes(all(&[("a", "1"), ("a..canary", "2"), ("a..eu", "4")])),
            Ends::Nothing,
        );
        is(&it, 11, [&[("a", "1")], &[("a", "2")], &[("a", "4"), ("b", "3")], &[("a", "1")]]);
        is(&it, 10, first);
        let mut changes = all(&[("a", "5"), ("c", "6")]);
        changes.extend([("a..canary", None), ("a..eu", None)]);
        it.take(12, &Meaning::Changes(changes), Ends::Nothing);
        let all_have = &[("a", "5"), ("c", "6")][..];
        is(&it, 12, [all_have, all_have, &[("a", "5"), ("b", "3"), ("c", "6")], all_have]);
        // of groups that nobody has any more, and then has again, older numbers are not known
        knows(&mut it, &[&canary]);
        let seen = Seen { groups: both.clone(), ..seen(12, 0) };
        assert_eq!(it.compared(&seen), Compared::NotKnown);
        knows(&mut it, &lists);
        assert_eq!(it.compared(&seen), Compared::Differs);
        assert_eq!(it.compared(&Seen { files: 11, ..seen }), Compared::NotKnown);
        assert_eq!((it.key("b").all.digest, it.key("b").groups.len()), (0, 1));
        it.take(13, &Meaning::Table(all(&[("a..us", "7")])), Ends::ARound);
        // (who is of a group for which there is a first value is known from there on)
        assert_eq!([it.has_other_groups(), it.has_other_groups()], [true, false]);
        knows(&mut it, &lists);
        is(&it, 13, [&[], &[], &[], &[("a", "7")]]);
    }

    fn group(names: &[&str]) -> Vec<String> {
        names.iter().map(|it| (*it).to_string()).collect()
    }

    /// Of groups for which there is no value nothing is kept, however many there are, and whatever
    /// stands between those for which there is one.
    #[test]
    fn groups_without_a_value_cost_nothing() {
        let mut it = Published::new(sha256);
        let table = |keys: &[&'static str]| -> Vec<Entry<'static>> {
            keys.iter().map(|key| (*key, Some(&b"1"[..]))).collect()
        };
        it.take(10, &Meaning::Table(table(&["a", "a..canary"])), Ends::ARound);
        let invented: Vec<Vec<String>> = (0..5_000)
            .map(|at| (0..16).map(|no| format!("n{at}x{no}")).collect())
            .chain((0..99).map(|at| group(&["x", "canary", &format!("n{at}"), "canary"])))
            .collect();
        it.follow(&[], [invented.iter().map(|it| &it[..])].into_iter());
        let known: Vec<_> = it.files.keys().cloned().collect();
        assert_eq!(known, [group(&[]), group(&["canary"])]);
        let of = |key| digest(key, b"1");
        for list in &invented {
            let seen = Seen { groups: list.clone(), ..seen(10, of("a")) };
            assert_eq!(it.compared(&seen), Compared::Same);
        }
        // (as long as somebody may be compared with what he had by it, a group counts)
        let seen = |files| Seen { groups: group(&["canary"]), ..seen(files, of("a")) };
        for number in 11..11 + u64::from(ROUNDS) {
            it.take(number, &Meaning::Table(table(&["a"])), Ends::ARound);
            assert_eq!((it.groups.len(), it.compared(&seen(number))), (1, Compared::Same));
        }
        it.has_other_groups();
        it.take(50, &Meaning::Table(table(&["a"])), Ends::ARound);
        assert!(it.has_other_groups() && it.groups.is_empty());
        it.follow(&[], [invented.iter().map(|it| &it[..])].into_iter());
        assert_eq!((it.files.len(), it.compared(&seen(50))), (1, Compared::Same));
    }

    /// Whoever invents lists takes no other child's place, and not that of the root itself.
    #[test]
    fn lists_that_a_child_invents_leave_room_for_others() {
        let keys: Vec<String> = (0..300).map(|at| format!("a..g{at}")).collect();
        let table = keys.iter().map(|key| (&**key, Some(&b"1"[..]))).collect();
        let mut it = Published::new(sha256);
        it.take(10, &Meaning::Table(table), Ends::ARound);
        let one = |at: usize| group(&[&format!("g{at}")]);
        let liar: Vec<_> = (0..250).flat_map(|at| [group(&["g0", &format!("g{at}")])]).collect();
        let many: Vec<_> = (100..200).map(one).collect();
        let rack = [one(7), group(&["g7", "g8"])];
        let children = [&liar[..], &many, &rack];
        for turn in 0..2 {
            it.follow(&one(299), children.iter().map(|it| it.iter().map(|list| &list[..])));
            assert_eq!(it.files.len(), GROUPS);
            let known = |lists: &[Vec<String>]| {
                lists.iter().filter(|list| it.files.contains_key(*list)).count()
            };
            assert_eq!((known(&rack), known(&many), known(&[one(299)])), (2, 100, 1), "{turn}");
        }
        assert_eq!(shared(BTreeSet::new(), Vec::new(), 3), BTreeSet::new());
    }

    #[test]
    fn so_many_changes_are_remembered() {
        let mut published = Published::new(sha256);
        for number in 1..=2 * CHANGES as u64 {
            let value = number.to_be_bytes();
            published.take(number, &Meaning::Changes(vec![("key", Some(&value))]), Ends::Nothing);
        }
        assert_eq!(published.files[&[][..]].since.len(), CHANGES);
        assert_eq!(published.at(&[], CHANGES as u64), None);
        assert!(published.at(&[], CHANGES as u64 + 1).is_some());
    }
}

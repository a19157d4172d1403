//! Changes that wait: what is left of them, and from which number on.
use rignolda_machine::net::Body;
use rignolda_machine::settings::{Change, Meaning, Waiting};
use std::sync::Arc;

type Left<'a> = (&'a str, Option<&'a [u8]>, u64, u64);

/// A body that has none of the values that are given with it.
fn elsewhere() -> Arc<Body> {
    Arc::new(Body::of(Vec::new()))
}

fn changes(waiting: &mut Waiting, sequence: u64, entries: &[(&str, Option<&[u8]>)]) {
    waiting.take(&elsewhere(), sequence, &Meaning::Changes(entries.to_vec()));
}

fn table(waiting: &mut Waiting, sequence: u64, entries: &[(&str, Option<&[u8]>)]) {
    waiting.take(&elsewhere(), sequence, &Meaning::Table(entries.to_vec()));
}

fn are_left(waiting: Waiting, expected: &[Left<'_>]) {
    let all = waiting.in_order();
    let all = all.iter().map(|(key, change)| {
        let value = change.value.as_deref();
        (key.as_str(), value, change.first, change.last)
    });
    assert_eq!(all.collect::<Vec<Left<'_>>>(), expected);
}

#[test]
fn of_one_key_the_last_change_waits_for_all() {
    let mut waiting = Waiting::default();
    assert_eq!(waiting.first(), None);
    changes(&mut waiting, 3, &[("a", Some(b"1")), ("b", Some(b"2"))]);
    changes(&mut waiting, 4, &[("c", None)]);
    waiting.take(&elsewhere(), 5, &Meaning::Harmless);
    changes(&mut waiting, 6, &[("a", None)]);
    assert!(waiting.has("a") && !waiting.has("d") && !waiting.is_whole());
    assert_eq!(waiting.first(), Some(3));
    are_left(waiting, &[("b", Some(b"2"), 3, 3), ("c", None, 4, 4), ("a", None, 3, 6)]);
}

#[test]
fn what_waited_longest_comes_first() {
    let mut waiting = Waiting::default();
    changes(&mut waiting, 1, &[("z", Some(b"1"))]);
    changes(&mut waiting, 2, &[("a", Some(b"2"))]);
    changes(&mut waiting, 3, &[("z", Some(b"3"))]);
    let (key, change) = waiting.pop().unwrap();
    assert_eq!((key.as_str(), change.value.as_deref()), ("z", Some(&b"3"[..])));
    assert_eq!((change.first, change.last), (1, 3));
    assert_eq!(waiting.first(), Some(2));
    // (what failed may be put again, and waits as long as it did)
    waiting.put(&key, change);
    assert_eq!(waiting.pop().unwrap().0, "z");
    assert_eq!(waiting.pop().unwrap().0, "a");
    assert!(waiting.pop().is_none());
}

#[test]
fn a_table_takes_the_place_of_all_and_unsets_the_others() {
    let mut waiting = Waiting::default();
    changes(&mut waiting, 7, &[("a", Some(b"old")), ("gone", Some(b"x"))]);
    table(&mut waiting, 9, &[("a", Some(b"one")), ("b", Some(b"")), ("c", Some(b"two"))]);
    changes(&mut waiting, 10, &[("c", None), ("d", Some(b"new"))]);
    assert!(waiting.is_whole());
    assert_eq!(waiting.first(), Some(7));
    waiting.unset_others(["b", "gone", "../etc"].map(String::from));
    are_left(
        waiting,
        &[
            ("a", Some(b"one"), 7, 9),
            ("b", Some(b""), 7, 9),
            ("gone", None, 7, 9),
            ("c", None, 7, 10),
            ("d", Some(b"new"), 10, 10),
        ],
    );
}

#[test]
fn an_empty_table_waits_too() {
    let mut waiting = Waiting::default();
    table(&mut waiting, 5, &[]);
    assert_eq!(waiting.first(), Some(5));
    table(&mut waiting, 8, &[]);
    assert_eq!(waiting.first(), Some(5));
    waiting.unset_others(["a".to_owned()]);
    are_left(waiting, &[("a", None, 5, 8)]);
    // (whatever comes after the other)
    let mut waiting = Waiting::default();
    table(&mut waiting, 8, &[]);
    table(&mut waiting, 2, &[("a", Some(b"1"))]);
    assert_eq!(waiting.first(), Some(2));
    // (without a whole table, nothing is known of others)
    let mut waiting = Waiting::default();
    changes(&mut waiting, 1, &[("a", None)]);
    waiting.unset_others(["b".to_owned()]);
    are_left(waiting, &[("a", None, 1, 1)]);
}

#[test]
fn numbers_that_go_round_are_in_their_order() {
    let mut waiting = Waiting::default();
    changes(&mut waiting, u64::MAX, &[("c", None), ("d", None)]);
    changes(&mut waiting, 1, &[("b", None), ("d", Some(b"1"))]);
    changes(&mut waiting, 2, &[("a", None)]);
    assert_eq!(waiting.first(), Some(u64::MAX));
    let (key, change) = waiting.pop().unwrap();
    assert_eq!((&*key, change.first, change.last), ("c", u64::MAX, u64::MAX));
    are_left(waiting, &[("b", None, 1, 1), ("d", Some(b"1"), u64::MAX, 1), ("a", None, 2, 2)]);
}

#[test]
fn what_is_no_key_is_left_out() {
    let mut waiting = Waiting::default();
    changes(&mut waiting, 1, &[("../a", Some(b"1")), ("", None)]);
    table(&mut waiting, 2, &[(".hidden", Some(b"12")), ("b", Some(b"3"))]);
    are_left(waiting, &[("b", Some(b"3"), 2, 2)]);
}

#[test]
fn a_table_from_before_keeps_all_back_until_it_is_applied() {
    let mut waiting = Waiting::default();
    waiting.take(&elsewhere(), 7, &Meaning::Table(vec![("a", Some(b"1")), ("b", Some(b"2"))]));
    waiting.dates_back();
    waiting.unset_others(["c".into()]);
    waiting.take(&elsewhere(), 8, &Meaning::Changes(vec![("b", None), ("d", Some(b"4"))]));
    assert_eq!((waiting.first(), waiting.count()), (Some(0), 4));
    let firsts: Vec<_> = std::iter::from_fn(|| waiting.pop())
        .map(|(key, change)| (key, change.first, change.last))
        .collect();
    let of = |key: &str, first, last| (key.to_string(), first, last);
    let expected = [of("a", 0, 7), of("b", 0, 8), of("c", 0, 7), of("d", 8, 8)];
    assert_eq!(firsts, expected);
}

/// Whoever keeps a small change of a large table does not keep the table.
#[test]
fn a_change_alone_keeps_no_table() {
    let large = vec![7; 1 << 20];
    let mut kept = Waiting::default();
    for sequence in 1..=200 {
        let mut waiting = Waiting::default();
        let (key, small) = (format!("a{}", sequence), sequence.to_string());
        let entries = [(key.as_str(), Some(small.as_bytes())), ("b", Some(&large[..]))];
        waiting.take(&elsewhere(), sequence, &Meaning::Table(entries.to_vec()));
        let (key, change) = waiting.pop().expect("two wait");
        kept.put(&key, change.alone());
        assert!(kept.has(&key));
    }
    let all = kept.in_order();
    let of =
        |(key, change): &(String, Change)| key.as_bytes()[1..] == **change.value.as_ref().unwrap();
    assert!(all.len() == 200 && all.iter().all(of));
    #[cfg(target_os = "linux")]
    {
        let text = std::fs::read_to_string("/proc/self/status").unwrap();
        let line = text.lines().find(|line| line.starts_with("VmRSS")).unwrap();
        let kilobytes: u64 = line.split_whitespace().nth(1).unwrap().parse().unwrap();
        assert!(kilobytes < 100 << 10, "{}", line);
    }
}

fn of_groups(waiting: Waiting, groups: &[&str]) -> [Vec<(String, Option<Vec<u8>>)>; 2] {
    let groups: Vec<String> = groups.iter().map(|it| it.to_string()).collect();
    let (files, all) = waiting.of_groups(&groups);
    [files, all].map(|it| {
        let mut all = it.in_order();
        all.sort_by(|one, other| one.0.cmp(&other.0));
        let all = all.into_iter();
        all.map(|(key, change)| (key, change.value.map(|it| it.to_vec()))).collect()
    })
}

fn settings(all: &[(&str, &str)]) -> Vec<(String, Option<Vec<u8>>)> {
    let value = |value: &str| Some(value.as_bytes().to_vec()).filter(|_| value != "-");
    all.iter().map(|(key, it)| (key.to_string(), value(it))).collect()
}

/// A dash: it is unset.
fn entries<'a>(all: &'a [(&'a str, &'a str)]) -> Vec<(&'a str, Option<&'a [u8]>)> {
    let value = |value: &'a str| Some(value.as_bytes()).filter(|_| value != "-");
    all.iter().map(|(key, it)| (*key, value(it))).collect()
}

#[test]
fn a_file_has_the_value_that_counts() {
    let all = [("a", "1"), ("a..canary", "2"), ("a..eu", "3"), ("b..eu", "4"), ("c", "5")];
    let table = || {
        let mut waiting = Waiting::default();
        waiting.take(&elsewhere(), 7, &Meaning::Table(entries(&all)));
        waiting
    };
    let grouped = settings(&all[..4]);
    for (groups, expected) in [
        (&[][..], &[("a", "1"), ("c", "5")][..]),
        (&["canary"], &[("a", "2"), ("c", "5")]),
        (&["eu", "canary"], &[("a", "3"), ("b", "4"), ("c", "5")]),
        (&["us", "canary", "eu"], &[("a", "2"), ("b", "4"), ("c", "5")]),
    ] {
        let [files, all] = of_groups(table(), groups);
        assert_eq!((files, &all), (settings(expected), &grouped));
    }
    // the one for all comes back, and what is for another group changes nothing
    let changes = |all: &[(&str, &str)]| {
        let mut waiting = Waiting::default();
        waiting.take(&elsewhere(), 8, &Meaning::Changes(entries(all)));
        waiting
    };
    let canary = |all: &[(&str, &str)]| of_groups(changes(all), &["canary"]);
    let back = [("a", "1"), ("a..canary", "-"), ("a..eu", "3")];
    assert_eq!(canary(&back), [settings(&[("a", "1")]), settings(&back)]);
    let other = [("b..eu", "9")];
    let none = [("b", "-"), ("b..eu", "9")];
    assert_eq!(canary(&other), [settings(&[("b", "-")]), settings(&none)]);
    // (where no group has one any more, the file is all that there is)
    let last = [("a", "6"), ("a..canary", "-")];
    let gone = [("a", "-"), ("a..canary", "-")];
    assert_eq!(canary(&last), [settings(&[("a", "6")]), settings(&gone)]);
    // what waited longest of them counts
    let mut waiting = changes(&[("a", "1")]);
    waiting.take(&elsewhere(), 9, &Meaning::Changes(entries(&[("a", "1"), ("a..eu", "2")])));
    let (mut files, _) = waiting.of_groups(&["eu".to_string()]);
    let (_, change) = files.pop().unwrap();
    assert_eq!((change.first, change.last, &*change.value.unwrap()), (8, 9, &b"2"[..]));
}

/// What a hook is told of a key that is unset is the number of that change.
#[test]
fn a_key_that_is_unset_behind_a_table_has_its_own_number() {
    for (own, groups) in [("a..eu", &["eu"][..]), ("a..us", &["eu"]), ("a", &[])] {
        let mut waiting = Waiting::default();
        waiting.take(&elsewhere(), 7, &Meaning::Table(entries(&[(own, "1"), ("b", "2")])));
        waiting.take(&elsewhere(), 8, &Meaning::Changes(entries(&[("b", "3")])));
        waiting.take(&elsewhere(), 9, &Meaning::Changes(entries(&[(own, "-")])));
        let groups: Vec<String> = groups.iter().map(|it| it.to_string()).collect();
        let (mut files, _) = waiting.of_groups(&groups);
        files.unset_others(["a", "gone"].map(String::from));
        let numbers: Vec<_> = files
            .in_order()
            .into_iter()
            .map(|(key, it)| (key, it.value.is_some(), it.last))
            .collect();
        let of = |key: &str, is_set, number| (key.to_string(), is_set, number);
        let expected = [of("gone", false, 7), of("b", true, 8), of("a", false, 9)];
        assert_eq!(numbers, expected, "{own}");
    }
}

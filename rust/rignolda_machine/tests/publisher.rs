//! What the root publishes, and whether there is room for a setting.
use rignolda_machine::net::BODY_BYTES;
use rignolda_machine::settings::{Meaning, Publisher, SETTINGS, VALUE_BYTES};
use std::collections::BTreeMap;
use std::time::{Duration, Instant};

#[test]
fn there_is_room_for_what_a_whole_table_has_room_for() {
    let mut publisher = Publisher::new(1);
    let mut state = 1_u64;
    let mut draw = |bound: u64| {
        state = state.wrapping_mul(6_364_136_223_846_793_005).wrapping_add(1);
        (state >> 33) % bound
    };
    let all_bytes = |lengths: &BTreeMap<String, usize>| {
        let entries = lengths.iter();
        // (a kind, a number and a count come first)
        13 + entries.map(|(key, length)| key.len() + length + 6).sum::<usize>()
    };
    let mut lengths: BTreeMap<String, usize> = BTreeMap::new();
    for step in 0..600 {
        let (key, length) = (format!("k{}", draw(24)), draw(VALUE_BYTES as u64 + 1) as usize);
        let mut then = lengths.clone();
        if draw(8) == 0 {
            then.remove(&key);
            publisher.unset(&key);
        } else if step % 100 == 99 {
            then.retain(|_, length| *length % 3 > 0);
            let left = then.iter().map(|(key, it)| (key.clone(), vec![0; *it]));
            publisher.replace(left.collect());
        } else {
            then.insert(key.clone(), length);
            let has_room = publisher.has_room(&key, &vec![0; length]);
            assert_eq!(has_room, all_bytes(&then) <= BODY_BYTES, "{step}");
            match has_room {
                true => publisher.set(&key, vec![0; length]),
                false => then = lengths,
            }
        }
        lengths = then;
    }
    let table = publisher.next(100).expect("a table comes first");
    assert!(table.is_table);
    assert_eq!(table.body.bytes.len(), all_bytes(&lengths));
}

/// Many files that change at once are each asked about: that must not look at all the others.
#[test]
fn whether_there_is_room_is_known_at_once() {
    let mut publisher = Publisher::new(1);
    let all: BTreeMap<String, Vec<u8>> =
        (0..50_000).map(|at| (format!("k{at}"), vec![1])).collect();
    publisher.replace(all.clone());
    let took = |what: &dyn Fn()| {
        let once = || {
            let began = Instant::now();
            what();
            began.elapsed()
        };
        (0..5).map(|_| once()).min().unwrap_or(Duration::ZERO)
    };
    let bytes = || all.iter().map(|(key, value)| key.len() + value.len()).sum::<usize>();
    let whole = took(&|| assert!(bytes() > 0));
    let asked = took(&|| (0..200).for_each(|_| assert!(publisher.has_room("k7", b"12"))));
    assert!(asked < whole * 20, "200 times {:?}, and to count all once {:?}", asked, whole);
}

#[test]
fn there_are_no_more_settings_than_an_agent_takes() {
    let mut publisher = Publisher::new(1);
    let all = (0..SETTINGS - 1).map(|at| (format!("{:06}", at), Vec::new()));
    publisher.replace(all.collect());
    assert!(publisher.has_room("last", b""));
    publisher.set("last", Vec::new());
    assert!(!publisher.has_room("another", b"") && publisher.has_room("last", b"changed"));
}

#[test]
fn one_that_holds_publishes_changes_alone() {
    let mut publisher = Publisher::new(1);
    publisher.hold(true);
    assert!(!publisher.waits() && publisher.next(4).is_none());
    publisher.begin_round(3);
    for at in 0..9 {
        publisher.set("a", vec![at]);
        // (more than may follow a table, and in a round)
        assert!(!publisher.is_table_next(4));
        let next = publisher.next(4).unwrap();
        assert!(!next.is_table && next.keys.contains("a"));
        assert!(!publisher.waits() && publisher.next(4).is_none());
    }
    publisher.hold(false);
    let kinds = std::iter::from_fn(|| publisher.next(4)).map(|it| it.is_table);
    assert_eq!(
        kinds.collect::<Vec<_>>(),
        [true, false, false, false, true],
        "the table, and then the round"
    );
}

/// A step of a row, and the body that it publishes, if it asks for one.
fn step(publisher: &mut Publisher, step: &str) -> Option<String> {
    if let Some(limit) = step.strip_prefix('?') {
        let limit = limit.parse().unwrap();
        let is_table = publisher.is_table_next(limit);
        let waits = publisher.waits();
        let said = publisher.next(limit).map(|published| {
            let (sequence, meaning) = published.body.meaning().expect("it fits its item");
            let keys: Vec<&str> = match &meaning {
                Meaning::Changes(entries) => entries.iter().map(|entry| entry.0).collect(),
                _ => Vec::new(),
            };
            let changes = published.keys.iter().map(String::as_str);
            assert!(keys.is_empty() || changes.eq(keys), "{:?}", published.keys);
            assert_eq!(published.is_table, matches!(meaning, Meaning::Table(_)));
            let (kind, item) = (published.body.bytes[0] as char, published.body.item);
            (format!("{}{}:{:08x}", kind, sequence, item), published.is_table)
        });
        let is_one = said.as_ref().map(|(_, is_table)| *is_table);
        assert_eq!((waits, is_table), (said.is_some(), is_one == Some(true)));
        return Some(said.map_or("-".into(), |(said, _)| said));
    }
    if let Some(harmless) = step.strip_prefix("round") {
        publisher.begin_round(harmless.parse().unwrap());
    } else if let Some(number) = step.strip_prefix("above") {
        publisher.go_above(number.parse().unwrap());
    } else if let Some(count) = step.strip_prefix("all=") {
        let count: usize = count.parse().unwrap();
        (0..count).for_each(|at| publisher.set(&format!("k{:05}", at), b"1".to_vec()));
    } else if let "hold" | "go" = step {
        publisher.hold(step == "hold");
    } else if let Some(key) = step.strip_suffix('-') {
        publisher.unset(key);
    } else if let Some((key, count)) = step.split_once('*') {
        publisher.set(key, vec![b'x'; count.parse().unwrap()]);
    } else {
        let (key, value) = step.split_once('=').expect("a key and its value");
        publisher.set(key, value.into());
    }
    None
}

/// The rows were worked out once by a program that knew nothing of this library. A row is a line of
/// steps and a line of the bodies that they publish, each its kind, number and checksum. Steps:
/// `a=7` sets the key a, `a*900` sets it to so many letters x, `a-` unsets it, `all=5000` sets so
/// many keys, `round3` begins a round with three harmless bodies, `hold` and `go` hold tables back
/// or no more, `above9` goes on above 9, or a quarter of all numbers nearer to it, and `?8` asks
/// for a body where eight may follow a table.
#[test]
fn it_publishes_what_another_program_does() {
    let lines: Vec<&str> = include_str!("publisher.txt").lines().collect();
    assert_eq!(lines.len(), 28);
    for (number, row) in lines.chunks(2).enumerate() {
        let mut publisher = Publisher::new(1_000 * number as u64);
        let steps = row[0].split(' ');
        let said: Vec<String> = steps.filter_map(|it| step(&mut publisher, it)).collect();
        let expected: Vec<&str> = row[1].split(' ').collect();
        assert_eq!(said, expected, "row {}", number);
    }
}

/// A table with many keys is replaced by one with other, long values: what is unset and what is set
/// have more bytes together than a body may have.
#[test]
fn changes_that_are_longer_than_a_body_are_published_in_several() {
    let old = (0..4_000).map(|at| (format!("{at:0>120}"), Vec::new()));
    let new = (0..16).map(|at| (format!("{at}"), vec![at; (1 << 20) - 64]));
    let (old, new): (BTreeMap<_, _>, BTreeMap<_, _>) = (old.collect(), new.collect());
    let mut publisher = Publisher::new(7);
    publisher.replace(old);
    let mut table = publisher.next(1_000).unwrap();
    publisher.replace(new.clone());
    let (mut told, mut bodies) = (BTreeMap::new(), 0);
    loop {
        let (_, meaning) = table.body.meaning().expect("it is a body");
        let entries = match meaning {
            Meaning::Changes(entries) | Meaning::Table(entries) => entries,
            Meaning::Harmless => Vec::new(),
        };
        if table.is_table {
            told.clear();
        }
        for (key, value) in entries {
            match value {
                Some(value) => told.insert(key.to_owned(), value.to_vec()),
                None => told.remove(key),
            };
        }
        bodies += 1;
        match publisher.next(1_000) {
            Some(next) => table = next,
            None => break,
        }
    }
    assert!(bodies > 2 && told == new);
}

/// Which values of a key a body has, beside a key that is published first.
#[test]
fn a_body_has_all_values_of_a_key_for_groups() {
    let set = |publisher: &mut Publisher, keys: &[&str]| {
        keys.iter().for_each(|key| publisher.set(key, b"1".to_vec()));
    };
    let next = |publisher: &mut Publisher| {
        let published = publisher.next(1_000).expect("something waits");
        let (_, meaning) = published.body.meaning().expect("it is a body");
        let entries = match meaning {
            Meaning::Changes(entries) => entries,
            other => panic!("{other:?}"),
        };
        let shown = entries
            .iter()
            .map(|(key, value)| format!("{key}{}", ["-", ""][usize::from(value.is_some())]));
        (shown.collect::<Vec<_>>(), published.keys.into_iter().collect::<Vec<_>>())
    };
    let mut publisher = Publisher::new(7);
    set(&mut publisher, &["a", "a..x", "a..y", "a-b", "a.", "a...x", "b"]);
    assert!(publisher.next(1_000).unwrap().is_table);
    set(&mut publisher, &["a..x"]);
    let expected = (vec!["a".into(), "a..x".into(), "a..y".into()], vec!["a..x".into()]);
    assert_eq!(next(&mut publisher), expected);
    // as one change, also where another one came between them
    publisher.unset("a..x");
    set(&mut publisher, &["b", "a"]);
    let changed = ["a", "a..x", "b"].map(String::from).to_vec();
    assert_eq!(
        next(&mut publisher),
        (["a", "a..x-", "a..y", "b"].map(String::from).to_vec(), changed)
    );
    set(&mut publisher, &["a."]);
    assert_eq!(next(&mut publisher).0, ["a.", "a...x"]);
    assert!(!publisher.waits());

    // more of them than a body of changes has keys, and longer ones than it has room for
    let many = (0..5_000).map(|at| (format!("k..{at}"), vec![1]));
    let long = (0..15).map(|at| (format!("l..{at}"), vec![2; 1 << 20]));
    let all: BTreeMap<_, _> = many.chain(long).collect();
    publisher.replace(all.clone());
    let mut bodies = Vec::new();
    while publisher.waits() {
        let body = publisher.next(1_000).unwrap();
        assert!(body.is_table || next_keys(&body.body) == whole(&all, &next_keys(&body.body)));
        bodies.push(body.is_table);
    }
    assert!(bodies.len() <= 3, "{bodies:?}");
}

fn next_keys(body: &rignolda_machine::net::Body) -> Vec<String> {
    match body.meaning().expect("it is a body").1 {
        Meaning::Changes(entries) => entries
            .iter()
            .filter(|(_, value)| value.is_some())
            .map(|(key, _)| key.to_string())
            .collect(),
        _ => Vec::new(),
    }
}

/// All that is set of the keys that some are of.
fn whole(all: &BTreeMap<String, Vec<u8>>, some: &[String]) -> Vec<String> {
    let is_of = |key: &&String| some.iter().any(|it| it[..1] == key[..1]);
    all.keys().filter(is_of).cloned().collect()
}

//! Which bodies an agent applies.
use rignolda_machine::came::Came;
use rignolda_machine::net::{Body, BODY_BYTES};
use rignolda_machine::settings::{Entry, Meaning, Table, SETTINGS, VALUE_BYTES};
use rignolda_machine::Time;
use std::sync::Arc;
use std::time::Duration;

const CHANGE: Meaning<'_> = Meaning::Changes(Vec::new());
const TABLE: Meaning<'_> = Meaning::Table(Vec::new());

/// Whether each of these was taken.
fn taken(table: &mut Table, bodies: &[(u64, Meaning<'_>)]) -> Vec<bool> {
    bodies.iter().map(|(sequence, meaning)| table.takes(*sequence, meaning)).collect()
}

#[test]
fn newer_ones_are_taken_and_older_ones_are_strays() {
    let mut table = Table::default();
    let bodies = [(7, TABLE), (8, CHANGE), (8, CHANGE), (7, TABLE), (10, CHANGE), (11, CHANGE)];
    assert_eq!(taken(&mut table, &bodies), [true, true, false, false, true, true]);
    assert_eq!((table.taker.number, table.round), (11, 7));
    assert_eq!((table.strays, table.gaps, table.taker.is_whole()), (2, 1, false));
    assert!(table.takes(12, &TABLE) && table.taker.is_whole() && table.round == 12);
    // (what is left out before a table is made up for)
    assert!(table.takes(20, &TABLE) && table.taker.is_whole() && table.gaps == 1);
}

#[test]
fn all_files_are_looked_at_when_a_round_comes_and_after_a_gap() {
    let mut table = Table::default();
    let mut looks = |sequence, meaning: &Meaning<'_>| {
        assert!(table.takes(sequence, meaning));
        table.heard.looks
    };
    // (nothing is known of what is there at first)
    assert!(looks(7, &TABLE));
    looks(8, &CHANGE);
    assert!(!looks(9, &TABLE));
    looks(10, &Meaning::Harmless);
    looks(11, &CHANGE);
    assert!(looks(12, &TABLE));
    assert!(!looks(13, &TABLE));
    looks(15, &CHANGE);
    assert!(looks(16, &TABLE) && !looks(17, &TABLE));
}

#[test]
fn it_is_whole_from_its_first_table_on() {
    let mut table = Table::default();
    assert!(table.takes(3, &CHANGE) && !table.taker.is_whole());
    assert!(table.takes(4, &TABLE) && table.taker.is_whole() && table.gaps == 0);
}

#[test]
fn what_is_older_changes_nothing_whatever_it_is() {
    let mut table = Table::default();
    assert!(table.takes(100, &TABLE) && table.takes(101, &CHANGE));
    let before = table.taker;
    let bodies = [(7, Meaning::Harmless), (8, CHANGE), (9, TABLE), (101, TABLE)];
    assert_eq!(taken(&mut table, &bodies), [false; 4]);
    assert_eq!((table.taker, table.round, table.strays), (before, 100, 4));
}

/// Settings with these keys, each with so many bytes.
fn settings(keys: &[String], bytes: usize) -> Vec<Entry<'_>> {
    static VALUE: [u8; VALUE_BYTES] = [7; VALUE_BYTES];
    let entry = |key| (key, Some(&VALUE[..bytes]));
    keys.iter().map(|key| entry(key.as_str())).collect()
}

fn keys(first: usize, count: usize) -> Vec<String> {
    (first..first + count).map(|at| format!("{:06}", at)).collect()
}

/// A parent that was broken into may make keys without end: whatever comes, there are never more
/// settings than a root may have.
#[test]
fn more_settings_than_there_may_be_are_left_out() {
    let mut table = Table::default();
    let all = keys(0, SETTINGS);
    let (most, others) = all.split_at(SETTINGS - 1);
    assert!(table.takes(1, &Meaning::Table(settings(most, 0))));
    // (one that is there may change, one may come, and one may take its place)
    assert!(table.takes(2, &Meaning::Changes(settings(&all[..9], 1))));
    assert!(table.takes(3, &Meaning::Changes(settings(others, 0))));
    let mut one = vec![("000001", None), ("999999", Some(&b"new"[..]))];
    assert!(table.takes(4, &Meaning::Changes(one.clone())));
    one.remove(0);
    one[0].0 = "another";
    assert!(!table.takes(5, &Meaning::Changes(one.clone())));
    assert_eq!((table.keys.len(), table.taker.number), (SETTINGS, 4));
    assert_eq!((table.taker.is_whole(), table.full, table.strays), (false, true, 0));
    // (what there is room for goes on, and a whole table makes it good)
    assert!(table.takes(6, &Meaning::Changes(vec![("000002", None)])));
    assert!(!table.taker.is_whole() && table.keys.len() == SETTINGS - 1);
    assert!(table.takes(7, &Meaning::Table(settings(&all[..1], 0))));
    assert!(table.taker.is_whole() && !table.full && table.heard.fills && table.keys.len() == 1);
}

#[test]
fn more_bytes_of_settings_than_a_table_has_room_for_are_left_out() {
    let mut table = Table::default();
    assert!(table.takes(1, &TABLE));
    let all = keys(0, 17);
    for (at, key) in all.iter().enumerate() {
        let change = Meaning::Changes(settings(std::slice::from_ref(key), VALUE_BYTES - 12));
        // (13 bytes before the entries, and each has 12 besides its value: so 15 and not 16)
        let has_room = at < BODY_BYTES / VALUE_BYTES - 1;
        assert_eq!(table.takes(2 + at as u64, &change), has_room, "{}", at);
    }
    assert_eq!(table.keys.len(), 15);
    assert!(table.takes(19, &Meaning::Changes(vec![(all[0].as_str(), None)])));
    assert!(table.takes(20, &Meaning::Changes(settings(&all[16..], VALUE_BYTES - 12))));
    assert!(!table.taker.is_whole() && table.keys.contains_key(&all[16]));
}

#[test]
fn a_body_of_too_many_entries_means_nothing() {
    let all = keys(0, SETTINGS + 1);
    let meaning = |count: usize| {
        let body = Body::new(7, &Meaning::Table(settings(&all[..count], 0)));
        body.meaning().is_some()
    };
    assert!(meaning(SETTINGS) && !meaning(SETTINGS + 1));
    // (nor one that says it had more than it has bytes for)
    let mut bytes = Body::new(7, &TABLE).bytes.clone();
    let end = bytes.len();
    bytes[end - 4..].copy_from_slice(&9_u32.to_be_bytes());
    assert!(Body::of(bytes).meaning().is_none());
}

#[test]
fn a_table_that_makes_up_for_something_is_known() {
    let mut table = Table::default();
    let mut fills = |sequence, meaning: &Meaning<'_>| {
        table.takes(sequence, meaning);
        table.heard.fills
    };
    assert!(fills(7, &TABLE));
    fills(8, &CHANGE);
    assert!(!fills(9, &TABLE) && !fills(10, &TABLE));
    // (after a gap; and where it was away, so that a table comes with a later number)
    fills(12, &CHANGE);
    assert!(fills(13, &TABLE) && !fills(14, &TABLE) && fills(16, &TABLE));
}

/// (each is counted)
#[test]
fn what_a_peer_does_at_any_rate_is_said_once_in_a_second() {
    let begun = Time::after(Duration::from_secs(3_600));
    let mut came = Came::new(None, None, 0, |_| [0; 32], begun);
    for at in 1..=300_u64 {
        let now = begun + Duration::from_millis(10 * at);
        // (a body without a meaning, and then one that is older than the one before)
        came.item(&Arc::new(Body::of(vec![b'?'; 3])), now);
        came.item(&Body::new(1_000 - at, &Meaning::Harmless), now);
    }
    assert_eq!((came.received, came.garbage, came.table.strays), (600, 300, 299));
    let said: Vec<&str> = came.facts.iter().map(|it| it.kind()).collect();
    assert_eq!(said, ["garbage"; 3]);
}

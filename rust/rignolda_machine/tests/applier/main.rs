//! What is decided about files and hooks: a script of jobs and what came of them, without a thread,
//! a clock or a file.
use rignolda_machine::apply::{Applier, Done, Hook, Outcome, What};
use rignolda_machine::config::Apply;
use rignolda_machine::net::Body;
use rignolda_machine::settings::{Meaning, Table, Waiting};
use script::{shown, with_hook, Script};
use std::time::Duration;

mod script;
mod world;

#[test]
fn a_file_that_fails_is_due_until_it_is_kept() {
    let mut it = Script::new(&Apply::default());
    it.table(&["a", "b"], 1);
    assert_eq!((it.applier.applied(1), it.jobs()), (0, vec!["0 mark 1".to_string()]));
    it.marked();
    assert_eq!((it.jobs(), it.applier.is_busy()), (vec!["0 keep a=1 b=1 and all".into()], true));
    it.kept(&["a"], true);
    let why = Outcome::File("no room".into());
    assert_eq!(it.done(), [("a".into(), 1, why), ("b".into(), 1, Outcome::Done)]);
    assert_eq!((it.applier.applied(1), it.applier.failing()), (1, 1));
    assert_eq!(it.applier.files(1), Some((1, 7)));
    // (its file may be right by itself then)
    it.table(&["a", "b"], 2);
    it.keeps(&[], false);
    assert_eq!((it.done(), it.applier.failing()), (vec![("a".into(), 2, Outcome::Done)], 0));
}

#[test]
fn nothing_is_kept_in_a_folder_that_is_refused_until_a_table_comes() {
    let mut it = Script::new(&Apply::default());
    it.table(&["a"], 1);
    it.jobs();
    let why = Outcome::File("it has `x`".into());
    it.ended(0, Done::Refused(why.clone()));
    assert_eq!((it.done(), it.jobs()), (vec![(".rignolda".into(), 1, why.clone())], vec![]));
    it.set("b", "1", 2);
    it.jobs();
    assert!(matches!(&it.out[&0], What::Mark(mark) if mark.lacks == Some(why)));
    it.ended(0, Done::Refused(Outcome::File("it has `x`".into())));
    assert_eq!((it.done(), it.applier.applied(2), it.applier.files(2)), (vec![], 2, None));
    it.table(&["a", "b"], 3);
    it.keeps(&[], true);
    assert_eq!((it.done().len(), it.applier.failing()), (3, 0));
}

#[test]
fn a_hook_that_fails_is_told_again_by_the_next_table_alone() {
    let mut it = Script::new(&with_hook());
    it.set("a", "1", 1);
    it.keeps(&[], true);
    assert_eq!((it.applier.applied(1), it.applier.is_busy()), (0, false));
    it.ended(1, Done::Ran(Err("exit status: 1".into())));
    let why = Outcome::Hook("exit status: 1".into());
    assert_eq!((it.done(), it.applier.applied(1)), (vec![("a".into(), 1, why)], 1));
    assert_eq!((it.applier.failing(), it.applier.hook_failures()), (1, 1));
    it.set("b", "1", 2);
    it.keeps(&[], true);
    assert_eq!(shown(&it.out[&1]), "tell b=1 at 2");
    it.well(1);
    assert!(it.jobs().is_empty());
    it.table(&["a", "b"], 3);
    it.keeps(&[], false);
    assert_eq!((it.out.len(), shown(&it.out[&1])), (1, "tell a=1 at 3".into()));
    // (it counts once its mark is gone)
    it.ended(1, Done::Ran(Ok(())));
    assert_eq!((it.jobs(), it.applier.applied(3)), (vec!["1 settle [\"a\"]".into()], 2));
    it.ended(1, Done::Settled);
    assert_eq!((it.applier.applied(3), it.applier.failing()), (3, 0));
}

/// An earlier life said up to which number its files are about to be, and wrote none of them.
#[test]
fn after_a_crash_nothing_older_than_the_marker_is_applied() {
    let mut it = Script::new(&with_hook());
    it.table(&["a"], 5);
    assert_eq!(it.jobs(), ["0 mark 5"]);
    it.marked();
    assert_eq!(it.jobs(), ["0 keep a=1 and all"]);
    let mut it = Script { applier: Applier::new(&with_hook(), ["a".into()].into()), ..it };
    it.out.clear();
    let mut table = Table::default();
    table.taker.floor = 5;
    let bodies = [
        (4, Meaning::Table(vec![("a", Some(&b"old"[..]))])),
        (5, Meaning::Changes(vec![("a", Some(&b"new"[..]))])),
    ];
    for (number, meaning) in &bodies {
        assert!(table.takes(*number, meaning));
        assert_eq!(table.heard.applies, *number == 5);
        it.applier.take(&Body::new(*number, meaning), meaning, *number, table.heard);
        if *number == 4 {
            assert_eq!((it.jobs(), it.applier.applied(4)), (vec![], 0));
        }
    }
    assert_eq!(it.jobs(), ["0 mark 5"]);
    it.marked();
    assert_eq!(it.jobs(), ["0 keep a=new and all"]);
    // (its hook was due, whether its file differs or not)
    it.kept(&[], false);
    assert_eq!(it.jobs(), ["1 tell a=new at 5"]);
}

#[test]
fn files_from_a_later_body_are_not_touched() {
    let mut it = Script::new(&with_hook());
    it.table(&["a"], 3);
    it.jobs();
    it.ended(0, Done::Later(9));
    assert_eq!((it.jobs(), it.applier.is_busy()), (vec![], false));
    // (until the loop knows, nothing is taken)
    it.table(&["a"], 20);
    assert_eq!((it.jobs(), it.applier.applied(20), it.applier.files(20)), (vec![], 0, None));
    assert_eq!((it.applier.found_later(), it.applier.found_later()), (Some(9), None));
    it.table(&["a"], 21);
    it.jobs();
    let is_new = |mark: &What| matches!(mark, What::Mark(it) if it.forgets && it.looks);
    assert!(is_new(&it.out[&0]), "what the worker knows is of before");
}

#[test]
fn a_hook_finds_that_the_files_are_from_a_later_body() {
    let keys: Vec<String> = (100..300).map(|at| format!("k{at}")).collect();
    let keys: Vec<&str> = keys.iter().map(|key| &**key).collect();
    let mut it = Script::new(&with_hook());
    it.table(&keys, 3);
    it.jobs();
    it.marked();
    it.jobs();
    it.kept(&[], true);
    assert_eq!(it.jobs().len(), 5, "four hooks, and the next files");
    let Some(What::One(key, change, 3)) = it.out.remove(&4) else { panic!("{:?}", it.out) };
    it.applier.ended(4, Done::Newer(9, change), it.now);
    // (what its worker has in hand is not undone; all else is left)
    it.kept(&[], true);
    assert_eq!(it.jobs(), ["0 keep and all"], "{key}");
    it.kept(&[], true);
    assert_eq!((it.applier.found_later(), it.applier.files(3)), (Some(9), None));
    for at in 1..4 {
        it.ended(at, Done::Ran(Ok(())));
    }
    it.jobs();
    // (all of which hooks were to be told is due)
    it.table(&keys, 10);
    (1..4).for_each(|at| it.ended(at, Done::Settled));
    assert_eq!(it.jobs(), ["0 mark 10"]);
    it.marked();
    let mut told = 0;
    while it.jobs().iter().any(|it| it.starts_with("0 keep")) || !it.out.is_empty() {
        if it.out.contains_key(&0) {
            it.kept(&[], false);
        }
        for at in 1..5 {
            let Some(What::One(..)) = it.out.get(&at) else { continue };
            told += 1;
            it.ended(at, Done::Ran(Err("it fails".into())));
        }
    }
    assert_eq!(told, 128 - 3);
}

#[test]
fn a_hook_is_told_of_a_change_whose_number_is_overtaken_by_the_marker() {
    let mut it = Script::new(&with_hook());
    it.set("a", "1", 1);
    it.keeps(&[], true);
    it.set("b", "1", 2);
    for (is_newer, told) in [(false, "1 tell a=1 at 2"), (true, "1 tell a=2 at 3")] {
        if is_newer {
            it.set("a", "2", 3);
            it.keeps(&[], true);
        }
        let Some(What::One(_, change, _)) = it.out.remove(&1) else { panic!("{:?}", it.out) };
        it.applier.ended(1, Done::Newer(2 + u64::from(is_newer), change), it.now);
        assert_eq!(it.jobs()[0], told);
        assert_eq!((it.applier.found_later(), it.applier.applied(3)), (None, 0));
        if it.out.contains_key(&0) {
            it.marked();
            it.jobs();
            it.kept(&[], true);
            it.jobs();
        }
    }
}

#[test]
fn a_hook_that_hangs_holds_its_own_key_alone() {
    let mut it = Script::new(&with_hook());
    it.set("a", "1", 1);
    it.keeps(&[], true);
    let hangs = shown(&it.out[&1]);
    it.set("a", "2", 2);
    (3..8).for_each(|number| it.set(&format!("b{number}"), "", number));
    it.keeps(&[], true);
    assert_eq!((it.out.len(), shown(&it.out[&1])), (4, hangs));
    for at in [2, 3, 4, 2, 3] {
        assert!(shown(&it.out[&at]).starts_with("tell b"));
        it.well(at);
        it.jobs();
    }
    // (its own next one waits for it, and all that counts as applied)
    assert_eq!((it.out.len(), it.applier.applied(7)), (1, 0));
    it.ended(1, Done::Ran(Ok(())));
    assert_eq!((it.jobs(), it.applier.applied(7)), (vec!["1 tell a=2 at 7".into()], 1));
}

/// And the hooks of the first ones do not wait for all.
#[test]
fn files_are_kept_so_many_at_once() {
    let keys: Vec<String> = (100..230).map(|at| format!("k{at}")).collect();
    let keys: Vec<&str> = keys.iter().map(|key| &**key).collect();
    let mut it = Script::new(&with_hook());
    it.table(&keys, 1);
    it.jobs();
    it.marked();
    for (count, is_last) in [(64, false), (64, false), (2, true)] {
        it.jobs();
        let Some(What::Keep(part, last)) = it.out.get(&0) else { panic!("{:?}", it.out) };
        assert_eq!((part.len(), *last, it.out.len() > 1), (count, is_last, part[0].0 != "k100"));
        it.kept(&[], true);
    }
    assert!(it.jobs().is_empty() && !it.applier.is_busy());
    assert_eq!(it.applier.applied(1), 0);
}

#[test]
fn the_file_of_a_key_waits_for_its_mark_and_not_for_ever() {
    let mut it = Script::new(&with_hook());
    it.set("a", "1", 1);
    it.keeps(&[], true);
    it.set("b", "1", 2);
    it.jobs();
    it.marked();
    it.jobs();
    // (no mark goes while a file is put, since it may be the one of that)
    it.ended(1, Done::Ran(Ok(())));
    assert!(it.jobs().is_empty());
    it.kept(&[], true);
    assert_eq!(it.jobs(), ["1 settle [\"a\"]", "2 tell b=1 at 2"]);
    it.set("a", "2", 3);
    assert_eq!(it.jobs(), ["0 mark 3"]);
    it.marked();
    assert_eq!((it.jobs(), it.applier.until()), (vec![], Some(it.now + Duration::from_secs(5))));
    it.now += Duration::from_millis(4_900);
    assert!(it.jobs().is_empty());
    it.now += Duration::from_millis(100);
    assert_eq!(it.jobs(), ["0 keep a=2 and all"]);
    it.kept(&[], true);
    assert_eq!(it.applier.until(), Some(it.now + Duration::from_secs(1)));
    it.ended(1, Done::Settled);
    assert_eq!(it.jobs(), ["1 tell a=2 at 3"]);
    it.now += Duration::from_secs(1);
    assert_eq!((it.jobs(), it.applier.until()), (vec!["0 rest".into()], None));
}

#[test]
fn a_mark_goes_when_no_hook_of_its_key_is_left() {
    let many = Hook { keys: vec!["*".into()], run: "/many".into(), timeout: Duration::ZERO };
    let mut it = Script::new(&Apply { hooks: vec![many], ..with_hook() });
    it.table(&["a", "b"], 1);
    it.keeps(&[], true);
    let all = [1, 2, 3].map(|at| shown(&it.out[&at]));
    assert_eq!(all, ["tell {\"a\", \"b\"} 1", "tell a=1 at 1", "tell b=1 at 1"]);
    it.ended(2, Done::Ran(Ok(())));
    assert!(it.jobs().is_empty());
    it.ended(1, Done::Ran(Ok(())));
    assert_eq!(it.jobs(), ["1 settle [\"a\"]"]);
    it.ended(3, Done::Ran(Ok(())));
    // (of b none is left but the one for many, which has ended, and whose marks are going)
    assert_eq!((it.jobs(), it.applier.applied(1)), (vec!["3 settle [\"b\"]".into()], 0));
    it.ended(1, Done::Settled);
    it.ended(3, Done::Settled);
    assert_eq!((it.jobs(), it.applier.applied(1)), (vec![], 1));
    // (the one that fails is due, and the mark stays)
    it.set("a", "2", 2);
    it.keeps(&[], true);
    it.ended(1, Done::Ran(Err("it fails".into())));
    it.ended(2, Done::Ran(Ok(())));
    assert_eq!((it.jobs(), it.applier.applied(2)), (vec![], 2));
}

#[test]
fn what_is_configured_otherwise_is_seen() {
    let mut it = Script::new(&with_hook());
    assert_eq!(it.applier.fault(&with_hook()), None);
    assert!(it.applier.fault(&Apply::default()).is_some());
    it.applier.reload(&Apply::default());
    assert_eq!(it.applier.fault(&Apply::default()), None);
    // (an answer that nobody asked for is none)
    it.applier.ended(0, Done::Kept(Vec::new(), None), it.now);
    it.applier.ended(2, Done::Ran(Ok(())), it.now);
    it.applier.ended(9, Done::Settled, it.now);
    it.applier.ended(0, Done::Marked(Waiting::default(), None), it.now);
    assert!(it.jobs().is_empty() && it.done().is_empty());
}

//! What a root and a second root do at each step: without a thread, a clock, a file or a journal.
use rignolda_machine::net::Way;
use rignolda_machine::root::{self, Empty, Root};
use rignolda_machine::settings::Meaning;
use rignolda_machine::standby::{self, Begun, Change, Lacks, Standby};
use rignolda_machine::{Fact, Refused, Time};
use rignoldactl::source::{Faults, Found};
use rignoldactl::Standby as Role;
use rignoldad::config::Config;
use std::collections::BTreeMap;
use std::time::Duration;

const TEXT: &str = r#"
name = "second"
listen = ["127.0.0.1:7464"]
children = ["first"]
parents = ["first@127.0.0.1:7465"]
control = "/run/control"
[root]
settings = "/settings"
standby = true
round = "1h"
harmless = 1
unsets = 0
[apply]
folder = "/of/applied"
"#;
const ROUND: Duration = Duration::from_secs(3_600);
const PATIENCE: Duration = Duration::from_secs(5);
/// The number that a root begins at, and what its folder has then.
const FIRST: u64 = 500;
const FOLDER: [(&str, &str); 2] = [("a", "1"), ("b", "2")];

/// The name of a standby, and of its root's folder.
const NAMES: (&str, &str) = ("second", "/settings");

fn config() -> Config {
    Config::parse(TEXT).unwrap()
}

/// The lines of the journal.
fn lines(facts: Vec<Fact>) -> Vec<String> {
    facts.iter().map(|it| format!("{} {it}", it.kind())).collect()
}

fn values(all: &[(&str, &str)]) -> BTreeMap<String, Vec<u8>> {
    all.iter().map(|(key, value)| (key.to_string(), value.as_bytes().into())).collect()
}

fn read(all: &[(&str, &str)]) -> root::Done {
    root::Done::Read(Ok(Found { settings: values(all), ..Found::default() }))
}

/// What a root has to have done and to say since the last time.
fn acts(root: &mut Root<&str>) -> (Vec<root::Job>, Vec<String>) {
    (root.jobs(), lines(root.facts()))
}

/// What it publishes next: its kind and number.
fn next(root: &mut Root<&str>, now: Time) -> Option<(char, u64)> {
    let body = root.next(100, now)?.body;
    Some((body.bytes[0] as char, body.meaning().unwrap().0))
}

/// All that it publishes now, where this is read of the folder for each table.
fn all(root: &mut Root<&str>, now: Time, folder: &[(&str, &str)]) -> Vec<(char, u64)> {
    let mut all = Vec::new();
    loop {
        all.extend(std::iter::from_fn(|| next(root, now)));
        match &root.jobs()[..] {
            [] => return all,
            jobs => assert_eq!(jobs, [root::Job::Read]),
        }
        root.done(read(folder), now);
    }
}

/// A root whose first round is over: what it published is `a` and `b`.
fn root(now: Time) -> Root<&'static str> {
    let config = config().agent.root.unwrap();
    let mut root = Root::new(&config, BTreeMap::new(), FIRST, rignoldactl::sha256, now);
    assert_eq!(acts(&mut root), (vec![root::Job::Recall, root::Job::Read], vec![]));
    root.done(root::Done::Recalled(None), now);
    root.tick(now, || 1);
    assert_eq!((acts(&mut root), root.jobs_out()), ((vec![root::Job::Read], vec![]), 2));
    for _ in 0..2 {
        root.done(read(&FOLDER), now);
    }
    assert_eq!(all(&mut root, now, &FOLDER), [('T', 501), ('H', 502), ('T', 503)]);
    assert_eq!((acts(&mut root), root.jobs_out()), ((vec![], vec![]), 0));
    root
}

#[test]
fn a_read_that_fails_unsets_nothing_and_is_said_once() {
    let now = rignoldad::system::time();
    let mut root = root(now);
    root.notified(now);
    assert!(!root.awaits_changes());
    root.tick(root.deadline(), || 1);
    assert_eq!(acts(&mut root), (vec![root::Job::Changed], vec![]));
    let gone = || {
        let (why, faults) = ("/settings: it is gone".into(), Faults::default());
        root::Done::Read(Err(Empty { why, has_none: false, is_new: false, faults }))
    };
    root.done(gone(), now);
    assert_eq!(acts(&mut root), (vec![], vec!["settings /settings: it is gone".into()]));
    assert_eq!((next(&mut root, now), root.settings()), (None, 2));
    assert!(root.awaits_changes());
    root.begin_round(now);
    root.done(gone(), now);
    assert_eq!(acts(&mut root), (vec![root::Job::Read], vec![]));
    assert_eq!((next(&mut root, now), root.faults().count), (Some(('H', 504)), 1));
}

#[test]
fn where_the_disk_is_late_a_round_is_of_what_is_known() {
    let now = rignoldad::system::time();
    let mut root = root(now);
    root.tick(now + ROUND, || 1);
    let late = root.deadline();
    assert_eq!((late, next(&mut root, late)), (now + ROUND + PATIENCE, None));
    root.tick(late, || 1);
    let (jobs, said) = acts(&mut root);
    assert!(matches!(jobs[..], [root::Job::Keep(_), root::Job::Read]), "{jobs:?}");
    assert_eq!(said, ["settings /settings: the disk does not answer"]);
    assert_eq!((next(&mut root, late), next(&mut root, late)), (Some(('H', 504)), None));
    // (the table is to be of what the disk says, and waits for that no longer)
    root.tick(late, || 1);
    assert_eq!((next(&mut root, late), root.jobs_out()), (Some(('T', 505)), 3));
    root.done(root::Done::Kept(Err("no space".into())), late);
    let said = "settings /settings: what is published cannot be kept: no space";
    assert_eq!(acts(&mut root), (vec![root::Job::Read], vec![said.into()]));
    for _ in 0..2 {
        root.done(read(&[("a", "1"), ("b", "3")]), late);
    }
    assert_eq!((next(&mut root, late), root.faults().count), (Some(('C', 506)), 0));
}

/// Also if nothing else is published meanwhile: a root that begins knows no more than that.
#[test]
fn what_could_not_be_kept_is_kept_once_there_is_room() {
    let now = rignoldad::system::time();
    let (mut root, later) = (root(now), now + PATIENCE);
    let keeps = |root: &mut Root<&str>, at| {
        root.tick(at, || 1);
        acts(root).0.iter().filter(|job| matches!(job, root::Job::Keep(_))).count()
    };
    assert_eq!((keeps(&mut root, later), root.is_kept()), (1, false));
    root.done(root::Done::Kept(Err("no space".into())), later);
    assert_eq!((keeps(&mut root, later), root.is_kept()), (0, false));
    assert_eq!(keeps(&mut root, later + PATIENCE), 1);
    root.done(root::Done::Kept(Ok(())), later + PATIENCE);
    assert_eq!((keeps(&mut root, later + PATIENCE * 2), root.is_kept()), (0, true));
}

#[test]
fn what_is_held_is_published_once_it_is_confirmed() {
    let now = rignoldad::system::time();
    let mut root = root(now);
    root.notified(now);
    root.tick(root.deadline(), || 1);
    root.done(root::Done::Keys(vec![("b".into(), None)]), now);
    root.done(read(&[("a", "1")]), now);
    let held = "settings 1 of 2 settings would be unset: held until `rignoldactl confirm`";
    assert_eq!(acts(&mut root), (vec![root::Job::Changed, root::Job::Read], vec![held.into()]));
    assert_eq!((next(&mut root, now), root.held()), (None, 1));
    root.confirm("", now, "who").unwrap();
    assert_eq!((acts(&mut root), root.answers()), ((vec![root::Job::Read], vec![]), vec![]));
    root.done(read(&[("a", "1")]), now);
    let next = root.next(100, now).unwrap().body;
    assert_eq!(next.meaning(), Some((504, Meaning::Changes(vec![("b", None)]))));
    assert_eq!((root.answers(), root.held()), (vec![("who", Ok(()))], 0));
}

#[test]
fn a_root_whose_clock_was_set_back_goes_on_above_what_agents_have() {
    let now = rignoldad::system::time();
    let mut root = root(now);
    root.hears([0, 503, 9_000]);
    assert_eq!(acts(&mut root).1, ["numbers go on above 9000, which an agent has"]);
    assert_eq!(all(&mut root, now, &FOLDER), [('T', 9_001)]);
}

#[test]
fn what_came_while_it_drained_is_published_when_that_ends() {
    let now = rignoldad::system::time();
    let mut root = root(now);
    root.drain(now);
    root.notified(now);
    root.tick(root.deadline(), || 1);
    root.done(root::Done::Keys(vec![("a".into(), Some(b"3".into()))]), now);
    for seconds in [0, 600] {
        root.tick(now + Duration::from_secs(seconds), || 1);
        assert_eq!((next(&mut root, now), root.is_draining()), (None, true));
    }
    root.tick(now + Duration::from_secs(601), || 1);
    assert_eq!((next(&mut root, now), root.is_draining()), (Some(('C', 504)), false));
}

#[test]
fn who_asks_for_a_change_is_answered_when_it_is_published() {
    let now = rignoldad::system::time();
    let mut root = root(now);
    root.ask("c@eu", Some(b"1".into()), "one").unwrap();
    root.commit();
    root.ask("d", Some(b"2".into()), "two").unwrap();
    root.commit();
    let kept = |key: &str, value: &str| (key.to_string(), Some(value.as_bytes().to_vec()));
    let write = |key, value| root::Job::Write(vec![kept(key, value)]);
    assert_eq!((acts(&mut root).0, root.jobs_out()), (vec![write("c..eu", "1")], 1));
    let why = Err(Refused::from("no space"));
    root.done(root::Done::Written { all: vec![(kept("c..eu", "1"), why)], others: false }, now);
    assert_eq!((acts(&mut root).0, root.jobs_out()), (vec![write("d", "2")], 1));
    root.done(root::Done::Written { all: vec![(kept("d", "2"), Ok(()))], others: false }, now);
    assert_eq!(root.answers(), [("one", Err("no space".into()))]);
    assert_eq!(next(&mut root, now), Some(('C', 504)));
    assert_eq!((root.answers(), root.ends()), (vec![("two", Ok(()))], vec![]));
}

#[test]
fn a_value_that_is_promoted_is_two_changes_and_one_answer() {
    let now = rignoldad::system::time();
    let mut root = root(now);
    let change = |key: &str, value: Option<&str>| (key.to_string(), value.map(|it| it.into()));
    let written = |all: Vec<root::Written>| root::Done::Written { all, others: false };
    root.ask("a@eu", Some(b"5".into()), "one").unwrap();
    root.commit();
    root.done(written(vec![(change("a..eu", Some("5")), Ok(()))]), now);
    assert_eq!((next(&mut root, now), root.answers()), (Some(('C', 504)), vec![("one", Ok(()))]));
    root.jobs();
    for (name, why) in [("a", "`a` is for no group"), ("a@us", "`a@us` is not set")] {
        let refused = root.promote(name, "one").unwrap_err().to_string();
        assert!(refused.starts_with(why), "{refused}");
    }
    // (what fails is answered, and the next one is begun)
    let promote = || root::Job::Promote("a..eu".into());
    root.promote("a@eu", "two").unwrap();
    root.promote("a@eu", "three").unwrap();
    root.commit();
    assert_eq!((root.jobs(), root.jobs_out()), (vec![promote()], 1));
    root.done(written(vec![(change("a..eu", None), Err("no space".into()))]), now);
    assert_eq!(
        (root.jobs(), root.answers()),
        (vec![promote()], vec![("two", Err("no space".into()))])
    );
    let all = [change("a", Some("5")), change("a..eu", None)].map(|it| (it, Ok(())));
    root.done(written(all.into()), now);
    let body = root.next(100, now).unwrap().body;
    let changes = Meaning::Changes(vec![("a", Some(b"5")), ("a..eu", None)]);
    assert_eq!(body.meaning(), Some((505, changes)));
    assert_eq!((root.answers(), root.jobs_out()), (vec![("three", Ok(()))], 0));
}

/// One that begins as this, of rank 50, and may have published up to this number.
fn standby(role: Role, may: Option<u64>, now: Time) -> Standby<&'static str> {
    let begun = Begun { role, rank: 50, noted: None, may, fact: None };
    Standby::new(NAMES, begun, values(&[("a", "1")]), now)
}

#[test]
fn a_promotion_has_its_rank_by_the_time_that_it_is_given() {
    let now = rignoldad::system::time();
    let mut standby = standby(Role::Below, None, now);
    let lacks = || Some(Lacks { who: "leaf".into(), change: 9, own: 8 });
    let words = "leaf has change 9, and this agent has none after 8";
    let why = standby.promote(true, lacks(), (7, 1_000), None, "who").unwrap_err().to_string();
    assert!(why.starts_with(words) && standby.jobs().is_empty(), "{why}");
    standby.promote(false, lacks(), (7, 1_000), None, "who").unwrap();
    assert_eq!(standby.promote(true, None, (7, 9_000), None, "who"), Err(Refused::IsAsked));
    // (two seconds above the clock, which is ahead of what it has seen)
    let rank = 1_000 + 2_097_152;
    let promote = standby::Job::Promote { rank, copies: false, digest: None };
    assert_eq!((standby.jobs(), standby.jobs_out()), (vec![promote], 1));
    assert_eq!(lines(standby.facts()), [format!("root promoted as it is: {words}")]);
    let change = standby.done(standby::Done::Promoted(rank, Ok(values(&[("b", "2")]))));
    assert_eq!(change, Some(Change::Root(rank, values(&[("b", "2")]))));
    assert_eq!(lines(standby.facts()), [format!("root this is the root now, of rank {rank}")]);
    let said = format!("it is the root, as it is: {words}");
    assert_eq!((standby.answers(), standby.jobs_out()), (vec![("who", Ok(said))], 0));
}

#[test]
fn a_root_that_sees_one_of_a_higher_rank_twice_stands_by() {
    let now = rignoldad::system::time();
    let mut standby = standby(Role::Looks, Some(70), now);
    assert_eq!(standby.tick(0, (&[], 0), 0, now), Some(Change::Root(70, values(&[("a", "1")]))));
    let other = Way { cost: 0, names: vec!["first".into()] };
    standby.looked(0, Some((&other, 51)));
    assert_eq!(standby.tick(1, (&[], 0), 0, now), None);
    let said = ["root this is the root now, of rank 50", "root first is another root"];
    assert_eq!((lines(standby.facts()), standby.other()), (said.map(String::from).into(), "first"));
    standby.looked(0, Some((&other, 51)));
    assert_eq!(standby.tick(1, (&[], 0), 0, now), Some(Change::Below));
    assert_eq!((standby.jobs(), standby.role()), (vec![standby::Job::StandBy], Role::StandsBy));
    assert_eq!(lines(standby.facts()), ["root first is another root: this one stands by"]);
    standby.done(standby::Done::StandsBy(Err("/settings: no space".into())));
    assert_eq!(lines(standby.facts()), ["root its folder does not know: /settings: no space"]);
    // (and an agent as any other when somebody says so)
    standby.demote("who").unwrap();
    assert_eq!((standby.jobs(), standby.answers()), (vec![standby::Job::Demote], vec![]));
    assert_eq!((standby.done(standby::Done::Demoted(Ok(()))), standby.role()), (None, Role::Below));
    assert_eq!(standby.answers(), [("who", Ok(String::new()))]);
    assert_eq!(lines(standby.facts()), ["root this is an agent as any other now"]);
}

/// Else it would stand by after a restart, though somebody said that it does not.
#[test]
fn a_root_that_is_demoted_while_it_sees_another_one_notes_nothing_beside_that() {
    let now = rignoldad::system::time();
    for is_demoted in [true, false] {
        let mut standby = standby(Role::Root, Some(70), now);
        let other = Way { cost: 0, names: vec!["first".into()] };
        (0..2).for_each(|_| standby.looked(0, Some((&other, 51))));
        standby.demote("who").unwrap();
        assert_eq!(standby.tick(1, (&[], 0), 0, now), Some(Change::Below));
        assert_eq!((standby.jobs(), standby.role()), (vec![standby::Job::Demote], Role::StandsBy));
        let said = if is_demoted { Ok(()) } else { Err("no space".to_string()) };
        assert_eq!(standby.done(standby::Done::Demoted(said.clone())), None);
        // (where that failed, the disk has to know what it is)
        let (role, jobs) = match is_demoted {
            true => (Role::Below, vec![]),
            false => (Role::StandsBy, vec![standby::Job::StandBy]),
        };
        assert_eq!((standby.role(), standby.jobs()), (role, jobs));
        assert_eq!(
            standby.answers(),
            [("who", said.map(|()| String::new()).map_err(Refused::from))]
        );
    }
}

#[test]
fn what_its_folder_says_at_a_start_is_said_once() {
    let fact = Some(Fact::Mark("/settings/.root".into(), "has no number"));
    let begun = Begun { role: Role::Below, rank: 0, noted: None, may: None, fact };
    let mut standby = Standby::<()>::new(NAMES, begun, BTreeMap::new(), rignoldad::system::time());
    let said = vec!["root /settings/.root has no number".to_string()];
    assert_eq!((lines(standby.facts()), standby.facts()), (said, vec![]));
}

#[test]
fn one_that_was_the_root_goes_on_by_what_its_parents_and_children_say() {
    let (now, own) = (rignoldad::system::time(), values(&[("a", "1")]));
    let until = now + Duration::from_secs(30);
    // (its clock counts alone where it does not know what it published)
    for (may, above) in [(None, 900), (Some(70), 70)] {
        let mut standby = standby(Role::Looks, may, now);
        assert_eq!((standby.tick(1, (&[], 0), 900, now), standby.deadline()), (None, Some(until)));
        assert_eq!(standby.tick(1, (&[], 0), 900, until), Some(Change::Root(above, own.clone())));
    }
    let mut standby = standby(Role::Looks, Some(70), now);
    standby.looked(0, Some((&Way::default(), 0)));
    assert_eq!(standby.tick(1, (&[71, 72], 2), 900, now), Some(Change::Below));
    let said = "root 2 of its children have more than 70, and this root never published that: \
                another one did, and this one stands by";
    assert_eq!((lines(standby.facts()), standby.other()), (vec![said.into()], ""));
    assert_eq!(standby.jobs(), [standby::Job::StandBy]);
}

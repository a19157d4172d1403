//! What is known of the agents below, and what is made of it.
use rignolda_machine::below::Below;
use rignolda_machine::net::wire::REPORT_BYTES;
use rignolda_machine::Time;
use rignoldactl::probe::Probe;
use rignoldactl::sha256;
use rignoldactl::text::{progress, tree_text};
use rignoldactl::tree::{
    bounds, depths, harmless_needed, lacks, lacks_of, too_few_harmless, Bounds, CUT, NOT_HEARD,
};
use rignoldactl::{ChildStatus, Compared, Seen, Status};
use std::time::Duration;

fn status(name: &str, children: &[&str]) -> Status {
    let child = |name: &&str| ChildStatus {
        name: name.to_string(),
        connected: true,
        since: 60_000,
        ..Default::default()
    };
    Status {
        name: name.into(),
        limit: 10,
        harmless: 23,
        whole: true,
        sequence: 5,
        applied: 5,
        children: children.iter().map(child).collect(),
        ..Default::default()
    }
}

/// The lists of a tree: the root, `a` with `b` and `c`, and `d` below `c`.
fn tree(now: Time) -> Vec<Seen> {
    let (mut root, mut a, mut c) = (Below::new(sha256), Below::new(sha256), Below::new(sha256));
    let none = Below::new(sha256);
    assert!(c.heard("d", &none.report(&status("d", &[]), now), now));
    assert!(a.heard("c", &c.report(&status("c", &["d"]), now), now));
    assert!(a.heard("b", &none.report(&status("b", &[]), now), now));
    assert!(root.heard("a", &a.report(&status("a", &["b", "c"]), now), now));
    root.tree(&status("root", &["a"]), now + Duration::from_secs(3))
}

#[test]
fn groups_that_are_other_ones_are_told_once() {
    let (mut root, now) = (Below::new(sha256), rignoldad::system::time());
    let mut hears = |at: u64, groups: &[&str]| {
        let groups = groups.iter().map(|it| it.to_string()).collect();
        let report = Below::new(sha256).report(&Status { groups, ..status("a", &[]) }, now);
        assert!(root.heard("a", &report, now + Duration::from_secs(at)));
        [root.has_other_groups(), root.has_other_groups()]
    };
    assert_eq!(hears(0, &["canary"]), [true, false]);
    assert_eq!(hears(1, &["canary"]), [false; 2]);
    assert_eq!(hears(2, &["canary", "eu"]), [true, false]);
    assert_eq!(hears(3, &[]), [true, false]);
}

#[test]
fn a_list_has_each_agent_after_its_parent() {
    let list = tree(rignoldad::system::time());
    let names: Vec<(&str, &str)> = list.iter().map(|s| (&s.name[..], &s.parent[..])).collect();
    assert_eq!(names, [("root", ""), ("a", "root"), ("b", "a"), ("c", "a"), ("d", "c")]);
    assert_eq!(depths(&list), [0, 1, 2, 2, 3]);
    assert_eq!(list.iter().map(|s| s.age).collect::<Vec<_>>(), [0, 3_000, 3_000, 3_000, 3_000]);
}

#[test]
fn who_is_below_an_agent_that_is_away_is_not_known() {
    let now = rignoldad::system::time();
    let (mut root, mut a) = (Below::new(sha256), Below::new(sha256));
    a.heard("b", &Below::new(sha256).report(&status("b", &[]), now), now);
    root.heard("a", &a.report(&status("a", &["b"]), now), now);
    let mut above = status("root", &["a", "new"]);
    above.children[0].connected = false;
    let list = root.tree(&above, now);
    let connected: Vec<(&str, bool)> = list.iter().map(|s| (&s.name[..], s.connected)).collect();
    assert_eq!(connected, [("root", true), ("a", false), ("b", false), ("new", true)]);
    assert_eq!(lacks(&list[1], 5), Some("is not connected"));
    assert_eq!(lacks(&list[3], 5), Some("waits for a whole table"));
    root.forget("a");
    assert_eq!(root.tree(&above, now).len(), 3);
}

#[test]
fn the_bounds_are_the_sums_of_a_path() {
    let list = tree(rignoldad::system::time());
    let of = |name: &str, depth, c, e, m, n| Bounds { name: name.into(), depth, c, e, m, n };
    // (each link has capacity 1: C = d, M = 3 d, N = 2 d + 1; each inner agent may keep ten for a
    // child, and its sender one more)
    let expected = [
        of("root", 0, 0, 0, 0, 0),
        of("a", 1, 1, 11, 3, 3),
        of("b", 2, 2, 11, 6, 5),
        of("c", 2, 2, 22, 6, 5),
        of("d", 3, 3, 22, 9, 7),
    ];
    assert_eq!(bounds(&list), expected);
    assert_eq!(harmless_needed(&list), 9);
    assert_eq!(too_few_harmless(&list), None);
    let mut few = list;
    few[0].harmless = 8;
    assert!(too_few_harmless(&few).unwrap().contains("needs 9"));
}

#[test]
fn an_agent_lacks_what_it_has_not_applied() {
    let mut agent = tree(rignoldad::system::time()).remove(4);
    assert_eq!(lacks(&agent, 5), None);
    assert_eq!(lacks(&agent, 6), Some("has not applied it"));
    agent.whole = false;
    assert_eq!(lacks(&agent, 5), Some("waits for a whole table"));
    agent.failing = 1;
    assert_eq!(lacks(&agent, 5), Some("has a file or a hook that failed"));
}

#[test]
fn numbers_go_round_there_too() {
    let mut list = tree(rignoldad::system::time());
    for (applied, sequence, lacking) in
        [(u64::MAX, u64::MAX, false), (u64::MAX, 1, true), (1, u64::MAX, false), (0, 1, true)]
    {
        list[4].applied = applied;
        assert_eq!(lacks(&list[4], sequence).is_some(), lacking, "{applied} {sequence}");
    }
    (list[0].changed, list[4].applied, list[3].applied) = (3, u64::MAX, 4);
    let text = tree_text(&list);
    let lag = |at: usize| text.lines().nth(at).unwrap().split_whitespace().nth(1).unwrap();
    assert_eq!((lag(5), lag(4)), ("4", "0"), "{text}");
}

#[test]
fn of_a_list_the_number_that_is_furthest_ahead_counts() {
    let heard = |list: &str| {
        let mut below = Below::new(sha256);
        assert!(below.heard("a", list.as_bytes(), rignoldad::system::time()));
        let [sequence, ahead] = below.numbers("a");
        assert_eq!(
            sequence,
            below.tree(&status("root", &["a"]), rignoldad::system::time())[1].sequence
        );
        ahead
    };
    assert_eq!(heard(r#"[{"name":"a","sequence":7,"ahead":70}]"#), 70);
    // (agents of before say none)
    assert_eq!(heard(r#"[{"name":"a","sequence":7}]"#), 7);
    let below = r#"{"name":"b","parent":"a","connected":true,"sequence":12}"#;
    assert_eq!(heard(&format!(r#"[{{"name":"a","sequence":7}},{below}]"#)), 12);
    assert_eq!(heard(&format!(r#"[{{"name":"a","sequence":7,"ahead":9}},{below}]"#)), 12);
    assert_eq!(heard(&format!(r#"[{{"name":"a","sequence":50}},{below}]"#)), 50);
    let last = u64::MAX;
    assert_eq!(heard(&format!(r#"[{{"name":"a","sequence":{last}}},{below}]"#)), 12);
    // (who is not connected there may be elsewhere, and have another number now)
    let away = r#"{"name":"c","parent":"a","sequence":13,"ahead":14}"#;
    assert_eq!(heard(&format!(r#"[{{"name":"a","sequence":7}},{away},{below}]"#)), 12);
    assert_eq!(Below::new(sha256).numbers("a"), [0, 0]);
}

#[test]
fn refuses_a_list_that_is_none() {
    let mut now = rignoldad::system::time();
    let seen = |name: &str, parent: &str| Seen {
        name: name.into(),
        parent: parent.into(),
        ..Default::default()
    };
    let good = vec![seen("a", ""), seen("b", "a")];
    let bad: [Vec<Seen>; 2] = [vec![], vec![seen("b", "")]];
    let mut below = Below::new(sha256);
    assert!(below.heard("a", &serde_json::to_vec(&good).unwrap(), now));
    for list in bad {
        now += Duration::from_secs(1);
        assert!(!below.heard("a", &serde_json::to_vec(&list).unwrap(), now), "{list:?}");
    }
    now += Duration::from_secs(1);
    assert!(!below.heard("a", &vec![b' '; REPORT_BYTES + 1], now));
    assert_eq!(below.tree(&status("root", &["a"]), now).len(), 3, "the good one stays");
    assert_eq!(below.agents(), 2);
    let mut state = 1_u64;
    for _ in 0..2_000 {
        let mut bytes = serde_json::to_vec(&good).unwrap();
        for _ in 0..3 {
            state = state.wrapping_mul(6_364_136_223_846_793_005).wrapping_add(1);
            let at = (state >> 33) as usize % bytes.len();
            bytes[at] = (state >> 24) as u8;
        }
        now += Duration::from_secs(1);
        let _ = below.heard("a", &bytes, now);
    }
}

/// A leaf that says it were somebody else, or had somebody else below it, harms nobody's place.
#[test]
fn leaves_out_what_cannot_be_of_a_tree() {
    let now = rignoldad::system::time();
    let seen = |name: &str, parent: &str| Seen {
        name: name.into(),
        parent: parent.into(),
        applied: 9,
        ..Default::default()
    };
    let names = |list: &[Seen]| -> Vec<(String, String)> {
        list.iter().map(|seen| (seen.name.clone(), seen.parent.clone())).collect()
    };
    let pairs = |list: &[(&str, &str)]| -> Vec<(String, String)> {
        list.iter().map(|(name, parent)| (name.to_string(), parent.to_string())).collect()
    };
    let lies = [
        seen("liar", ""),
        seen("liar", "liar"),
        seen("x", "unknown"),
        seen("../y\u{1b}[0m", "liar"),
        seen("honest", "liar"),
        seen("root", "liar"),
        seen("far", "liar"),
        seen("below", "honest"),
    ];
    let (mut root, mut parent) = (Below::new(sha256), Below::new(sha256));
    assert!(parent.heard("liar", &serde_json::to_vec(&lies).unwrap(), now));
    let list = parent.tree(&status("parent", &["liar", "honest"]), now);
    let expected = [
        ("parent", ""),
        ("liar", "parent"),
        ("root", "liar"),
        ("far", "liar"),
        ("honest", "parent"),
    ];
    assert_eq!(names(&list), pairs(&expected));
    assert_eq!(list[4].applied, 0, "what a sibling says does not count");
    // (above, what another child says of itself counts, and so does the name of who is asked)
    let report = parent.report(&status("parent", &["liar", "honest"]), now);
    assert!(root.heard("parent", &report, now));
    let list = root.tree(&status("root", &["parent", "far"]), now);
    let expected = [
        ("root", ""),
        ("parent", "root"),
        ("liar", "parent"),
        ("honest", "parent"),
        ("far", "root"),
    ];
    assert_eq!(names(&list), pairs(&expected));
}

#[test]
fn a_report_is_never_too_long() {
    let now = rignoldad::system::time();
    let names: Vec<String> = (0..9_000).map(|at| format!("{at:064}")).collect();
    let names: Vec<&str> = names.iter().map(String::as_str).collect();
    let long = "a".repeat(64);
    let bytes = Below::new(sha256).report(&status(&long, &names), now);
    assert!(bytes.len() <= REPORT_BYTES);
    let mut root = Below::new(sha256);
    assert!(root.heard(&long, &bytes, now));
    // (of those that are left out nobody knows whether they have it, and so of the others)
    let list = root.tree(&status("root", &[&long]), now);
    assert!(list.len() < 9_000 && list[1].connected);
    assert_eq!(lacks(&list[1], 5), Some("has more agents below it than it can report"));
    assert!(!tree(now).iter().any(|seen| seen.cut));
}

#[test]
fn the_tree_is_a_line_for_each_agent() {
    let text = tree_text(&tree(rignoldad::system::time()));
    let lines: Vec<&str> = text.lines().collect();
    assert_eq!(lines.len(), 6);
    assert!(lines[5].starts_with("      d"), "{text}");
    assert!(lines.iter().skip(1).all(|line| line.ends_with("-      -        up")), "{text}");
    let compared = [Compared::Same, Compared::Differs, Compared::NotKnown];
    let list = compared.map(|compared| Seen { compared, ..seen("a", "", true) });
    let text = tree_text(&list);
    let ends = ["same       -        up", "differ     -        up", "not known  -        up"];
    assert!(text.lines().skip(1).zip(ends).all(|(line, end)| line.ends_with(end)), "{text}");
    let lack = list.each_ref().map(|seen| lacks(seen, 5));
    assert_eq!(lack[0], None);
    assert_eq!(lack[1], Some("has other settings in its files"));
    assert_eq!(lack[2], Some("has not said what its files are"));
}

fn seen(name: &str, parent: &str, connected: bool) -> Seen {
    let (name, parent) = (name.into(), parent.into());
    Seen { name, parent, connected, sequence: 5, applied: 5, whole: true, ..Default::default() }
}

/// What is known at a root whose children said this, a second after it.
fn known(children: &[(&str, bool)], lists: &[Vec<Seen>]) -> Vec<(String, String, bool)> {
    let (now, mut root) = (rignoldad::system::time(), Below::new(sha256));
    for list in lists {
        assert!(root.heard(&list[0].name, &serde_json::to_vec(list).unwrap(), now));
    }
    let names: Vec<&str> = children.iter().map(|(name, _)| *name).collect();
    let mut status = status("root", &names);
    for (child, (_, connected)) in status.children.iter_mut().zip(children) {
        child.connected = *connected;
    }
    let list = root.tree(&status, now + Duration::from_secs(1));
    list.into_iter().skip(1).map(|it| (it.name, it.parent, it.connected)).collect()
}

#[test]
fn an_agent_is_where_it_is_connected() {
    let at = |name: &str, parent: &str, connected| (name.into(), parent.into(), connected);
    let a = at("a", "root", true);
    let rack = |name: &str, leaf, below: &[Seen]| {
        let head = [seen(name, "", true), seen("leaf", name, leaf)];
        [&head[..], below].concat()
    };
    let both = [("a", true), ("b", true)];
    let far = [seen("far", "leaf", true)];
    // (at its second parent; and what the first one knows of those below it is old)
    let lists = [rack("a", false, &far), rack("b", true, &far)];
    let b = [at("b", "root", true), at("leaf", "b", true), at("far", "leaf", true)];
    assert_eq!(known(&both, &lists), [&[a.clone()][..], &b].concat());
    // (its first parent went away with what it knew)
    let lists = [rack("a", true, &far), rack("b", true, &[])];
    let away = at("a", "root", false);
    let expected = [&[away][..], &b[..2]].concat();
    assert_eq!(known(&[("a", false), ("b", true)], &lists), expected);
    // (nowhere, so it is away once)
    let lists = [rack("a", false, &[]), rack("b", false, &[])];
    let expected = [a.clone(), at("leaf", "a", false), at("b", "root", true)];
    assert_eq!(known(&both, &lists), expected);
    // (a child that has a connection here is here, whatever another one says; else it is there)
    let list = [vec![seen("a", "", true), seen("b", "a", true)]];
    assert_eq!(known(&both, &list), [a.clone(), at("b", "root", true)]);
    assert_eq!(known(&[("a", true), ("b", false)], &list), [a, at("b", "a", true)]);
}

#[test]
fn of_two_that_say_it_is_connected_the_last_heard_one_counts() {
    let mut old = vec![seen("a", "", true), seen("leaf", "a", true), seen("only", "leaf", true)];
    old[1].age = 9;
    let new = vec![seen("b", "", true), seen("leaf", "b", true)];
    let list = known(&[("a", true), ("b", true)], &[old, new]);
    let names: Vec<&str> =
        list.iter().map(|(name, parent, _)| [name, parent][1].as_str()).collect();
    assert_eq!((list.len(), names), (3, vec!["root", "root", "b"]));
}

#[test]
fn invented_agents_drive_nobody_out() {
    let now = rignoldad::system::time();
    let (mut rack, mut root) = (Below::new(sha256), Below::new(sha256));
    let name = |at| format!(r#",{{"name":"n{at}","parent":"liar","connected":true}}"#);
    let liar = |most| format!(r#"[{{"name":"liar"}}{}]"#, (0..most).map(name).collect::<String>());
    // (there is more than a report may have; and then more than goes into one when it is passed on)
    assert!(!rack.heard("liar", liar(10_000).as_bytes(), now - Duration::from_secs(1)));
    assert!(rack.heard("liar", liar(9_999).as_bytes(), now));
    let honest: Vec<String> = (0..500).map(|at| format!("z{at}")).collect();
    let mut zeta = vec![seen("zeta", "", true)];
    zeta.extend(honest.iter().map(|name| seen(name, "zeta", true)));
    assert!(rack.heard("zeta", &serde_json::to_vec(&zeta).unwrap(), now));
    let report = rack.report(&status("rack", &["host", "liar", "zeta"]), now);
    assert!(report.len() <= REPORT_BYTES && root.heard("rack", &report, now));
    let list = root.tree(&status("root", &["rack"]), now);
    let cut: Vec<&str> = list.iter().filter(|it| it.cut).map(|it| &*it.name).collect();
    assert_eq!(cut, ["liar"]);
    for name in ["host", "zeta", "z0", "z499"] {
        assert!(list.iter().any(|it| it.name == name), "{name}");
    }
    assert!(list.len() > 2_000, "{}", list.len());
}

#[test]
fn a_tree_is_as_deep_as_its_deepest_agent() {
    let (now, mut root) = (rignoldad::system::time(), Below::new(sha256));
    let mut hears = |name: &str, list: &[Seen]| {
        assert!(root.heard(name, &rignoldactl::report(list), now));
        root.depth()
    };
    assert_eq!(hears("a", &[seen("a", "", true)]), 1);
    let list = [seen("b", "", true), seen("c", "b", false), seen("d", "c", false)];
    assert_eq!(hears("b", &list), 3);
    // (below one that has more than it says they may be deeper)
    assert_eq!(hears("e", &[Seen { cut: true, ..seen("e", "", true) }]), 10);
    root.forget("e");
    root.forget("b");
    assert_eq!(root.depth(), 1);
}

#[test]
fn a_chain_without_end_is_cut() {
    let name = |at: usize| if at == 0 { "liar".into() } else { format!("n{at}") };
    let parent = |at: usize| if at == 0 { "".into() } else { name(at - 1) };
    let chain: Vec<Seen> = (0..3_000).map(|at| seen(&name(at), &parent(at), true)).collect();
    let (now, mut root) = (rignoldad::system::time(), Below::new(sha256));
    assert!(root.heard("liar", &rignoldactl::report(&chain), now));
    let list = root.tree(&status("root", &["liar"]), now);
    assert_eq!((list.len(), depths(&list).pop()), (65, Some(64)));
    assert_eq!(lacks(&list[1], 5), Some("has more agents below it than it can report"));
    assert!(tree_text(&list).len() < 66 * 300);
    assert_eq!(harmless_needed(&list), 2 * 64 + 3);
    assert!(too_few_harmless(&list).unwrap().contains("as at n63 needs"));
    assert_eq!(root.depth(), 64);
    // (and no list of very many takes many times its bytes)
    let many = format!("[{{\"name\":\"liar\"}}{}]", ",{}".repeat(300_000));
    assert!(!root.heard("liar", many.as_bytes(), now + Duration::from_secs(1)));
}

#[test]
fn what_was_said_before_it_connected_counts_for_nothing() {
    let (now, mut root) = (rignoldad::system::time(), Below::new(sha256));
    let list = serde_json::to_vec(&[seen("a", "", true), seen("b", "a", true)]).unwrap();
    assert!(root.heard("a", &list, now));
    let mut above = status("root", &["a"]);
    above.children[0].since = 1_000;
    let lack = |list: Vec<Seen>| list.iter().map(|it| lacks(it, 5)).collect::<Vec<_>>();
    let not = Some("has not applied it");
    assert_eq!(lack(root.tree(&above, now + Duration::from_secs(2))), [None, not, not]);
    assert!(root.heard("a", &list, now + Duration::from_secs(2)));
    assert_eq!(lack(root.tree(&above, now + Duration::from_secs(2))), [None, None, None]);
}

/// Many take a while to read, and so often they are not sent; but of what comes, the last one
/// counts in the end.
#[test]
fn of_what_comes_too_soon_the_last_is_read_when_its_time_has_come() {
    let (now, mut root) = (rignoldad::system::time(), Below::new(sha256));
    let after = |millis| now + Duration::from_millis(millis);
    let mut list: Vec<Seen> = (0..1_000).map(|at| seen(&format!("n{at}"), "a", true)).collect();
    list.insert(0, seen("a", "", true));
    let bytes = rignoldactl::report(&list);
    assert!(root.heard("a", &bytes, now));
    assert_eq!((root.reads_at(now), root.reads(now)), (None, vec![]));
    let known = |root: &Below| root.tree(&status("root", &["a"]), after(1_000)).len();
    for (at, count) in [(0, 9), (50, 4), (50, 3)] {
        list.truncate(count);
        assert!(root.heard("a", &rignoldactl::report(&list), after(at)));
        assert_eq!((known(&root), root.reads(after(at))), (1_002, vec![]));
    }
    assert!(!root.heard("a", &vec![b' '; REPORT_BYTES + 1], after(50)), "this waits for nothing");
    assert!(root.heard("a", &rignoldactl::report(&list), after(51)));
    let at = root.reads_at(after(51)).unwrap();
    assert!(at > after(51) && at < after(500), "{:?}", at - now);
    assert_eq!((root.reads(at), known(&root)), (vec!["a".to_string()], 4));
    assert_eq!((root.reads(at), root.reads_at(at)), (vec![], None));
    // (it is of when it came, and not of when it was read)
    let ages = root.tree(&status("root", &["a"]), after(1_051));
    assert_eq!(ages[1].age, 1_000);
    // (and what is no list is none then)
    let bytes = vec![b'x'; REPORT_BYTES];
    assert!(!root.heard("a", &bytes, after(1_100)) && root.heard("a", &bytes, after(1_101)));
    let at = root.reads_at(after(1_101)).unwrap();
    assert_eq!((root.reads(at), root.reads_at(at), known(&root)), (vec![], None, 4));
    root.forget("a");
    assert_eq!(known(&root), 2);
}

#[test]
fn what_is_harmless_is_no_lag() {
    let mut list = tree(rignoldad::system::time());
    (list[0].sequence, list[0].changed, list[3].applied, list[4].applied) = (30, 6, 4, 0);
    let text = tree_text(&list);
    let lag = |line: &str| line.split_whitespace().nth(1).map(String::from);
    let lags: Vec<String> = text.lines().skip(1).filter_map(lag).collect();
    assert_eq!(lags, ["1", "1", "1", "2", "-"], "{text}");
    list[0].changed = 4;
    assert!(tree_text(&list).lines().nth(2).unwrap().contains(" 0 "));
    // (where numbers jumped, as from one root to another, that is no count of bodies)
    list[0].changed = 10_000_004_389_708;
    assert!(tree_text(&list).lines().nth(2).unwrap().contains(" many "));
}

/// What is said of a version is three numbers, and a certificate is said while it ends soon.
#[test]
fn what_an_agent_says_of_its_program_is_short() {
    for (text, kept) in [
        ("0.6.0", "0.6.0"),
        ("1.0.1023", "1.0.1023"),
        ("1.2", ""),
        ("1.2.3.4", ""),
        ("1.2.1024", ""),
        ("1.2.-3", ""),
        ("a", ""),
    ] {
        let bytes = format!(r#"[{{"name":"a","version":"{text}"}}]"#);
        let (now, mut root) = (rignoldad::system::time(), Below::new(sha256));
        assert!(root.heard("a", bytes.as_bytes(), now), "{text}");
        let version = root.tree(&status("root", &["a"]), now)[1].version;
        assert_eq!(rignoldactl::dotted::text(version), kept);
    }
    let unix = rignoldactl::unix_now();
    let expires = |certificate_expires| Status { certificate_expires, unix, ..Status::default() };
    let soon = unix + rignoldactl::SOON;
    let said: [u64; 4] = [0, 1, soon - 60, soon + 60].map(|at| expires(at).seen().expires.into());
    assert_eq!(said, [0, 1, soon - 60, 0]);
}

#[test]
fn progress_is_a_short_line() {
    let lacking =
        |count| (0..count).map(|at| format!("n{at} is not connected")).collect::<Vec<_>>();
    assert_eq!(progress(3, &[]), "3 of 3 agents have it");
    assert_eq!(progress(3, &lacking(1)), "2 of 3 agents have it: n0 is not connected");
    let line = "270 of 300 agents have it: n0 is not connected, and 29 more";
    assert_eq!(progress(300, &lacking(30)), line);
    let long = ["x".repeat(200), "y".repeat(200)];
    assert!(progress(2, &long).len() <= 79 && progress(2, &long).ends_with(", and 1 more"));
}

/// Who has said nothing since its parent began may be of any group.
#[test]
fn who_may_be_of_a_group_is_waited_for() {
    let said = Seen { limit: 10, ..seen("a", "", true) };
    let of = |groups: &[&str], more: Seen| {
        lacks_of(
            &Seen { groups: groups.iter().map(|it| it.to_string()).collect(), ..more },
            "eu",
            5,
        )
    };
    assert_eq!(of(&["eu"], said.clone()), None);
    assert_eq!(of(&["eu"], Seen { applied: 4, ..said.clone() }), Some("has not applied it"));
    assert_eq!(of(&["us"], Seen { applied: 4, ..said.clone() }), None);
    assert_eq!(of(&["us"], Seen { cut: true, ..said }), Some(CUT));
    for connected in [true, false] {
        assert_eq!(of(&[], Seen { connected, ..Seen::default() }), Some(NOT_HEARD));
    }
}

#[test]
fn who_is_gone_for_good_is_left_out_until_it_is_back() {
    let (now, mut root) = (rignoldad::system::time(), Below::new(sha256));
    let list = [seen("a", "", true), seen("b", "a", false), seen("c", "b", false)];
    assert!(root.heard("a", &rignoldactl::report(&list), now));
    let names = |root: &Below| -> Vec<String> {
        root.tree(&status("root", &["a"]), now).into_iter().map(|it| it.name).collect()
    };
    root.leave_out("b");
    assert_eq!(names(&root), ["root", "a"]);
    // (nobody is left out who is connected)
    root.leave_out("a");
    root.are_back(&status("root", &["a"]), now);
    assert_eq!(names(&root), ["root", "a"]);
    let later = now + Duration::from_secs(1);
    let list = [seen("a", "", true), seen("b", "a", true), seen("c", "b", false)];
    assert!(root.heard("a", &rignoldactl::report(&list), later));
    assert_eq!(names(&root), ["root", "a", "b", "c"]);
    root.are_back(&status("root", &["a"]), later);
    let list = [seen("a", "", true), seen("b", "a", false)];
    assert!(root.heard("a", &rignoldactl::report(&list), later + Duration::from_secs(1)));
    assert_eq!(names(&root), ["root", "a", "b"]);
}

#[test]
fn a_probe_says_what_an_agent_is_not() {
    let all = Probe { connected: true, within: Some(Duration::from_secs(9)), sound: true };
    let well = || Status { parent: Some("a".into()), round_age: 9_000, ..status("b", &[]) };
    let says = |status: Status| all.fails(&status).unwrap_or_default();
    assert_eq!(says(well()), "");
    assert_eq!(says(Status { parent: None, ..well() }), "it has no parent");
    assert_eq!(says(Status { cost: 128, ..well() }), "its way has no root");
    assert_eq!(says(Status { whole: false, ..well() }), "it waits for a whole table");
    assert_eq!(says(Status { round_age: 9_001, ..well() }), "its last whole table came 9.0 s ago");
    assert!(says(Status { failing: 1, ..well() }).starts_with("1 settings have a file or a hook"));
    assert!(says(Status { unpublished: 1, ..well() }).contains("cannot be published"));
    let root = || Status { is_root: true, parent: None, whole: false, ..well() };
    assert_eq!(says(root()), "");
    // (each is asked for by itself)
    let bad = Status { failing: 1, cost: 128, whole: false, ..well() };
    assert_eq!(Probe::default().fails(&bad), None);
    assert!(Probe { sound: true, ..Probe::default() }.fails(&bad).unwrap().contains("a hook"));
}

/// What an agent says of what fails there takes one line, and no more of it than a report has.
#[test]
fn why_something_fails_stays_on_its_line() {
    let (now, mut root) = (rignoldad::system::time(), Below::new(sha256));
    let why = format!("colour: its file: a\nb\u{1b}[2J {}", "x".repeat(5_000));
    let list = [Seen { failing: 2, why, limit: 9, ..seen("a", "", true) }];
    assert!(root.heard("a", &rignoldactl::report(&list), now));
    let list = root.tree(&status("root", &["a"]), now);
    let text = tree_text(&list);
    assert_eq!(text.lines().count(), 3, "{text}");
    assert!(text.contains("2 failing, colour: its file: a\\nb\\u001b[2J xxx"), "{text}");
    assert_eq!(list[1].why.chars().count(), rignoldactl::WHY);
    let failures = vec!["y".repeat(500), "z".into()];
    let status = Status { failing: 2, failures, faults: vec!["a\nb".into()], ..status("a", &[]) };
    assert_eq!(status.seen().why, "y".repeat(rignoldactl::WHY));
    let text = rignoldactl::text::status_text(&status);
    assert!(text.contains("not published  a\\nb\n"), "{text}");
}

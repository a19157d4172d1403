//! Reports of what changed: what the parent has after them is what a whole list would give.
use rignolda_machine::below::reports::{self, id, Told, WHOLE};
use rignolda_machine::below::{Below, EACH};
use rignolda_machine::control::{report, ChildStatus, Seen, Status};
use rignolda_machine::net::wire::REPORT_BYTES;
use rignolda_machine::Time;
use std::collections::{BTreeMap, BTreeSet};
use std::time::Duration;

/// The SHA-256 of these bytes, one part behind the other.
fn sha256(parts: &[&[u8]]) -> [u8; 32] {
    openssl::sha::sha256(&parts.concat())
}

/// How much an age may be wrong, in milliseconds.
const RIGHT_TO: u64 = 1_000;

/// Numbers that look drawn, and are the same in each run.
struct Random(u64);

impl Random {
    fn below(&mut self, most: usize) -> usize {
        self.0 = self.0.wrapping_mul(6_364_136_223_846_793_005).wrapping_add(1);
        (self.0 >> 33) as usize % most
    }
}

fn status(name: &str, children: &[&str]) -> Status {
    let child = |name: &&str| ChildStatus {
        name: name.to_string(),
        connected: true,
        since: 60_000,
        ..Default::default()
    };
    let children = children.iter().map(child).collect();
    Status { name: name.into(), limit: 10, children, ..Default::default() }
}

/// A tree that changes: each agent but `a` has a parent, and some are not connected.
struct Drawn(BTreeMap<String, Seen>, Random);

impl Drawn {
    fn new(seed: u64) -> Drawn {
        let first = Seen { name: "a".into(), connected: true, limit: 10, ..Seen::default() };
        Drawn([("a".to_string(), first)].into(), Random(seed))
    }

    fn is_below(&self, name: &str, above: &str) -> bool {
        name == above || self.0.get(name).is_some_and(|it| self.is_below(&it.parent, above))
    }

    /// Something changes.
    fn step(&mut self) {
        let names: Vec<String> = self.0.keys().cloned().collect();
        let some = names[self.1.below(names.len())].clone();
        let other = names[self.1.below(names.len())].clone();
        let number = self.1.below(1_000) as u64;
        match self.1.below(9) {
            0..=2 if names.len() < 40 => {
                let new = format!("{}{}", ["n", "b", "z"][self.1.below(3)], self.1.below(60));
                let seen = Seen { connected: true, limit: 10, age: number * 9, ..Seen::default() };
                let seen = Seen { name: new.clone(), parent: some, ..seen };
                self.0.entry(new).or_insert(seen);
            }
            3 if some != "a" => {
                let gone: Vec<_> = names.iter().filter(|it| self.is_below(it, &some)).collect();
                gone.into_iter().for_each(|it| drop(self.0.remove(it)));
            }
            4 if some != "a" && !self.is_below(&other, &some) => {
                self.0.get_mut(&some).unwrap().parent = other;
            }
            5 => {
                let groups = ["canary", "eu"][..self.1.below(3)].iter().map(|it| it.to_string());
                self.0.get_mut(&some).unwrap().groups = groups.collect();
            }
            6 if some != "a" => {
                let seen = self.0.get_mut(&some).unwrap();
                (seen.connected, seen.age) = (!seen.connected, number * 90);
            }
            7 => {
                let seen = self.0.get_mut(&some).unwrap();
                (seen.why, seen.failing) = (["", "a: no room"][self.1.below(2)].into(), number % 2);
                (seen.expires, seen.digest) = (number as u32 % 3, number << 50);
            }
            _ => {
                // (a change that most have)
                let seen =
                    |it: &mut Seen| (it.sequence, it.applied, it.ahead) = (number, number, 0);
                let part = self.1.below(3);
                let all = self.0.values_mut().enumerate();
                all.filter(|(at, _)| at % 3 != part).for_each(|(_, it)| seen(it));
            }
        }
    }

    /// This long after that, of some of whom it was heard meanwhile.
    fn passes(&mut self, millis: u64) {
        for seen in self.0.values_mut() {
            let is_heard = seen.name == "a" || (seen.connected && self.1.below(6) == 0);
            seen.age = if is_heard { 0 } else { seen.age + millis };
        }
    }

    /// The list, as an agent makes it.
    fn list(&self) -> Vec<Seen> {
        let (mut list, mut next) = (Vec::new(), vec!["a".to_string()]);
        while let Some(name) = next.pop() {
            let below = self.0.values().filter(|it| it.parent == name);
            next.extend(below.map(|it| it.name.clone()).rev());
            list.push(self.0[&name].clone());
        }
        list
    }
}

/// What a parent knows.
fn known(below: &Below, now: Time) -> (Vec<Seen>, Option<u64>, [u64; 2], u32, u32) {
    let list = below.tree(&status("root", &["a"]), now);
    (list, below.number("a"), below.numbers("a"), below.agents(), below.depth())
}

/// The same, with ages apart.
type Known = (Vec<Seen>, Option<u64>, [u64; 2], u32, u32);
fn without_ages(mut known: Known) -> (Known, Vec<u64>) {
    let ages = known.0.iter_mut().map(|it| std::mem::take(&mut it.age)).collect();
    (known, ages)
}

/// The next report: of changes, where they are shorter and there is a base.
fn next(told: &mut Told, list: &[Seen], now: Time) -> Vec<u8> {
    told.changes(1, list, sha256, now).unwrap_or_else(|| {
        let whole = report(list);
        told.tells(1, list.to_vec(), id(&whole, sha256), now);
        whole
    })
}

#[test]
fn changes_give_what_a_whole_list_would() {
    let (mut changes, mut bytes) = (0, [0; 2]);
    for seed in 0..60 {
        let (mut drawn, mut now) = (Drawn::new(seed), Time::after(Duration::from_secs(3_600)));
        let (mut told, mut parent) = (Told::default(), Below::new(sha256));
        for _ in 0..60 {
            (0..drawn.1.below(4)).for_each(|_| drawn.step());
            let millis = [100, 2_345][drawn.1.below(2)];
            drawn.passes(millis);
            now += Duration::from_micros(millis * 1_000 + 456);
            let list = drawn.list();
            let (sent, whole) = (next(&mut told, &list, now), report(&list));
            assert!(sent.len() <= whole.len());
            changes += usize::from(sent != whole);
            bytes = [bytes[0] + sent.len(), bytes[1] + whole.len()];
            let had: BTreeSet<_> = known(&parent, now).0.into_iter().map(|it| it.groups).collect();
            assert!(parent.heard("a", &sent, now));
            assert!(parent.asked().is_empty());
            let mut by_whole = Below::new(sha256);
            assert!(by_whole.heard("a", &whole, now));
            let (is, ages) = without_ages(known(&parent, now));
            let (expected, right) = without_ages(known(&by_whole, now));
            assert_eq!(is, expected);
            for ((seen, is), right) in is.0.iter().zip(ages).zip(right) {
                assert!(is.abs_diff(right) <= RIGHT_TO, "{seed} {}: {is}, {right}", seen.name);
            }
            // (that there are other groups is told)
            let now_has: BTreeSet<_> = is.0.iter().map(|it| it.groups.clone()).collect();
            assert!(parent.has_other_groups() || had == now_has);
        }
    }
    assert!(changes > 2_000, "{changes}");
    assert!(bytes[0] * 2 < bytes[1], "{bytes:?}");
}

#[test]
fn an_age_that_grows_is_no_change() {
    let (mut drawn, mut now) = (Drawn::new(1), Time::after(Duration::from_secs(3_600)));
    (0..200).for_each(|_| drawn.step());
    let (mut told, mut parent) = (Told::default(), Below::new(sha256));
    for round in 0..250 {
        let list = drawn.list();
        let sent = next(&mut told, &list, now);
        assert_eq!(parts(&sent), round > 0);
        assert!(round == 0 || sent.len() < 32, "{}", String::from_utf8_lossy(&sent));
        assert!(parent.heard("a", &sent, now));
        let ages = |list: &[Seen]| list.iter().map(|it| it.age).collect::<Vec<_>>();
        assert_eq!(ages(&known(&parent, now).0[1..]), ages(&list));
        // (which adds up, in parts of a millisecond too)
        now += Duration::from_micros(100_000);
        drawn.0.values_mut().filter(|it| it.name != "a").for_each(|it| it.age += 100);
    }
}

/// Whether a report is one of changes.
fn parts(report: &[u8]) -> bool {
    reports::parts(report).is_some()
}

/// A parent that has this list, and what its child told it last; and the list with a change.
fn told(now: Time) -> (Below, Told, Vec<Seen>) {
    let mut drawn = Drawn::new(3);
    (0..100).for_each(|_| drawn.step());
    let (mut parent, mut told, mut list) = (Below::new(sha256), Told::default(), drawn.list());
    assert!(parent.heard("a", &next(&mut told, &list, now), now));
    list.last_mut().unwrap().gaps += 1;
    (parent, told, list)
}

/// Without what it was made from, a report of changes changes nothing; a whole one is asked for
/// once, and from then on all is right.
#[test]
fn changes_of_another_list_are_left_out_and_all_is_asked_for() {
    let now = Time::after(Duration::from_secs(3_600));
    let after = |seconds| now + Duration::from_secs(seconds);
    let (_, mut child, list) = told(now);
    let lost = next(&mut child, &list, after(1));
    let again = |mut list: Vec<Seen>| {
        list.last_mut().unwrap().gaps += 1;
        list
    };
    let (second, whole) = (next(&mut child, &again(list.clone()), after(2)), report(&list));
    assert!(parts(&lost) && parts(&second));
    let spoiled = |at: usize| {
        let mut bytes = lost.clone();
        bytes[at] ^= 1;
        bytes
    };
    let short = lost[..9].to_vec();
    for bytes in [second, spoiled(1), spoiled(16), short, b"C".to_vec()] {
        let (mut parent, ..) = told(now);
        let before = known(&parent, after(4));
        for _ in 0..3 {
            assert!(parent.heard("a", &bytes, after(3)));
        }
        assert_eq!(known(&parent, after(4)), before);
        assert_eq!((parent.asked(), parent.asked()), (vec!["a".to_string()], vec![]));
        assert!(parent.heard("a", &whole, after(3)));
        let mut by_whole = Below::new(sha256);
        assert!(by_whole.heard("a", &whole, after(3)));
        assert_eq!(known(&parent, after(4)), known(&by_whole, after(4)));
        // (and if one is lost again, it is asked for again)
        assert!(parent.heard("a", &bytes, after(5)));
        assert_eq!(parent.asked(), ["a"]);
    }
    // (one that has heard of nobody yet, and one that forgot this child)
    let (mut forgot, ..) = told(now);
    forgot.forget("a");
    for mut parent in [Below::new(sha256), forgot] {
        assert!(parent.heard("a", &lost, after(3)));
        assert_eq!((parent.asked(), parent.agents()), (vec!["a".to_string()], 0));
    }
}

/// Whatever the memory of a child has for what it told, the next whole list makes all right, and
/// that comes in time.
#[test]
fn all_is_told_again_now_and_then() {
    let now = Time::after(Duration::from_secs(3_600));
    let (_, mut child, list) = told(now);
    let before = WHOLE - Duration::from_millis(1);
    assert_eq!(child.again(), Some(now + WHOLE));
    assert!(child.changes(1, &list, sha256, now + before).is_some());
    assert_eq!(child.again(), Some(now + WHOLE));
    assert!(child.changes(1, &list, sha256, now + WHOLE).is_none());
    assert_eq!(child.again(), None);
    // (what is ahead of now is spoiled; and another connection begins with all)
    let (_, mut child, list) = told(now + WHOLE);
    assert!(child.changes(1, &list, sha256, now).is_none());
    let (_, mut child, list) = told(now);
    assert!(child.changes(2, &list, sha256, now).is_none());
    let mut told = Told::default();
    assert!(told.changes(1, &list, sha256, now).is_none());
}

#[test]
fn an_older_parent_is_told_all() {
    let now = Time::after(Duration::from_secs(3_600));
    let (below, mut told) = (Below::new(sha256), Told::default());
    let status = status("a", &["b", "c"]);
    for (connection, is_changes) in
        [(None, false), (Some(1), false), (Some(1), true), (None, false), (Some(1), false)]
    {
        let sent = below.report_to(&mut told, connection, &status, now);
        assert_eq!(parts(&sent), is_changes);
        assert!(is_changes || sent == below.report(&status, now));
    }
    // (of what is too long for a report, another part may go into the next one)
    let names: Vec<String> = (0..9_990).map(|at| format!("{at:064}")).collect();
    let names: Vec<&str> = names.iter().map(String::as_str).collect();
    let status = self::status("a", &names);
    for _ in 0..2 {
        let sent = below.report_to(&mut told, Some(1), &status, now);
        assert!(!parts(&sent) && sent.len() <= REPORT_BYTES);
    }
}

fn changes(base: &[u8], json: &str) -> Vec<u8> {
    [b"C", &id(base, sha256)[..], json.as_bytes()].concat()
}

#[test]
fn changes_that_are_none_are_refused_and_what_is_known_stays() {
    let now = Time::after(Duration::from_secs(3_600));
    let whole =
        br#"[{"name":"a","sequence":5},{"name":"b","parent":"a"},{"name":"c","parent":"b"}]"#;
    let heard = |json: &str| {
        let mut parent = Below::new(sha256);
        assert!(parent.heard("a", whole, now));
        let later = now + Duration::from_secs(1);
        let is_one = parent.heard("a", &changes(whole, json), later);
        let list = known(&parent, later).0;
        let names: Vec<String> = list.into_iter().skip(1).map(|it| it.name).collect();
        let asks = !parent.heard("a", &changes(whole, "[[],[]]"), later) || {
            let at = parent.reads_at(later).unwrap_or(later);
            parent.reads(at);
            !parent.asked().is_empty()
        };
        (is_one, names.join(" "), asks)
    };
    let all = || "a b c".to_string();
    for json in ["", "[", "[]", "[[]]", "{}", "[[],[[[\"b\"]]]]", "[[1],[]]", "[[],[[[1],{}]]]"] {
        assert_eq!(heard(json), (false, all(), true), "{json}");
    }
    for json in [
        r#"[[],[[["b"],5]]]"#,
        r#"[[],[[["b"],{"sequence":"5"}]]]"#,
        r#"[[],[[["b"],{"sequence":5,"sequence":6}]]]"#,
        r#"[[],[[["b"],{"digest":5}]]] "#,
        r#"[[],[],[]]"#,
    ] {
        assert_eq!(heard(json), (false, all(), true), "{json}");
    }
    // (what is not known is left out, and so is what cannot be of a tree: then a whole list is
    // asked for at the next change)
    for (json, names) in [
        (r#"[["nobody"],[]]"#, "a b c"),
        (r#"[["a"],[]]"#, "a b c"),
        (r#"[["b"],[]]"#, "a"),
        (r#"[["c"],[[["e","d"],{"parent":"a"}]]]"#, "a b d e"),
        (r#"[[],[[["b"],{"name":"z","color":[1,{}],"compared":"same"}]]]"#, "a b c"),
        (r#"[[],[[["d"],{"parent":"z"}]]]"#, "a b c"),
        (r#"[[],[[["../d",""],{"parent":"a"}]]]"#, "a b c"),
        (r#"[[],[[["b"],{"parent":"c"}]]]"#, "a"),
        (r#"[[],[[["a"],{"parent":"c"}]]]"#, "a b c"),
        (r#"[[],[[["b"],{"parent":""}]]]"#, "a"),
        (r#"[[],[[["d"],{}]]]"#, "a b c"),
    ] {
        assert_eq!(heard(json), (true, names.into(), true), "{json}");
    }
    // (drawn ones do no harm)
    let (_, mut child, list) = told(now);
    let base = {
        let mut told = Told::default();
        next(
            &mut told,
            &{
                let mut list = list.clone();
                list.last_mut().unwrap().gaps -= 1;
                list
            },
            now,
        )
    };
    let good = next(&mut child, &list, now + Duration::from_secs(1));
    let mut random = Random(5);
    for _ in 0..5_000 {
        let (mut parent, mut bytes) = (Below::new(sha256), good.clone());
        assert!(parent.heard("a", &base, now));
        for _ in 0..1 + random.below(3) {
            let at = 17 + random.below(bytes.len() - 17);
            bytes[at] = random.below(256) as u8;
        }
        parent.heard("a", &bytes, now + Duration::from_secs(1));
        let list = known(&parent, now + Duration::from_secs(2)).0;
        assert!(list.len() > 1);
    }
}

/// A few bytes that name many agents count as what they add, and no list comes to more than one
/// that is sent whole may be.
#[test]
fn what_changes_add_is_bounded() {
    let now = Time::after(Duration::from_secs(3_600));
    let later = now + Duration::from_secs(9);
    let names = |count: usize| {
        let names: Vec<String> = (0..count).map(|at| format!(r#""n{at}""#)).collect();
        names.join(",")
    };
    let whole = br#"[{"name":"a"}]"#;
    for (json, is_one, agents) in [
        (format!(r#"[[],[[[{}],{{"parent":"a"}}]]]"#, names(9_999)), true, 10_000),
        (format!(r#"[[],[[[{}],{{"parent":"a"}}]]]"#, names(10_000)), false, 0),
        (format!(r#"[[],[[[{}],{{"parent":"a"}}]]]"#, names(50_000)), false, 1),
        (
            format!(r#"[[],[[[{}],{{"parent":"a","why":"{}"}}]]]"#, names(500), "x".repeat(9_000)),
            false,
            1,
        ),
    ] {
        let mut parent = Below::new(sha256);
        assert!(parent.heard("a", whole, now));
        assert_eq!(parent.heard("a", &changes(whole, &json), later), is_one);
        assert_eq!(parent.agents(), agents);
    }
    // (nor does it grow without end from one to the next)
    let (mut parent, mut base, mut at) = (Below::new(sha256), whole.to_vec(), now);
    assert!(parent.heard("a", whole, now));
    let groups: Vec<String> = (0..16).map(|at| format!(r#""{}{at:02}""#, "g".repeat(60))).collect();
    let (groups, mut taken) = (groups.join(","), 0);
    for round in 0..20 {
        let names: Vec<String> = (0..200).map(|it| format!(r#""n{round}_{it}""#)).collect();
        let names = names.join(",");
        let json = format!(r#"[[],[[[{names}],{{"parent":"a","groups":[{groups}]}}]]]"#);
        at += Duration::from_secs(9);
        base = changes(&base, &json);
        let before = parent.agents();
        parent.heard("a", &base, at);
        let list = known(&parent, at).0;
        let bytes = list.iter().map(|it| it.groups.concat().len()).sum::<usize>();
        assert!(bytes < 2 * REPORT_BYTES && bytes >= (list.len() - 2) * 900, "{bytes}");
        taken += u32::from(parent.agents() > before);
    }
    assert!((5..15).contains(&taken), "{taken}");
}

/// However many reports come, no more work is done for changes than for lists: each has its time,
/// by how many agents there are and how much changed. None is lost while there is room.
#[test]
fn changes_that_come_too_soon_wait_and_none_is_lost() {
    let now = Time::after(Duration::from_secs(3_600));
    let mut list: Vec<Seen> = (0..1_000)
        .map(|at| Seen { name: format!("n{at:03}"), parent: "a".into(), ..Seen::default() })
        .collect();
    list.insert(0, Seen { name: "a".into(), limit: 9, ..Seen::default() });
    let (mut child, mut parent) = (Told::default(), Below::new(sha256));
    assert!(parent.heard("a", &next(&mut child, &list, now), now));
    for round in 0..30 {
        list[1 + round].gaps = 7;
        let sent = next(&mut child, &list, now);
        assert!(parts(&sent) && parent.heard("a", &sent, now));
    }
    let gaps = |parent: &Below| known(parent, now).0.iter().filter(|it| it.gaps == 7).count();
    let (mut at, mut times) = (now, 0);
    assert_eq!(gaps(&parent), 0, "the list rests");
    while let Some(due) = parent.reads_at(at) {
        assert!(due > at);
        (at, times) = (due, times + 1);
        assert_eq!(parent.reads(at), ["a"]);
    }
    assert_eq!((gaps(&parent), parent.asked()), (30, vec![]));
    // (a few at once; and for what was done there is as much time as for lists of as many agents)
    assert!(times < 15, "{times}");
    assert!(at > now + EACH * 250 * 30 / 4, "{:?}", at - now);
    // (a whole one comes in the place of all that waits)
    let mut parent = Below::new(sha256);
    let mut child = Told::default();
    assert!(parent.heard("a", &next(&mut child, &list, now), now));
    for gaps in 0..5 {
        list[900].gaps = gaps;
        assert!(parent.heard("a", &next(&mut child, &list, now), now));
    }
    list[900].gaps = 99;
    let whole = report(&list);
    child.tells(1, list.clone(), id(&whole, sha256), now);
    assert!(parent.heard("a", &whole, now));
    list[901].gaps = 98;
    assert!(parent.heard("a", &next(&mut child, &list, now), now));
    let mut times = 0;
    while let Some(due) = parent.reads_at(at) {
        assert_eq!(parent.reads(due), ["a"]);
        (at, times) = (due, times + 1);
    }
    assert_eq!(times, 2);
    let seen = known(&parent, now).0;
    assert_eq!((seen[901].gaps, seen[902].gaps, parent.asked()), (99, 98, vec![]));
}

/// What waits takes no more room than a list, and is no more than comes in some seconds: what does
/// not fit is dropped, and a whole list is asked for at once.
#[test]
fn a_flood_of_changes_has_all_asked_for() {
    let now = Time::after(Duration::from_secs(3_600));
    let whole = report(&[Seen { name: "a".into(), limit: 9, ..Seen::default() }]);
    for (long, least, most) in [(20_000, 20, 60), (0, 30, 100)] {
        let (mut parent, mut base) = (Below::new(sha256), whole.clone());
        assert!(parent.heard("a", &whole, now));
        let (mut taken, mut asked) = (0, 0);
        for round in 0..500 {
            let why = "y".repeat(long);
            let json = format!(r#"[[],[[["a"],{{"why":"{why}","gaps":{round}}}]]]"#);
            base = changes(&base, &json);
            assert!(parent.heard("a", &base, now));
            let asks = parent.asked().len();
            (taken, asked) = (taken + usize::from(asked + asks == 0), asked + asks);
        }
        assert!((least..most).contains(&taken) && asked == 1, "{taken} {asked}");
        let mut at = now;
        while let Some(due) = parent.reads_at(at) {
            at = due;
            parent.reads(at);
        }
        let gaps = known(&parent, at).0[1].gaps;
        assert_eq!((gaps + 1, parent.asked()), (taken as u64, vec![]));
        let later = at + Duration::from_secs(1);
        assert!(parent.heard("a", &whole, later));
        assert_eq!(known(&parent, later).0[1].gaps, 0);
    }
}

/// A tree of 120 agents takes a change: all that its reports come to, as lists and as changes.
/// (Each leaf reports once, and who is above it after each third report that came.)
#[test]
fn at_120_agents_a_change_costs_a_seventh() {
    let mut bytes = [0; 2];
    for (is_new, bytes) in [false, true].into_iter().zip(&mut bytes) {
        let mut tree = BTreeMap::<String, (Status, Below, Told, usize)>::new();
        let mut add = |name: &str, below: &[String]| {
            let names: Vec<&str> = below.iter().map(String::as_str).collect();
            let status = Status { version: "0.7.0".into(), applies: true, ..status(name, &names) };
            tree.insert(name.into(), (status, Below::new(sha256), Told::default(), 0));
        };
        let named = |of: &str, count| (1..=count).map(|at| format!("{of}{at}")).collect::<Vec<_>>();
        let mut paths = Vec::new();
        for hub in named("hub", 3) {
            let racks = named(&format!("{hub}-"), 3);
            add(&hub, &racks);
            for rack in racks {
                let hosts = named(&format!("{rack}-"), 12);
                add(&rack, &hosts);
                for host in hosts {
                    add(&host, &[]);
                    paths.push([host, rack.clone(), hub.clone()]);
                }
            }
        }
        assert_eq!(tree.len(), 120);
        let mut now = Time::after(Duration::from_secs(3_600));
        for number in 1_796_057_854_401_288..1_796_057_854_401_291 {
            *bytes = 0;
            for path in &paths {
                let mut sent: Option<(String, Vec<u8>)> = None;
                for name in path {
                    now += Duration::from_millis(40);
                    let (status, below, told, came) = tree.get_mut(name).unwrap();
                    if let Some((child, report)) = sent.take() {
                        assert!(below.heard(&child, &report, now), "{child}");
                        *came += 1;
                        if *came % 3 != 0 {
                            break;
                        }
                    }
                    let numbers = [&mut status.sequence, &mut status.applied, &mut status.files];
                    numbers.into_iter().for_each(|it| *it = number);
                    (status.ahead, status.changed, status.digest) = (number, number, number << 7);
                    let report = below.report_to(told, is_new.then_some(1), status, now);
                    *bytes += report.len();
                    sent = Some((name.clone(), report));
                }
            }
        }
    }
    assert!(bytes[1] * 7 < bytes[0], "{bytes:?}");
}

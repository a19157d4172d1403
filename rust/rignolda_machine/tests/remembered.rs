//! What is remembered of agents below: what is said anew counts, and what nobody says anew is as it
//! was said, or forgotten.
use rignolda_machine::below::last_said::LastSaid;
use rignolda_machine::below::reports::id;
use rignolda_machine::below::{Below, EACH};
use rignolda_machine::control::{report, sound, ChildStatus, Seen, Status};
use rignolda_machine::net::wire::REPORT_BYTES;
use rignolda_machine::settings::Publisher;
use rignolda_machine::Time;
use std::collections::BTreeSet;
use std::fs::{read_to_string, File, OpenOptions};
use std::os::unix::fs::FileExt;
use std::time::Duration;

/// The SHA-256 of these bytes, one part behind the other.
fn sha256(parts: &[&[u8]]) -> [u8; 32] {
    openssl::sha::sha256(&parts.concat())
}

fn seen(name: &str, parent: &str, connected: bool, number: u64) -> Seen {
    let (name, parent) = (name.into(), parent.into());
    let [sequence, applied, ahead] = [number; 3];
    let seen = Seen { name, parent, connected, sequence, applied, ahead, ..Seen::default() };
    Seen { limit: 9, changed: number, whole: true, ..seen }
}

fn status(name: &str, children: &[(&str, bool)], number: u64) -> Status {
    let child = |(name, connected): &(&str, bool)| ChildStatus {
        name: name.to_string(),
        connected: *connected,
        since: 600_000,
        ..Default::default()
    };
    let children = children.iter().map(child).collect();
    let [sequence, ahead] = [number; 2];
    Status { name: name.into(), limit: 9, sequence, ahead, children, ..Status::default() }
}

fn learn(below: &mut Below, children: &[(&str, bool)]) {
    below.learns(children.iter().copied());
}

// ---- Numbers

#[test]
fn a_root_comes_to_rest_whatever_numbers_those_had_who_moved() {
    // (each is less than half of all ahead of the one before, and the first one of the last)
    let third = u64::MAX / 3;
    let wrong = [1_u64 << 50, third + (1 << 50), 2 * third + (1 << 50)];
    for begins in [1 << 49, third, 7] {
        let (mut now, mut root) = (Time::after(Duration::from_secs(3_600)), Below::new(sha256));
        let mut publisher = Publisher::new(begins);
        publisher.set("a", vec![1]);
        let publish = |publisher: &mut Publisher| -> u64 {
            let bodies = std::iter::from_fn(|| publisher.next(100));
            bodies.map(|it| it.body.meaning().unwrap().0).last().unwrap()
        };
        let mut number = publish(&mut publisher);
        let mut hubs: Vec<(String, Below)> =
            (0..3).map(|at| (format!("hub{at}"), Below::new(sha256))).collect();
        let names: Vec<String> = hubs.iter().map(|(name, _)| name.clone()).collect();
        let children: Vec<(&str, bool)> = names.iter().map(|name| (&**name, true)).collect();
        let mut went = Vec::new();
        for round in 0..60 {
            now += Duration::from_secs(1);
            for ((name, hub), wrong) in hubs.iter_mut().zip(wrong) {
                // (each was spoilt below one hub, and is below another one as of then, or nowhere)
                let is_there = round < 3;
                let [moved, leaf] = ["moved", "leaf"].map(|it| format!("{it}_{name}"));
                if is_there {
                    assert!(hub.heard(&moved, &report(&[seen(&moved, "", true, wrong)]), now));
                }
                assert!(hub.heard(&leaf, &report(&[seen(&leaf, "", true, number)]), now));
                let children = [(&*leaf, true), (&*moved, is_there)];
                learn(hub, &children);
                if round % 2 == 0 {
                    hub.keeps(now);
                }
                let status = Status { ahead: hub.ahead(number), ..status(name, &children, number) };
                assert!(root.heard(name, &hub.report(&status, now), now));
            }
            learn(&mut root, &children);
            if publisher.go_above(root.ahead(number)) {
                went.push(round);
                number = publish(&mut publisher);
            }
            let list = root.tree(&status("root", &children, number), now);
            assert_eq!(list.len(), 10, "those who moved are known");
        }
        assert!(!went.is_empty() && went.iter().all(|round| *round < 4), "{begins} {went:?}");
    }
}

#[test]
fn a_number_counts_while_a_connected_child_says_it() {
    let (now, mut root) = (Time::after(Duration::from_secs(3_600)), Below::new(sha256));
    let after = |seconds| now + Duration::from_secs(seconds);
    let hears = |root: &mut Below, at, number| {
        let list = [seen("a", "", true, number), seen("b", "a", false, 900)];
        assert!(root.heard("a", &report(&list), after(at)));
    };
    hears(&mut root, 0, 50);
    assert_eq!((root.ahead(10), root.ahead(60)), (50, 60));
    // (whoever is promoted goes on above all that was said)
    assert_eq!((root.seen("a"), root.numbers("a")), ([50, 900], [50, 50]));
    learn(&mut root, &[("a", true)]);
    assert_eq!(root.ahead(10), 50);
    // (who says another one has that)
    hears(&mut root, 1, 20);
    assert_eq!(root.ahead(10), 20);
    for keeps in [false, true] {
        learn(&mut root, &[("a", false)]);
        assert_eq!(root.ahead(10), 10);
        if keeps {
            root.keeps(after(1));
        }
        // (a connection that has said nothing yet)
        learn(&mut root, &[("a", true)]);
        assert_eq!(root.ahead(10), 10);
        hears(&mut root, 2 + u64::from(keeps), 30);
        assert_eq!(root.ahead(10), 30);
    }
    // (a child that is one no longer)
    learn(&mut root, &[]);
    assert_eq!((root.ahead(10), root.agents(), root.depth()), (10, 0, 0));
}

// ---- Reports that are none

#[test]
fn what_is_no_report_is_counted_and_a_whole_one_is_asked_for() {
    let now = Time::after(Duration::from_secs(3_600));
    let whole = report(&[seen("a", "", true, 5), seen("b", "a", true, 5)]);
    let changes = [b"C", &id(&whole, sha256)[..], b"[[],"].concat();
    let other = report(&[seen("b", "", true, 5)]);
    let long = vec![b' '; REPORT_BYTES + 1];
    for bad in [&b""[..], b"[", b"[]", b"{}", b"\xff", &other, &long, &changes, &[b'['; 999]] {
        let mut parent = Below::new(sha256);
        assert!(parent.heard("a", &whole, now));
        let later = now + Duration::from_secs(9);
        assert!(!parent.heard("a", bad, later));
        assert_eq!(
            (parent.were_none(), parent.asked()),
            ([("a".into(), 1)].into(), vec!["a".into()])
        );
        assert_eq!((parent.were_none(), parent.asked()), ([].into(), vec![]));
        // (what it said stays, and of one that waits the same is said when it is read)
        assert_eq!(parent.agents(), 2);
        let later = later + Duration::from_secs(9);
        assert!(parent.heard("a", &whole, later));
        parent.news();
        let list: Vec<Seen> = (0..9_000).map(|at| seen(&format!("n{at}"), "a", true, 5)).collect();
        let list = [&[seen("a", "", true, 5)], &list[..]].concat();
        let list = report(&list.into_iter().map(|it| Seen { limit: 0, ..it }).collect::<Vec<_>>());
        let later = later + Duration::from_secs(9);
        if list.len() <= REPORT_BYTES && bad.first() != Some(&b'C') && bad.len() < REPORT_BYTES {
            assert!(parent.heard("a", &list, later) && parent.heard("a", bad, later));
            let at = parent.reads_at(later).unwrap();
            assert!(at > later && parent.reads(at).is_empty());
            assert_eq!(parent.were_none(), [("a".into(), 1)].into());
            assert_eq!((parent.asked(), parent.agents()), (vec!["a".into()], 9_001));
        }
    }
}

/// Whoever sends what is none without end is sent little, and has little read.
#[test]
fn a_flood_of_what_is_none_costs_little() {
    let begun = Time::after(Duration::from_secs(3_600));
    let good = report(&[seen("a", "", true, 5)]);
    let changes = [b"C", &[7; 16][..], b"[[],[]]"].concat();
    let long = vec![b'x'; REPORT_BYTES];
    let bad: [&[&[u8]]; 5] = [
        &[b"["],
        &[b"[", &good],
        &[&changes],
        &[&changes, b"[", &good, &changes, &changes],
        &[&long],
    ];
    for (kind, reports) in bad.into_iter().enumerate() {
        let (mut parent, mut asked, mut none) = (Below::new(sha256), 0, 0);
        let each = reports[0].len() / 50_000 + 1;
        for at in (0..30_000_u64).step_by(each) {
            let now = begun + Duration::from_millis(at);
            parent.heard("a", reports[at as usize % reports.len()], now);
            if at % 10 == 0 || each > 1 {
                parent.reads(now);
            }
            asked += parent.asked().len();
            none += parent.were_none().values().sum::<u64>();
        }
        assert!((1..=15).contains(&asked), "{kind}: {asked}");
        // (for each byte that is looked at there is its time)
        let most = Duration::from_secs(30).as_micros() / (EACH / 4).as_micros();
        let each = reports.iter().map(|it| it.len() / 256 + 1).max().unwrap_or(1);
        assert!(u128::from(none) <= most / each as u128 + 2, "{kind}: {none} of {most}");
        assert!(none > 0 || kind == 2, "{kind}");
        // (one that waits for a whole report is asked no more than once)
        assert!(kind != 2 || asked == 1, "{asked}");
        // (and what is one in the end is read)
        let now = begun + Duration::from_secs(40);
        parent.heard("a", &good, now);
        parent.reads(parent.reads_at(now).unwrap_or(now));
        assert_eq!(parent.number("a"), Some(5));
    }
}

// ---- Who is not connected

/// What is known of the agents below, in all ways.
fn known(below: &Below, children: &[(&str, bool)], now: Time) -> impl PartialEq + std::fmt::Debug {
    let list = below.tree(&status("root", children, 5), now);
    let groups = below.groups().into_iter().map(|all| all.into_iter().map(|it| it.into_owned()));
    let groups: Vec<BTreeSet<_>> = groups.map(Iterator::collect).collect();
    (list, groups, below.agents(), below.depth(), below.newer(4))
}

/// The lists of two children: one has an agent of each kind below it.
fn lists() -> [Vec<Seen>; 2] {
    let groups = vec!["canary".to_string(), "eu".into()];
    let mut full = Seen { groups, digest: u64::MAX, files: 7, ..seen("c", "b", true, 8) };
    (full.why, full.failing, full.version) = ("a: \"no\"\n room\u{1b}".into(), 3, 7 << 10);
    (full.expires, full.age, full.cut, full.place, full.standby) = (9, 70, true, 2, true);
    let away = seen("d", "a", false, 6);
    let first = [seen("a", "", true, 5), seen("b", "a", true, 5), full, away].to_vec();
    [first, [seen("z", "", true, 5), seen("y", "z", true, 5)].to_vec()]
}

#[test]
fn what_absent_agents_said_is_known_as_it_was() {
    let begun = Time::after(Duration::from_secs(3_600));
    let after = |seconds| begun + Duration::from_secs(seconds);
    let mut root = Below::new(sha256);
    for list in lists() {
        assert!(root.heard(&list[0].name, &report(&list), begun));
    }
    for children in [[("a", false), ("z", true)], [("a", false), ("z", false)]] {
        let before = known(&root, &children, after(3));
        learn(&mut root, &children);
        assert_eq!(known(&root, &children, after(3)), before);
        (0..2).for_each(|_| root.keeps(after(3)));
        assert_eq!(known(&root, &children, after(3)), before);
    }
    root.has_other_groups();
    // (when it is connected, all is as it was till it says something; and then that counts)
    let both = [("a", true), ("z", false)];
    let before = known(&root, &both, after(4));
    learn(&mut root, &both);
    root.keeps(after(4));
    assert_eq!(known(&root, &both, after(4)), before);
    assert_eq!((root.number("a"), root.numbers("a")), (None, [0; 2]));
    let [mut list, _] = lists();
    let changes = [b"C", &id(&report(&list), sha256)[..], b"[[],[]]"].concat();
    assert!(root.heard("a", &changes, after(5)));
    assert_eq!(root.asked(), ["a"], "what changed since is no use");
    assert!(root.heard("a", &report(&list), after(6)));
    assert!(!root.has_other_groups());
    let mut fresh = Below::new(sha256);
    assert!(fresh.heard("a", &report(&list), after(6)));
    let said = |below: &Below| below.tree(&status("root", &[("a", true)], 5), after(6));
    assert_eq!(said(&root), said(&fresh));
    // (of other groups it is told)
    learn(&mut root, &[("a", false)]);
    root.keeps(after(8));
    list[1].groups.push("us".into());
    assert!(root.heard("a", &report(&list), after(9)) && root.has_other_groups());
}

/// Spoils each copy of a text that this process has in its memory: how many there were. The bytes
/// are given from the last to the first.
fn spoil(text: &[u8], with: impl Fn(u8) -> u8) -> usize {
    let text: Vec<u8> = text.iter().rev().map(|byte| byte ^ 1).collect();
    let (memory, mut count) = (File::options().read(true).write(true).open("/proc/self/mem"), 0);
    let memory = memory.unwrap();
    for line in read_to_string("/proc/self/maps").unwrap().lines() {
        let mut words = line.split_whitespace();
        let (place, rights) = (words.next().unwrap(), words.next().unwrap());
        let (begin, end) = place.split_once('-').unwrap();
        let place = |text| usize::from_str_radix(text, 16).unwrap();
        let (begin, end) = (place(begin), place(end));
        let mut bytes = vec![0; end - begin];
        if !rights.starts_with("rw") || memory.read_exact_at(&mut bytes, begin as u64).is_err() {
            continue;
        }
        // (what is sought is nowhere but where it is meant)
        let is_it = |at: &usize| bytes[*at..].iter().zip(&text).all(|(one, two)| *one == two ^ 1);
        for at in (0..bytes.len().saturating_sub(text.len())).filter(is_it) {
            let spoiled = with(bytes[at + 2]);
            memory.write_all_at(&[spoiled], (begin + at + 2) as u64).unwrap();
            count += 1;
        }
    }
    count
}

#[test]
fn what_is_spoiled_of_an_absent_child_is_forgotten() {
    let now = Time::after(Duration::from_secs(3_600));
    let later = now + Duration::from_secs(1);
    for with in [|byte| byte | 0x80, |byte: u8| byte ^ 1] {
        // (its name is nowhere but in what is remembered)
        let sought = b"57-rebmun-setatilicaf";
        let mut root = Below::new(sha256);
        {
            let name = String::from_utf8(sought.iter().rev().copied().collect()).unwrap();
            let [mut list, other] = lists();
            list.insert(1, seen(&name, "a", true, 5));
            assert!(root.heard("a", &report(&list), now) && root.heard("z", &report(&other), now));
        }
        let children = [("a", false), ("z", false)];
        learn(&mut root, &children);
        root.keeps(now);
        assert!(spoil(sought, with) > 0);
        let status = status("root", &children, 5);
        let list = root.tree(&status, later);
        let names: Vec<&str> = list.iter().map(|it| &*it.name).collect();
        assert_eq!(names, ["root", "a", "z", "y"]);
        let nothing = Seen { name: "a".into(), parent: "root".into(), ..Seen::default() };
        assert_eq!(list[1], nothing, "it is as if it had said nothing");
        let said: Vec<Seen> = serde_json::from_slice(&root.report(&status, later)).unwrap();
        assert_eq!(said.len(), 4);
        assert!(serde_json::to_vec(&list).is_ok_and(|it| String::from_utf8(it).is_ok()));
        // (and when it says something, that counts)
        let [list, _] = lists();
        assert!(root.heard("a", &report(&list), later));
        assert_eq!(root.tree(&status, later).len(), 7);
    }
}

#[test]
fn what_is_kept_of_a_child_has_bounds() {
    let now = Time::after(Duration::from_secs(3_600));
    let [list, _] = lists();
    let mut kept = LastSaid::new(&list, 3, sha256, now);
    assert_eq!((kept.list(sha256), kept.at), (Some(list), now));
    (kept.agents, kept.depth) = (u32::MAX, u32::MAX);
    assert!(kept.list(sha256).is_some());
    assert_eq!(LastSaid::new(&[], 0, sha256, now).list(sha256), None);
    // (and no name is kept that is none)
    let mut root = Below::new(sha256);
    ["", "\u{1b}[2J", "a b", "../x"].into_iter().for_each(|name| root.leave_out(name));
    assert!(root.leaves_out());
    root.keeps(now);
    assert!(!root.leaves_out());
    root.leave_out("gone");
    root.keeps(now);
    assert!(root.leaves_out());
}

/// (What is not optimised makes JSON of each byte; what is, did not.)
#[test]
fn a_bool_of_another_byte_is_json() {
    let memory = OpenOptions::new().write(true).open("/proc/self/mem").unwrap();
    for byte in [0xff_u8, 2, 0x80] {
        let mut list = [seen("a", "", true, 5), seen("b", "a", true, 5)];
        let [first, second] = &mut list;
        for it in [&mut first.whole, &mut second.inner, &mut second.connected] {
            // (as a fault of the machine's memory does it, past all rules)
            let at = std::ptr::from_mut(std::hint::black_box(it)) as u64;
            memory.write_all_at(&[byte], at).unwrap();
        }
        let list = std::hint::black_box(list);
        for bytes in [report(&list), serde_json::to_vec(&list).unwrap()] {
            let read: Result<Vec<Seen>, _> = serde_json::from_slice(&bytes);
            assert!(read.is_ok(), "{byte}: {}", String::from_utf8_lossy(&bytes));
        }
        let mut settled = list;
        settled.iter_mut().for_each(Seen::settles);
        let bytes = [settled[0].whole, settled[1].inner].map(|it| it as u8 + 1);
        assert!(bytes.iter().all(|it| [1, 2].contains(it)), "{bytes:?}");
    }
    assert_eq!([true, false].map(sound::is), [true, false]);
}

//! Whole tables that go by reference: who makes them, who asks for them, and what is refused; and
//! which version two ends speak, and what follows from that for reports.
use rignolda_machine::net::wire::{self, Expect, Hello, Message, Reference, FIRST, OLD, VERSION};
use rignolda_machine::net::{Body, Children, Output, Parent, Peers, ReportKind, Setup, Way};
use rignolda_machine::settings::Meaning;
use rignolda_machine::Time;
use std::io::{ErrorKind, Read, Write};
use std::os::unix::net::UnixStream;
use std::sync::Arc;
use std::time::Duration;

mod common;
use common::shell::{Line, Shell};
use common::Told;

type Socket = UnixStream;

impl Line for Socket {}

/// What came to an agent of settings.
#[derive(Default)]
struct Came {
    items: Vec<Arc<Body>>,
    facts: Vec<String>,
    /// How many bytes it was to make.
    made: usize,
    /// How often it was asked for a whole report, and what was reported to it.
    requests: usize,
    reports: Vec<Vec<u8>>,
}

/// Here any function will do that tells bodies apart.
fn digest(parts: &[&[u8]]) -> [u8; 32] {
    let mut digest = [0; 32];
    for (at, byte) in parts.concat().into_iter().enumerate() {
        digest[at % 32] = byte ^ u8::rotate_left(digest[at % 32], 3);
    }
    digest
}

impl Told for Came {
    fn item(&mut self, body: &Arc<Body>) -> bool {
        self.items.push(Arc::clone(body));
        matches!(body.meaning(), Some((_, Meaning::Table(_))))
    }

    fn told(&mut self, output: Output) {
        match output {
            Output::Report(_, report) => self.reports.push(report),
            Output::ReportRequest => self.requests += 1,
            Output::Fact(fact) => self.facts.push(format!("{} {fact}", fact.kind())),
            _ => (),
        }
    }
}

/// An agent, and what came to it.
struct Agent {
    shell: Shell<Socket, Came>,
    now: Time,
}

impl Agent {
    /// The root, whose child `a` connects to it; or `a`, to which the root connects.
    fn new(is_root: bool) -> Agent {
        let now = Time::default();
        let parent = Parent { name: Some("root".into()), address: None, price: None };
        let setup = Setup {
            name: if is_root { "root" } else { "a" }.into(),
            parents: (!is_root).then_some(parent).into_iter().collect(),
            rank: None,
            children: Children::Named(is_root.then(|| ("a".into(), None)).into_iter().collect()),
            ack_timeout: Duration::from_millis(500),
            evict: Duration::from_secs(60),
            poll: Duration::from_secs(1),
        };
        let peers = Peers::new(setup, 7, 64, now).with_digests(digest);
        Agent { shell: Shell::new(peers, Came::default()), now }
    }

    fn turn(&mut self) {
        self.now += Duration::from_millis(1);
        self.shell.read_all(self.now);
        self.shell.tick(self.now);
        assert_eq!(self.shell.peers.fault(), None);
    }

    fn publish(&mut self, body: &Arc<Body>) {
        self.shell.publish(body, self.now);
        self.turn();
    }

    /// An end of a connection with it, which says this first.
    fn meet(&mut self, says: &[u8]) -> End {
        let (here, there) = UnixStream::pair().unwrap();
        here.set_nonblocking(true).unwrap();
        there.set_nonblocking(true).unwrap();
        self.shell.accept(there, self.now);
        let mut end = End(here, Vec::new());
        end.says(self, says);
        end
    }

    fn said(&self, words: &str) -> bool {
        self.shell.said.facts.iter().any(|fact| fact.contains(words))
    }
}

/// The other end, and what came by it and was not looked at.
struct End(UnixStream, Vec<u8>);

impl End {
    fn says(&mut self, agent: &mut Agent, bytes: &[u8]) {
        // (it may be closed already)
        let _ = self.0.write_all(bytes);
        agent.turn();
    }

    /// The next message that came, but no way where another one is expected.
    fn next(&mut self, expect: Expect) -> Option<Message> {
        let mut room = vec![0; 1 << 20];
        while let Ok(count @ 1..) = self.0.read(&mut room) {
            self.1.extend_from_slice(&room[..count]);
        }
        loop {
            match wire::take(&mut self.1, expect).unwrap() {
                Some(Message::Way(_)) if expect != Expect::Way => (),
                message => return message,
            }
        }
    }

    fn is_closed(&mut self) -> bool {
        let mut room = vec![0; 1 << 20];
        loop {
            match self.0.read(&mut room) {
                Ok(0) => return true,
                Ok(_) => (),
                Err(error) => return error.kind() != ErrorKind::WouldBlock,
            }
        }
    }
}

fn hello(version: u8, label: u16, from: &str, to: &str) -> Hello {
    Hello { version, life: 99, label, from: from.into(), to: to.into() }
}

/// A whole table with this number, whose setting has this value.
fn table(number: u64, value: &[u8]) -> Arc<Body> {
    let value = [value, &[b'x'; 100]].concat();
    Body::new(number, &Meaning::Table(vec![("key", Some(&value[..]))]))
}

fn referred(body: &Body) -> Reference {
    let mut head = [0; wire::HEAD_BYTES];
    head.copy_from_slice(&body.bytes[..wire::HEAD_BYTES]);
    Reference {
        item: body.item,
        length: body.bytes.len() as u32,
        head,
        digest: digest(&[&body.bytes]),
    }
}

fn whole(label: u16, body: &Body) -> Vec<u8> {
    [wire::frame(label, body), body.bytes.clone()].concat()
}

/// The root, and a child of this version that has acknowledged its first table.
fn root_with_a_child(version: u8) -> (Agent, End) {
    let mut root = Agent::new(true);
    root.publish(&table(1, b"1"));
    let mut end = root.meet(&hello(version, 7, "a", "root").bytes());
    match end.next(Expect::Hello) {
        Some(Message::Hello(hello)) => assert_eq!(hello.version, version),
        other => panic!("{:?}", other),
    }
    (root, end)
}

#[test]
fn a_table_goes_by_reference_once_and_whole_to_who_asks() {
    let (mut root, mut end) = root_with_a_child(VERSION);
    let (first, second) = (table(1, b"1"), table(2, b"2"));
    let expected = Some(Message::Reference(8, referred(&first)));
    assert_eq!(end.next(Expect::Frames), expected);
    end.says(&mut root, &wire::lacks(8));
    let expected = Some(Message::Frame(8, Arc::clone(&first)));
    assert_eq!(end.next(Expect::Frames), expected);
    end.says(&mut root, &wire::ack(8));
    // (what is no whole table goes whole, and so does a short one)
    let change = Body::new(2, &Meaning::Changes(vec![("key", Some(&[7; 200][..]))]));
    let short = Body::new(3, &Meaning::Table(vec![("key", Some(b"1"))]));
    for (label, body) in [(9, &change), (10, &short)] {
        root.publish(body);
        let expected = Some(Message::Frame(label, Arc::clone(body)));
        assert_eq!(end.next(Expect::Frames), expected);
        end.says(&mut root, &wire::ack(label));
    }
    root.publish(&second);
    let expected = Some(Message::Reference(11, referred(&second)));
    assert_eq!(end.next(Expect::Frames), expected);
    // (who comes back without having answered gets the whole one)
    drop(end);
    root.turn();
    let mut end = root.meet(&hello(VERSION, 10, "a", "root").bytes());
    assert!(matches!(end.next(Expect::Hello), Some(Message::Hello(_))));
    let expected = Some(Message::Frame(11, Arc::clone(&second)));
    assert_eq!(end.next(Expect::Frames), expected);
    end.says(&mut root, &wire::ack(11));
    root.publish(&table(3, b"2"));
    let reference = Some(Message::Reference(12, referred(&table(3, b"2"))));
    assert_eq!(end.next(Expect::Frames), reference);
    end.says(&mut root, &wire::ack(12));
    let link = root.shell.peers.relay().child("a").unwrap();
    assert_eq!((root.shell.peers.relay().backlog(link), link.timeouts), (0, 0));
}

#[test]
fn to_who_speaks_an_older_version_all_goes_whole() {
    for version in [OLD, FIRST] {
        let (_root, mut end) = root_with_a_child(version);
        let expected = Some(Message::Frame(8, table(1, b"1")));
        assert_eq!(end.next(Expect::Frames), expected, "{}", version);
    }
}

#[test]
fn who_asks_for_what_was_not_sent_is_left() {
    let asks = |label| wire::lacks(label);
    for says in [vec![asks(9)], vec![asks(8), asks(8)], vec![wire::ack(8), asks(8)]] {
        let (mut root, mut end) = root_with_a_child(VERSION);
        for words in &says {
            assert!(!end.is_closed());
            end.says(&mut root, words);
        }
        assert!(end.is_closed(), "{:?}", says);
        assert!(root.said("closed a: it asks for what was not sent"));
    }
    // (nor is anything sent without end to who asks at once)
    let (mut root, mut end) = root_with_a_child(VERSION);
    end.says(&mut root, &[asks(8), asks(8)].concat());
    assert!(end.is_closed());
}

/// The agent `a`, and its parent, which says version 2 and this label first.
fn child(label: u16) -> (Agent, End, Hello) {
    let mut agent = Agent::new(false);
    let names = vec!["root".into()];
    let way = wire::way(&Way { cost: 0, names });
    let says = [hello(FIRST, label, "root", "a").bytes(), way].concat();
    let mut end = agent.meet(&says);
    let hello = match end.next(Expect::Hello) {
        Some(Message::Hello(hello)) => hello,
        other => panic!("{:?}", other),
    };
    assert_eq!(end.next(Expect::Acks), Some(Message::Ack(255)));
    (agent, end, hello)
}

#[test]
fn a_child_makes_what_it_has_and_asks_for_what_it_has_not() {
    let (mut agent, mut end, hello) = child(Hello::range(FIRST..=9));
    assert_eq!(hello.version, VERSION);
    let mut label = 0;
    let mut sent = |agent: &mut Agent, end: &mut End, bytes: &dyn Fn(u16) -> Vec<u8>, made| {
        label += 1;
        end.says(agent, &bytes(label));
        let expected = match made {
            true => Message::Ack(label),
            false => Message::Lacks(label),
        };
        assert_eq!(end.next(Expect::Acks), Some(expected), "{}", label);
    };
    let by_reference = |body: Arc<Body>| move |label| wire::reference(label, &referred(&body));
    let in_one = |body: Arc<Body>| move |label| whole(label, &body);
    // (without a table nothing is made; then what it has, also with what changed since)
    sent(&mut agent, &mut end, &by_reference(table(1, b"1")), false);
    sent(&mut agent, &mut end, &in_one(table(1, b"1")), true);
    sent(&mut agent, &mut end, &by_reference(table(2, b"1")), true);
    let harmless = Body::new(3, &Meaning::Harmless);
    let value = [&b"4"[..], &[b'x'; 100]].concat();
    let change = Body::new(4, &Meaning::Changes(vec![("key", Some(&value[..]))]));
    sent(&mut agent, &mut end, &in_one(harmless), true);
    sent(&mut agent, &mut end, &in_one(change), true);
    sent(&mut agent, &mut end, &by_reference(table(5, b"1")), false);
    sent(&mut agent, &mut end, &by_reference(table(5, b"4")), true);
    assert_eq!(agent.shell.said.items.last(), Some(&table(5, b"4")));
    // (what does not fit in any part is not made, whatever the rest says)
    let right = || referred(&table(6, b"4"));
    let mut wrong = vec![right(); 4];
    wrong[0].item ^= 1;
    wrong[1].head[8] ^= 1;
    wrong[2].head[0] = b'C';
    wrong[3].digest[31] ^= 1;
    for it in wrong {
        sent(&mut agent, &mut end, &|label| wire::reference(label, &it), false);
    }
    assert_eq!(agent.shell.said.items.last(), Some(&table(5, b"4")));
    sent(&mut agent, &mut end, &by_reference(table(6, b"4")), true);
    assert_eq!(agent.shell.said.items.len(), 6);
}

#[test]
fn a_parent_that_refers_without_end_has_little_made() {
    let (mut agent, mut end, _) = child(Hello::range(FIRST..=9));
    let long = vec![b'y'; 1 << 20];
    let table = |number| {
        let all = (0..9).map(|at| (["a", "b", "c", "d", "e", "f", "g", "h", "i"][at], &long[..]));
        let all = all.map(|(key, value)| (key, Some(value)));
        Body::new(number, &Meaning::Table(all.collect()))
    };
    let bytes = whole(1, &table(1));
    for part in bytes.chunks(1 << 16) {
        end.says(&mut agent, part);
    }
    assert_eq!(end.next(Expect::Acks), Some(Message::Ack(1)));
    // (a wrong one costs as much to make as a right one)
    let mut wrong = referred(&table(2));
    wrong.digest[0] ^= 1;
    for label in 2..200 {
        end.says(&mut agent, &wire::reference(label, &wrong));
        assert!(matches!(end.next(Expect::Acks), Some(Message::Lacks(it)) if it == label));
    }
    assert!(agent.shell.said.made < 64 << 20, "{}", agent.shell.said.made);
    // (later what it refers to is made again)
    agent.now += Duration::from_secs(3);
    end.says(&mut agent, &wire::reference(200, &referred(&table(2))));
    assert_eq!(end.next(Expect::Acks), Some(Message::Ack(200)));
}

#[test]
fn a_reference_is_no_message_of_an_older_version() {
    // (a label of a root of version 2 is no range)
    for label in [0, 255] {
        let (mut agent, mut end, hello) = child(label);
        assert_eq!(hello.version, FIRST);
        end.says(&mut agent, &wire::reference(1, &referred(&table(1, b"1"))));
        assert!(end.is_closed() && agent.said("closed the parent: it is no message"));
    }
}

#[test]
fn ends_that_look_say_their_ranges_and_speak_the_highest_in_common() {
    let range = Hello::range(OLD..=VERSION);
    for (says, label, common) in [
        (FIRST, 0, FIRST),
        (FIRST, range, VERSION),
        (FIRST, Hello::range(FIRST..=9), VERSION),
        (9, Hello::range(VERSION..=9), VERSION),
    ] {
        let mut root = Agent::new(true);
        let mut end = root.meet(&hello(says, label, "a", "root").look());
        match end.next(Expect::Hello) {
            Some(Message::Look(look)) => assert_eq!((look.version, look.label), (FIRST, range)),
            other => panic!("{:?}", other),
        }
        assert!(matches!(end.next(Expect::Way), Some(Message::Way(_))));
        end.says(&mut root, &hello(common, 255, "a", "root").bytes());
        match end.next(Expect::Hello) {
            Some(Message::Hello(hello)) => assert_eq!(hello.version, common),
            other => panic!("{:?}", other),
        }
        assert!(root.shell.peers.relay().child("a").unwrap().is_connected());
    }
}

/// Both ends can say which versions they have not in common.
#[test]
fn without_a_version_in_common_both_ranges_are_named() {
    let why = "it speaks versions 7 to 9 of the protocol, and this agent 1 to 4";
    let look = |from: &str, to: &str| hello(FIRST, Hello::range(7..=9), from, to);
    let mut root = Agent::new(true);
    let mut end = root.meet(&look("a", "root").look());
    match end.next(Expect::Hello) {
        Some(Message::Look(look)) => assert_eq!(look.versions(), OLD..=VERSION),
        other => panic!("{:?}", other),
    }
    assert!(end.is_closed() && root.said(&format!("which calls itself a: {}", why)));
    assert!(root.shell.peers.last_refused().ends_with(why));
    // (and so of a parent that connects to its child)
    let mut agent = Agent::new(false);
    let mut end = agent.meet(&look("root", "a").bytes());
    assert!(matches!(end.next(Expect::Hello), Some(Message::Look(_))));
    assert!(end.is_closed() && agent.shell.peers.last_refused().ends_with(why));
}

/// Only a parent that can ask for a whole report is told what changed, and each connection to one
/// has another number.
#[test]
fn a_report_may_be_of_changes_where_the_parent_knows_them() {
    let mut numbers = Vec::new();
    for newest in [FIRST, VERSION - 1, VERSION, VERSION, 9] {
        let (mut agent, mut end, hello) = child(Hello::range(FIRST..=newest));
        assert_eq!(hello.version, newest.min(VERSION));
        let is_known = newest >= VERSION;
        match agent.shell.peers.report_kind() {
            Some(ReportKind::Changes(number)) if is_known => numbers.push(number),
            kind => assert_eq!((kind, is_known), (Some(ReportKind::Whole), false)),
        }
        assert!(agent.shell.peers.report(b"[1]"));
        // (while that is to be written, nothing more is taken)
        assert_eq!(agent.shell.peers.report_kind(), None);
        assert!(!agent.shell.peers.report(b"[2]"));
        end.says(&mut agent, b"");
        let report = end.next(Expect::Acks);
        assert_eq!(report, Some(Message::Report(b"[1]".to_vec())));
        end.says(&mut agent, wire::REPORT_REQUEST);
        assert_eq!(agent.shell.said.requests, usize::from(is_known));
        assert_eq!(end.is_closed(), !is_known);
        assert!(is_known || agent.said("closed the parent: it is no message"));
    }
    // (the same agent, which its parent connects to once more)
    let (mut agent, _, _) = child(Hello::range(FIRST..=VERSION));
    let before = agent.shell.peers.report_kind();
    let names = vec!["root".into()];
    let way = wire::way(&Way { cost: 0, names });
    let range = Hello::range(FIRST..=VERSION);
    let says = [hello(FIRST, range, "root", "a").bytes(), way].concat();
    let mut end = agent.meet(&says);
    assert!(matches!(end.next(Expect::Hello), Some(Message::Hello(_))));
    end.says(&mut agent, b"");
    assert!(matches!(
        (before, agent.shell.peers.report_kind()),
        (Some(ReportKind::Changes(one)), Some(ReportKind::Changes(other))) if one != other
    ));
    assert_eq!(numbers.len(), 3);
}

#[test]
fn a_child_that_may_report_changes_can_be_asked_for_all() {
    let table = Some(Message::Reference(8, referred(&table(1, b"1"))));
    for version in [VERSION - 1, VERSION] {
        let (mut root, mut end) = root_with_a_child(version);
        assert_eq!(end.next(Expect::Frames), table);
        root.shell.peers.request_report("a");
        root.shell.peers.request_report("nobody");
        // (what waits to be written is no frame: an acknowledgement that comes meanwhile is right)
        end.says(&mut root, &wire::ack(8));
        let is_asked = version == VERSION;
        let expected = is_asked.then_some(Message::ReportRequest);
        assert_eq!(end.next(Expect::Frames), expected);
        end.says(&mut root, &wire::report(b"[]"));
        assert_eq!(root.shell.said.reports, [b"[]"]);
        assert!(!end.is_closed(), "{:?}", root.shell.said.facts);
        // (and who reads nothing is left)
        (0..40).for_each(|_| root.shell.peers.request_report("a"));
        end.says(&mut root, &wire::report(b"[]"));
        let is_left = root.said("closed a: it reads nothing");
        assert_eq!((end.is_closed(), is_left), (is_asked, is_asked));
    }
}

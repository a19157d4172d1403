//! Agents over lines in memory: who connects to whom, what is said first, and who is taken.
use rignolda_machine::net::wire::{self, Expect, Hello, Message, FIRST, OLD, VERSION};
use rignolda_machine::net::{
    self, Body, ChildError, Children, Origin, Parent, Peers, Refusal, Setup, Shown, Way,
};
use rignolda_machine::Time;
use std::cell::RefCell;
use std::collections::{BTreeMap, VecDeque};
use std::io::{self, Error, ErrorKind, Read, Write};
use std::rc::Rc;
use std::sync::Arc;
use std::time::Duration;

mod common;
use common::shell::{Line, Shell};
use common::Said;

const ACK_TIMEOUT: Duration = Duration::from_millis(500);
const STEP: Duration = Duration::from_millis(10);
/// In how many steps an agent looks at its state: a second.
const CHECKS: u64 = 100;

#[derive(Default)]
struct Pipe {
    bytes: VecDeque<u8>,
    closed: bool,
}

/// An end of a line in memory. It knows the name in the other end's certificate.
struct End {
    other: String,
    origin: Origin,
    shown: Shown,
    from: Rc<RefCell<Pipe>>,
    to: Rc<RefCell<Pipe>>,
}

/// A line between the holders of two certificates.
fn line(one: &str, two: &str) -> (End, End) {
    let (down, up) = (Rc::default(), Rc::default());
    let first = End {
        other: two.into(),
        origin: Origin::Here,
        shown: Shown::Nothing,
        from: Rc::clone(&up),
        to: Rc::clone(&down),
    };
    (
        first,
        End { other: one.into(), origin: Origin::Here, shown: Shown::Nothing, from: down, to: up },
    )
}

impl Read for End {
    fn read(&mut self, to: &mut [u8]) -> io::Result<usize> {
        let mut from = self.from.borrow_mut();
        if from.bytes.is_empty() && !from.closed {
            return Err(ErrorKind::WouldBlock.into());
        }
        // (a few bytes at a time)
        let most = to.len().min(50);
        from.bytes.read(&mut to[..most])
    }
}

impl Write for End {
    fn write(&mut self, from: &[u8]) -> io::Result<usize> {
        let mut to = self.to.borrow_mut();
        if to.closed {
            return Err(Error::new(ErrorKind::BrokenPipe, "it is closed"));
        }
        let count = from.len().min(30);
        to.bytes.extend(&from[..count]);
        Ok(count)
    }

    fn flush(&mut self) -> io::Result<()> {
        Ok(())
    }
}

impl Drop for End {
    fn drop(&mut self) {
        self.from.borrow_mut().closed = true;
        self.to.borrow_mut().closed = true;
    }
}

impl Line for End {
    fn end(&self) -> net::End {
        net::End {
            place: "somewhere".into(),
            origin: self.origin,
            shown: self.shown,
            names: Some(vec![self.other.clone()]),
        }
    }
}

type Agent = Shell<End, Said>;

/// Agents, whose addresses are their names.
struct Net {
    agents: BTreeMap<String, Agent>,
    now: Time,
    lives: u64,
    made: u64,
    /// Those that act in only one of this many steps; and how often each was called.
    slow: BTreeMap<String, u64>,
    calls: BTreeMap<String, usize>,
    /// What each end of a line has shown.
    shown: Shown,
}

fn parent(name: &str, address: Option<&str>) -> Parent<String> {
    Parent { name: Some(name.into()), address: address.map(String::from), price: None }
}

fn children(all: &[(&str, bool)]) -> Children<String> {
    let child =
        |(name, called): &(&str, bool)| (name.to_string(), called.then(|| name.to_string()));
    Children::Named(all.iter().map(child).collect())
}

fn setup(name: &str, parents: Vec<Parent<String>>, children: Children<String>) -> Setup<String> {
    let evict = Duration::from_secs(60);
    Setup {
        name: name.into(),
        parents,
        rank: None,
        children,
        ack_timeout: ACK_TIMEOUT,
        evict,
        poll: Duration::from_millis(100),
    }
}

impl Net {
    fn new(setups: Vec<Setup<String>>) -> Net {
        let mut net = Net {
            agents: BTreeMap::new(),
            now: Time::default(),
            lives: 0,
            made: 0,
            slow: BTreeMap::new(),
            calls: BTreeMap::new(),
            shown: Shown::Nothing,
        };
        setups.into_iter().for_each(|setup| net.start(setup));
        net
    }

    fn start(&mut self, setup: Setup<String>) {
        self.lives += 1;
        let name = setup.name.clone();
        let peers = Peers::new(setup, self.lives, 64, self.now);
        self.agents.insert(name, Agent::new(peers, Said::default()));
    }

    fn agent(&mut self, name: &str) -> &mut Agent {
        self.agents.get_mut(name).unwrap()
    }

    /// Each agent does all that it can do now.
    fn step(&mut self) {
        self.now += STEP;
        self.made += 1;
        let now = self.now;
        let names: Vec<String> = self.agents.keys().cloned().collect();
        for name in names {
            if self.slow.get(&name).is_some_and(|of| self.made % of != 0) {
                continue;
            }
            let agent = self.agent(&name);
            agent.read_all(now);
            agent.tick(now);
            while let Some(call) = {
                let agent = self.agent(&name);
                agent.next_call(now)
            } {
                *self.calls.entry(call.address.clone()).or_default() += 1;
                let (mut here, mut there) = line(&name, &call.address);
                (here.shown, there.shown) = (self.shown, self.shown);
                let answers = self.agents.get_mut(&call.address);
                let is_there = answers.is_some();
                if let Some(other) = answers {
                    other.accept(there, now);
                }
                let made = is_there.then_some(here).ok_or_else(|| Error::other("nobody is there"));
                let agent = self.agent(&name);
                agent.called(call, made, now);
            }
            let checks = self.made % CHECKS == 0;
            let agent = self.agent(&name);
            assert_eq!(agent.peers.fault(), None, "{name}");
            if checks {
                let sound = agent.check(false, now);
                assert_eq!(sound, Ok(()), "{name}");
            }
        }
    }

    fn steps(&mut self, count: usize) {
        (0..count).for_each(|_| self.step());
    }

    fn publish(&mut self, at: &str, text: &str) {
        let (now, agent) = (self.now, self.agent(at));
        let body = Arc::new(Body::of(text.as_bytes().to_vec()));
        agent.publish(&body, now);
    }

    /// Breaks the connections of an agent.
    fn cut(&mut self, name: &str) {
        let (now, agent) = (self.now, self.agent(name));
        let ids: Vec<u64> = agent.lines.keys().copied().collect();
        for id in ids {
            agent.close(id, "it was cut", now);
        }
    }

    /// A stranger with a certificate of this name connects to an agent, and says these bytes: the
    /// end that the stranger has.
    fn stranger(&mut self, to: &str, certificate: &str, says: &[u8]) -> End {
        self.stranger_at(Origin::Here, to, certificate, says)
    }

    /// The same, from there.
    fn stranger_at(&mut self, at: Origin, to: &str, certificate: &str, says: &[u8]) -> End {
        let (now, shown, agent) = (self.now, self.shown, self.agent(to));
        let (here, mut there) = line(certificate, to);
        (there.origin, there.shown) = (at, shown);
        agent.accept(there, now);
        here.to.borrow_mut().bytes.extend(says);
        here
    }

    fn said(&mut self, name: &str, fact: &str) -> bool {
        self.agent(name).said.facts.iter().any(|it| it.starts_with(fact))
    }
}

fn hello(from: &str, to: &str) -> Vec<u8> {
    Hello { version: OLD, life: 99, label: 7, from: from.into(), to: to.into() }.bytes()
}

/// The root, `a` below it, and `b` below that: each link made by the parent, or by the child.
fn path(by_parent: [bool; 2]) -> Net {
    let to = |name: &str, by_parent: bool| parent(name, (!by_parent).then_some(name));
    Net::new(vec![
        setup("root", vec![], children(&[("a", by_parent[0])])),
        setup("a", vec![to("root", by_parent[0])], children(&[("b", by_parent[1])])),
        setup("b", vec![to("a", by_parent[1])], children(&[])),
    ])
}

const WAYS: [[bool; 2]; 4] = [[false, false], [false, true], [true, false], [true, true]];

#[test]
fn items_travel_whoever_connects() {
    for way in WAYS {
        let mut net = path(way);
        net.publish("root", "T0");
        net.steps(20);
        for at in 1..40 {
            net.publish("root", &format!("{at} {}", "x".repeat(at * 97 % 301)));
            net.steps(1);
        }
        net.steps(2_000);
        let all = net.agent("root").said.items.clone();
        assert_eq!(all.len(), 40);
        assert_eq!(net.agent("a").said.items, all, "{way:?}");
        assert_eq!(net.agent("b").said.items, all, "{way:?}");
        assert!(net.agent("b").peers.parent().is_some());
    }
}

#[test]
fn connections_that_break_lose_nothing() {
    for (seed, way) in (1_u64..60).zip(WAYS.iter().cycle()) {
        let mut state = seed;
        let mut draw = |bound: u64| {
            state = state.wrapping_mul(6_364_136_223_846_793_005).wrapping_add(1);
            (state >> 33) % bound
        };
        let mut net = path(*way);
        net.publish("root", "T0");
        for at in 1..30 {
            net.steps(draw(30) as usize);
            net.publish("root", &format!("{at} {}", "x".repeat(draw(200) as usize)));
            if draw(2) == 0 {
                net.cut(["root", "a", "b"][draw(3) as usize]);
            }
        }
        net.steps(3_000);
        let all = net.agent("root").said.items.clone();
        assert_eq!(net.agent("a").said.items, all, "{seed}");
        assert_eq!(net.agent("b").said.items, all, "{seed}");
    }
}

#[test]
fn one_that_begins_anew_gets_the_table_and_what_came_since() {
    for way in WAYS {
        let mut net = path(way);
        for text in ["T0", "1", "T2", "3", "4"] {
            net.publish("root", text);
            net.steps(40);
        }
        net.agents.remove("a");
        net.steps(3);
        let to = parent("root", (!way[0]).then_some("root"));
        net.start(setup("a", vec![to], children(&[("b", way[1])])));
        net.steps(1_000);
        assert_eq!(net.agent("a").said.items, ["T2", "3", "4"], "{way:?}");
        net.publish("root", "5");
        net.steps(400);
        assert_eq!(net.agent("a").said.items, ["T2", "3", "4", "5"], "{way:?}");
        assert_eq!(net.agent("b").said.items.last().unwrap(), "5", "{way:?}");
    }
}

#[test]
fn whoever_is_somebody_else_is_refused() {
    let cases: [(&str, &str, Vec<u8>, &str); 9] = [
        ("root", "x", hello("x", "root"), "its name is none of a child"),
        ("root", "a", hello("a", "other"), "it means another agent"),
        ("root", "x", hello("a", "root"), "its certificate has another name"),
        // (one that is connected to does not connect itself, and a child is no parent)
        ("a", "b", hello("b", "a"), "this agent is set up to connect to it"),
        ("b", "a", hello("a", "b2"), "it means another agent"),
        ("b", "x", hello("a", "b"), "its certificate has another name"),
        ("b", "x", hello("x", "b"), "its name is none of a child"),
        ("root", "root", hello("root", "root"), "its name is none of a child"),
        ("root", "a", b"GET / HTTP/1.1".to_vec(), "it is no hello"),
    ];
    for (to, certificate, says, why) in cases {
        let mut net = path([false, true]);
        net.agents.remove(if to == "a" { "b" } else { "a" });
        let stranger = net.stranger(to, certificate, &says);
        net.step();
        let says = match wire::take(&mut says.clone(), Expect::Hello) {
            Ok(Some(Message::Hello(hello))) => format!(", which calls itself {}", hello.from),
            _ => String::new(),
        };
        assert!(
            net.said(to, &format!("refused somewhere{says}: {why} (1 in all)")),
            "{why}: {:?}",
            net.agent(to).said.facts
        );
        assert!(stranger.from.borrow().closed, "{why}");
        assert_eq!(net.agent(to).peers.refused(), 1);
    }
}

#[test]
fn an_end_that_was_called_has_to_be_who_was_meant() {
    // (at its address there is an agent of another name, or with another certificate)
    for (from, to, certificate) in [("x", "root", "a"), ("a", "x", "a"), ("a", "root", "x")] {
        let mut net = Net::new(vec![setup("root", vec![], children(&[("a", true)]))]);
        let (now, agent) = (net.now, net.agent("root"));
        let call = agent.next_call(now).unwrap();
        let (here, there) = line("root", certificate);
        agent.called(call, Ok(here), now);
        there.to.borrow_mut().bytes.extend(hello(from, to));
        net.step();
        assert!(there.from.borrow().closed && net.said("root", "child a: its"), "{from} {to}");
        assert_eq!(net.agent("root").peers.relay().least_backlog(), None);
    }
}

#[test]
fn parents_are_tried_in_order() {
    let mut net = Net::new(vec![setup(
        "leaf",
        vec![parent("first", None), parent("second", Some("second"))],
        children(&[]),
    )]);
    // (the first one has a while to connect)
    net.steps(20);
    assert!(net.said("leaf", "parent first: it has not connected"));
    assert!(!net.said("leaf", "parent second"));
    net.start(setup("second", vec![], children(&[("leaf", false)])));
    net.steps(100);
    let name = |net: &mut Net| net.agent("leaf").peers.parent().map(|(it, _)| it.to_string());
    assert_eq!(name(&mut net).as_deref(), Some("second"));
    // (one that is better is taken, and the other one is told so)
    net.start(setup("first", vec![], children(&[("leaf", true)])));
    net.steps(100);
    assert_eq!(name(&mut net).as_deref(), Some("first"));
    assert!(net.said("second", "closed leaf: it takes another parent"));
    assert!(net.agent("second").peers.relay().is_left_behind("leaf"));
    net.agents.remove("first");
    net.steps(400);
    assert_eq!(name(&mut net).as_deref(), Some("second"));
}

#[test]
fn a_candidate_that_is_no_better_is_told_so() {
    let priced = |at: Parent<String>, price| Parent { price: Some(price), ..at };
    let root = || parent("root", Some("root"));
    let mut net = Net::new(vec![
        setup("root", vec![], children(&[("leaf", false), ("far", false)])),
        setup("far", vec![priced(root(), 20)], children(&[("leaf", true)])),
        setup("leaf", vec![priced(root(), 9), priced(parent("far", None), 2)], children(&[])),
    ]);
    net.steps(400);
    let name = net.agent("leaf").peers.parent().map(|(it, _)| it.to_string());
    assert_eq!(name.as_deref(), Some("root"));
    assert!(net.said("far", "child leaf: it has another parent"));
}

#[test]
fn a_changed_setup_turns_a_link() {
    let mut net = path([false, false]);
    net.publish("root", "T0");
    net.steps(100);
    let now = net.now;
    let agent = net.agent("a");
    let turned = setup("a", vec![parent("root", None)], children(&[("b", false)]));
    agent.set_up(turned, now);
    assert!(net.said("a", "closed the parent: the parents changed"));
    let agent = net.agent("root");
    agent.set_up(setup("root", vec![], children(&[("a", true)])), now);
    net.publish("root", "1");
    net.steps(400);
    assert_eq!(net.agent("b").said.items, ["T0", "1"]);
    // (one that is no child any more is closed and forgotten)
    let now = net.now;
    let agent = net.agent("root");
    agent.set_up(setup("root", vec![], children(&[])), now);
    assert!(net.said("root", "gone a"));
    net.steps(100);
    assert!(net.agent("a").peers.parent().is_none());
    let agent = net.agent("root");
    assert_eq!(agent.peers.add("a", None, now), Ok(()));
    assert_eq!(agent.peers.add("a", None, now), Err(ChildError::Known));
    assert_eq!(agent.peers.add("root", None, now), Err(ChildError::NoName));
    assert_eq!(agent.remove("x", now), Err(ChildError::Unknown));
}

/// Two agents may be each other's parents, though one of them makes all connections between them.
#[test]
fn whoever_looks_for_a_parent_is_a_child_though_it_may_be_a_parent_too() {
    let mut net = Net::new(vec![
        setup("root", vec![], children(&[("a", false)])),
        setup(
            "a",
            vec![parent("root", Some("root")), parent("b", None)],
            children(&[("b", false)]),
        ),
        setup("b", vec![parent("a", Some("a"))], children(&[("a", true)])),
    ]);
    net.publish("root", "T0");
    net.steps(1_000);
    assert!(net.agent("b").peers.parent().is_some(), "it has no parent");
    assert_eq!(net.agent("b").said.items, ["T0"]);
    assert!(!net.said("a", "refused somewhere, which calls itself b: its name"));
}

#[test]
fn slow_hellos_and_too_many_are_dropped() {
    let mut net = path([false, false]);
    net.agents.remove("a");
    let mut ends: Vec<End> = (0..71).map(|_| net.stranger("root", "a", b"RGN")).collect();
    net.step();
    let closed = |ends: &[End]| ends.iter().filter(|end| end.from.borrow().closed).count();
    assert_eq!((closed(&ends), closed(&ends[..6])), (6, 6), "the oldest ones: a child is away");
    net.steps(ACK_TIMEOUT.as_millis() as usize / STEP.as_millis() as usize);
    assert_eq!(closed(&ends), 71);
    ends.clear();
    assert_eq!(net.agent("root").peers.refused(), 71);
}

/// The first parent says that it is a root, and nothing else.
#[test]
fn a_parent_that_brings_no_table_is_left_for_one_that_does() {
    let a = || children(&[("a", false)]);
    let to = |name| parent(name, Some(name));
    for parents in [vec![to("mute"), to("root")], vec![to("mute")]] {
        let is_alone = parents.len() == 1;
        let mut net = Net::new(vec![
            setup("mute", vec![], a()),
            setup("root", vec![], a()),
            setup("a", parents, children(&[])),
        ]);
        let is_below = |net: &mut Net, name: &str| {
            let parent = net.agent("a").peers.parent();
            parent.is_some_and(|it| it.0.name.as_deref() == Some(name))
        };
        let (mut below, seconds) = ([0, 0], if is_alone { 150 } else { 1_000 });
        for second in 0..seconds {
            net.publish("root", &format!("T{second}"));
            net.steps(CHECKS as usize);
            below[0] += u64::from(is_below(&mut net, "mute"));
            below[1] += u64::from(is_below(&mut net, "root"));
            // (while it had no other one it stays with what it has)
            assert!(below[0] + below[1] + 5 > second, "{below:?} of {second}");
        }
        assert!(net.said("a", "parent mute brought no whole table for"));
        if is_alone {
            assert_eq!(below[1], 0);
        } else {
            assert!(below[0] < 300, "{below:?}");
            assert!(net.agent("a").said.items.len() > 700, "{below:?}");
        }
    }
}

#[test]
fn those_of_one_origin_drive_out_each_other_and_nobody_else() {
    let mut net = path([false, false]);
    net.agents.remove("a");
    let (many, few) = (Origin::V4([127, 0, 0, 9]), Origin::V4([127, 0, 0, 1]));
    let mut child = net.stranger_at(few, "root", "a", b"");
    // (each of these says half a hello, or nothing, in less time than a hello may take)
    let says = |at: usize| if at % 2 == 0 { &b"RGN"[..] } else { b"" };
    let mut others: Vec<End> = Vec::new();
    for at in 0..500 {
        others.push(net.stranger_at(many, "root", "a", says(at)));
        net.steps(usize::from(at % 20 == 0));
    }
    child.write_all(&hello("a", "root")).unwrap();
    net.steps(10);
    assert!(net.said("root", "connected a"));
    let closed = |it: &&End| it.from.borrow().closed;
    assert!(others.iter().filter(closed).count() >= 400);
}

#[test]
fn who_was_a_child_before_is_driven_out_by_nobody_who_is_unknown() {
    let mut net = path([false, false]);
    net.agents.remove("a");
    net.shown = Shown::Certificate;
    let place = |at: usize| Origin::V4([127, 1, (at >> 8) as u8, at as u8]);
    let (home, elsewhere) = (Origin::V4([127, 0, 0, 1]), Origin::V4([127, 0, 0, 2]));
    // whether a child is still there that says nothing, while others come from an address each
    let stays = |net: &mut Net, from: Origin| {
        net.shown = Shown::Nothing;
        let end = net.stranger_at(from, "root", "a", b"");
        let mut others = Vec::new();
        for at in 0..500 {
            others.push(net.stranger_at(place(at), "root", "a", &b"RGN"[..at % 2 * 3]));
            net.steps(usize::from(at % 50 == 0));
        }
        let is_there = !end.from.borrow().closed;
        is_there
    };
    let connects = |net: &mut Net, from: Origin, shown: Shown| {
        net.shown = shown;
        let child = net.stranger_at(from, "root", "a", &hello("a", "root"));
        net.steps(20);
        let relay = net.agent("root").peers.relay();
        assert!(relay.child("a").unwrap().is_connected());
        drop(child);
        net.steps(2);
    };
    assert!(!stays(&mut net, home), "nobody knows it");
    connects(&mut net, home, Shown::Nothing);
    assert!(!stays(&mut net, home), "it has not proved its name");
    connects(&mut net, home, Shown::Certificate);
    assert!(stays(&mut net, home) && net.agent("root").peers.knows(&home));
    // (for as long as it is a child, and at the place where it was last)
    net.steps(500);
    assert!(stays(&mut net, home));
    connects(&mut net, elsewhere, Shown::Certificate);
    assert!(stays(&mut net, elsewhere) && !stays(&mut net, home));
    let (now, agent) = (net.now, net.agent("root"));
    agent.remove("a", now).unwrap();
    net.steps(CHECKS as usize);
    assert!(!net.agent("root").peers.knows(&elsewhere));
}

/// All bytes that an end has from an agent.
fn sent(end: &End) -> Vec<u8> {
    end.from.borrow().bytes.iter().copied().collect()
}

/// The next message that an end has from an agent.
fn next(end: &End, expect: Expect) -> Option<Message> {
    let mut bytes: Vec<u8> = end.from.borrow_mut().bytes.drain(..).collect();
    let message = wire::take(&mut bytes, expect).unwrap();
    end.from.borrow_mut().bytes.extend(bytes);
    message
}

#[test]
fn who_acknowledges_what_was_not_sent_is_closed() {
    let mut net = path([false, false]);
    net.agents.remove("a");
    let greeting = [hello("a", "root"), wire::ack(3)].concat();
    let end = net.stranger("root", "a", &greeting);
    net.step();
    assert!(net.said("root", "closed a: it acknowledges what was not sent"));
    drop(end);
}

/// What there is to watch changes no step of a link, whatever it is.
#[test]
fn no_report_closes_its_connection() {
    let mut net = path([false, false]);
    net.agents.remove("a");
    net.publish("root", "T0");
    let reports = [&b"well"[..], b"", b"\xff\xff", b"[", &[b'['; 700]];
    let all = reports.map(wire::report).concat();
    let end = net.stranger("root", "a", &[hello("a", "root"), all].concat());
    net.steps(3);
    for report in reports {
        let text = String::from_utf8_lossy(report);
        assert!(net.said("root", &format!("report of a {}", text)));
    }
    // (and what is published goes on by it)
    assert!(!net.said("root", "closed a") && !end.from.borrow().closed);
    next(&end, Expect::Hello);
    match next(&end, Expect::Frames) {
        Some(Message::Frame(_, body)) => assert_eq!(body.bytes, b"T0"),
        other => panic!("{:?}", other),
    }
}

#[test]
fn who_does_not_answer_is_left() {
    let mut net = path([false, false]);
    net.agents.remove("a");
    net.publish("root", "T0");
    let end = net.stranger("root", "a", &hello("a", ""));
    net.steps(3);
    let expected = Hello { version: OLD, life: 1, label: 255, from: "root".into(), to: "a".into() };
    assert_eq!(next(&end, Expect::Hello), Some(Message::Hello(expected)));
    // (a receiver with label 7 takes the first frame as fresh)
    match next(&end, Expect::Frames) {
        Some(Message::Frame(8, body)) => assert_eq!(body.bytes, b"T0"),
        other => panic!("{:?}", other),
    }
    assert!(!end.from.borrow().closed);
    net.steps(60);
    assert!(end.from.borrow().closed && net.said("root", "closed a: nothing came in time"));
    assert_eq!(net.agent("root").peers.relay().child("a").unwrap().timeouts, 1);
}

/// Any answer is no progress: whatever is wrong with the records of such a link, it begins anew.
#[test]
fn who_answers_and_takes_nothing_is_left_and_begins_anew() {
    let mut net = path([false, false]);
    net.agents.remove("a");
    net.publish("root", "T0");
    for count in 1..3 {
        let end = net.stranger("root", "a", &hello("a", "root"));
        net.steps(3);
        assert!(matches!(next(&end, Expect::Hello), Some(Message::Hello(_))));
        let mut frames = 0;
        for _ in 0..1_000 {
            if let Ok(Some(Message::Frame(8, _))) = wire::take(&mut sent(&end), Expect::Frames) {
                end.from.borrow_mut().bytes.clear();
                end.to.borrow_mut().bytes.extend(wire::ack(9));
                frames += 1;
            }
            net.step();
        }
        assert!(end.from.borrow().closed && frames > 50, "{frames}");
        let facts = net.agent("root").said.facts.clone();
        let said = |fact: &str| facts.iter().filter(|it| *it == fact).count();
        assert_eq!(said("connected a, a new count"), count, "{facts:?}");
        assert_eq!(said("left-behind a: it takes nothing"), count, "{facts:?}");
        assert_eq!(net.agent("root").peers.relay().child("a").unwrap().timeouts, 0);
    }
}

/// A child that needs three times as long for an answer as it may take: it is given more, and not
/// left again and again.
#[test]
fn who_is_slow_gets_everything() {
    for way in WAYS {
        let mut net = path(way);
        net.slow.insert("a".into(), 150);
        net.publish("root", "T0");
        (1..20).for_each(|at| net.publish("root", &at.to_string()));
        net.steps(150 * 60);
        let all = net.agent("root").said.items.clone();
        assert_eq!(net.agent("a").said.items, all, "{way:?}");
        assert_eq!(net.agent("b").said.items, all, "{way:?}");
        let timeouts = net.agent("root").peers.relay().child("a").unwrap().timeouts;
        assert!((1..10).contains(&timeouts), "{way:?}: {timeouts}");
    }
}

#[test]
fn a_child_that_was_connected_to_acknowledges_first() {
    let mut net = path([true, true]);
    net.agents.remove("root");
    let end = net.stranger("a", "root", &hello("root", "a"));
    net.step();
    let expected = Hello { version: OLD, life: 2, label: 255, from: "a".into(), to: "root".into() };
    assert_eq!(next(&end, Expect::Hello), Some(Message::Hello(expected)));
    assert_eq!(next(&end, Expect::Acks), Some(Message::Ack(255)));
    assert_eq!(next(&end, Expect::Acks), None);
}

/// A hello of version 2, or a look.
fn hello_2(from: &str, to: &str, life: u64) -> Hello {
    Hello { version: FIRST, life, label: 7, from: from.into(), to: to.into() }
}

fn way(cost: u16, names: &[&str]) -> Way {
    let names = names.iter().map(|name| name.to_string()).collect();
    Way { cost, names }
}

#[test]
fn a_look_is_answered_with_the_way_and_changes_no_link() {
    let mut net = path([false, false]);
    net.publish("root", "T0");
    net.steps(100);
    let before = net.agent("a").peers.relay().child("b").unwrap().connections;
    let end = net.stranger("a", "b", &hello_2("b", "a", 0).look());
    net.steps(2);
    let answer = Hello { label: Hello::range(OLD..=VERSION), ..hello_2("a", "b", 0) };
    assert_eq!(next(&end, Expect::Hello), Some(Message::Look(answer)));
    assert_eq!(next(&end, Expect::Way), Some(Message::Way(way(1, &["root", "a"]))));
    drop(end);
    net.steps(2);
    let relay = net.agent("a").peers.relay();
    assert_eq!(relay.child("b").unwrap().connections, before);
    assert!(relay.child("b").unwrap().is_connected());
    assert_eq!(net.agent("a").peers.refused(), 0);
    // (who has shown no certificate learns the version, and no name)
    let end = net.stranger("a", "x", &hello_2("x", "a", 0).look());
    net.steps(2);
    assert_eq!(sent(&end), b"RGNL\x02");
    let why = "refused somewhere, which calls itself x: its name is none of a child";
    assert!(net.said("a", why));
}

/// The end of an agent of this name that an agent has called, and what it has said first.
fn answers_as(net: &mut Net, agent: &str, name: &str) -> End {
    let (now, shown, agent) = (net.now, net.shown, net.agent(agent));
    let call = agent.next_call(now).unwrap();
    let (mut here, there) = line(agent.peers.name(), name);
    here.shown = shown;
    agent.called(call, Ok(here), now);
    there
}

/// Who is connected to, whose certificate it is, what it says, and why it is refused.
type Case = (Vec<Setup<String>>, &'static str, Vec<u8>, Refusal);

#[test]
fn whoever_is_refused_is_told_why_as_far_as_it_has_shown_who_it_is() {
    let any = || vec![setup("root", vec![], Children::Any)];
    let named = |all: &[(&str, bool)]| vec![setup("root", vec![], children(all))];
    let below = |name: &str| vec![setup("leaf", vec![parent(name, Some(name))], children(&[]))];
    let look = |from: &str, to: &str| hello_2(from, to, 0).look();
    let begins = |from: &str, to: &str| hello_2(from, to, 0).bytes();
    let rows: [Case; 10] = [
        (named(&[("a", false)]), "a", look("a", "other"), Refusal::OtherName),
        (named(&[("a", false)]), "x", look("x", "root"), Refusal::NoChild),
        (named(&[("a", true)]), "a", look("a", "root"), Refusal::Calls),
        (named(&[("a", false)]), "x", look("a", "root"), Refusal::Certificate),
        (any(), "root", look("root", "root"), Refusal::NoChild),
        // (nobody learns of another name than its own who is a child, or who the agent is)
        (named(&[("a", false)]), "x", look("b", "root"), Refusal::Certificate),
        (named(&[("a", false)]), "x", look("a", "other"), Refusal::Certificate),
        // (a parent that connects itself)
        (below("root"), "x", begins("x", "leaf"), Refusal::NoParent),
        (below("root"), "root", begins("root", "leaf"), Refusal::Calls),
        (below("root"), "root", begins("root", "other"), Refusal::OtherName),
    ];
    for (setups, certificate, says, why) in rows {
        let name = setups[0].name.clone();
        for shown in [Shown::Nothing, Shown::Something, Shown::Certificate] {
            let mut net = Net::new(setups.clone());
            net.shown = shown;
            let end = net.stranger(&name, certificate, &says);
            net.step();
            let told = match shown {
                Shown::Certificate => why,
                _ => Refusal::NotSaid,
            };
            assert_eq!(sent(&end), wire::refusal(told), "{why}: {shown:?}");
            assert!(sent(&end).len() <= 7 && end.from.borrow().closed);
        }
        // (one that speaks version 1 alone knows none of these)
        let mut net = Net::new(setups.clone());
        net.shown = Shown::Certificate;
        let end = net.stranger(&name, "x", &hello("x", &name));
        net.step();
        let is_taken = setups[0].children == Children::Any;
        assert!(is_taken || sent(&end).is_empty(), "{:?}", sent(&end));
    }
}

#[test]
fn who_is_refused_says_why_once_and_until_it_is_not() {
    let mut net = Net::new(vec![
        setup("one", vec![], children(&[("other", false)])),
        setup("two", vec![], children(&[("leaf", false)])),
        setup("leaf", vec![parent("one", Some("one")), parent("two", Some("two"))], children(&[])),
    ]);
    net.shown = Shown::Certificate;
    net.steps(500);
    let refusals = |net: &mut Net| -> Vec<(String, Refusal)> {
        let all = net.agent("leaf").peers.refusals();
        all.map(|(parent, why)| (parent.to_string(), why)).collect()
    };
    let words = |why: Refusal| format!("parent one: {why}");
    let times = |net: &mut Net, why| {
        let all = &net.agent("leaf").said.facts;
        all.iter().filter(|it| **it == words(why)).count()
    };
    // (beside a parent that takes it, too: it is looked at again and again)
    let parent_of = |net: &mut Net| net.agent("leaf").peers.parent().unwrap().0.to_string();
    assert_eq!(parent_of(&mut net), "two");
    let only = |why| vec![("one".to_string(), why)];
    assert_eq!(refusals(&mut net), only(Refusal::NoChild));
    net.steps(4_000);
    assert_eq!(refusals(&mut net), only(Refusal::NoChild));
    assert_eq!(times(&mut net, Refusal::NoChild), 1);
    // another reason is said, and none once it is taken
    let (now, called) = (net.now, children(&[("leaf", true)]));
    let agent = net.agent("one");
    agent.set_up(setup("one", vec![], called), now);
    net.steps(2_000);
    assert_eq!(refusals(&mut net), only(Refusal::Calls));
    assert_eq!(times(&mut net, Refusal::Calls), 1);
    let now = net.now;
    let agent = net.agent("one");
    let named = children(&[("leaf", false)]);
    agent.set_up(setup("one", vec![], named), now);
    net.steps(4_000);
    assert_eq!((refusals(&mut net), parent_of(&mut net)), (vec![], "one".into()));
    // who loses it for something else is refused no longer
    net.agents.remove("one");
    net.steps(2_000);
    assert_eq!(refusals(&mut net), vec![]);
}

#[test]
fn what_a_parent_says_in_place_of_a_reason_is_none() {
    let not_said = Some(Refusal::NotSaid);
    let rows: [(&[u8], Option<Refusal>); 8] = [
        (b"RGNL\x02", not_said),
        (b"RGNL\x02\xff\x02", Some(Refusal::NoChild)),
        // (one of a later release)
        (b"RGNL\x02\xff\xee", not_said),
        (b"RGNL\x02\xff", None),
        (b"RGNL\x02\xff\x02\x02", None),
        (b"RGNL\x03", None),
        (b"RGNL", None),
        (b"RGND\x02\xff\x02", None),
    ];
    for (says, why) in rows {
        let mut net =
            Net::new(vec![setup("leaf", vec![parent("root", Some("root"))], children(&[]))]);
        let end = answers_as(&mut net, "leaf", "root");
        end.to.borrow_mut().bytes.extend(says);
        net.step();
        assert!(!end.from.borrow().closed, "more may follow");
        drop(end);
        net.step();
        let words = why.map_or("the other end closed it".into(), |it| it.to_string());
        let peers = &net.agent("leaf").peers;
        assert_eq!(peers.no_parent(), words, "{says:?}");
        assert_eq!(peers.refusals().next().map(|it| it.1), why);
    }
}

#[test]
fn where_any_may_connect_one_too_many_is_told_so() {
    let mut net = Net::new(vec![setup("root", vec![], Children::Any)]);
    net.shown = Shown::Certificate;
    let says = |net: &mut Net, name: &str| {
        let end = net.stranger("root", name, &hello_2(name, "root", 9).bytes());
        let (now, agent) = (net.now, net.agent("root"));
        agent.read_all(now);
        agent.said.facts.clear();
        sent(&end)
    };
    for at in 0..10_000 {
        says(&mut net, &format!("child{at}"));
    }
    assert_eq!(says(&mut net, "child"), wire::refusal(Refusal::Full));
    let again = says(&mut net, "child7");
    assert!(again.starts_with(b"RGND"), "it is known already");
}

#[test]
fn of_two_processes_with_one_name_each_learns_of_the_other() {
    for (life, is_told) in [(99, false), (98, true)] {
        let mut net = path([false, false]);
        net.agents.remove("a");
        net.shown = Shown::Certificate;
        let first = net.stranger("root", "a", &hello_2("a", "root", 99).bytes());
        net.steps(2);
        let before = sent(&first).len();
        let second = net.stranger("root", "a", &hello_2("a", "root", life).bytes());
        net.steps(2);
        let told = sent(&first)[before..] == wire::last_refusal(Refusal::Twin)[..];
        assert!(first.from.borrow().closed && !second.from.borrow().closed);
        assert_eq!(told, is_told);
    }
    // (and what the one before makes of that)
    let mut net = Net::new(vec![setup("leaf", vec![parent("root", Some("root"))], children(&[]))]);
    let end = answers_as(&mut net, "leaf", "root");
    let answer = [hello_2("root", "leaf", 0).look(), wire::way(&way(0, &["root"]))].concat();
    end.to.borrow_mut().bytes.extend(answer);
    net.step();
    let greeting = Hello { label: 0, ..hello_2("root", "leaf", 5) };
    end.to.borrow_mut().bytes.extend(greeting.bytes());
    net.step();
    assert!(net.said("leaf", "connected the parent root"));
    let twin = wire::last_refusal(Refusal::Twin);
    end.to.borrow_mut().bytes.extend(twin);
    net.step();
    assert!(!end.from.borrow().closed, "it is the beginning of a way");
    drop(end);
    net.step();
    assert!(net.said("leaf", &format!("closed the parent: {}", Refusal::Twin)));
    assert_eq!(net.agent("leaf").peers.no_parent(), Refusal::Twin.to_string());
}

/// A parent that connects itself is compared with the one that there is, before anything changes.
#[test]
fn a_parent_that_connects_itself_is_compared() {
    let mut net = Net::new(vec![
        setup("root", vec![], children(&[("leaf", false)])),
        setup("leaf", vec![parent("root", Some("root")), parent("other", None)], children(&[])),
    ]);
    net.publish("root", "T0");
    net.steps(100);
    let greeting = hello_2("other", "leaf", 9).bytes();
    for cost in [0, 1, 128] {
        let says = [greeting.clone(), wire::way(&way(cost, &["other"]))].concat();
        let end = net.stranger("leaf", "other", &says);
        net.steps(2);
        assert!(matches!(next(&end, Expect::Hello), Some(Message::Look(_))), "{cost}");
        assert!(!end.from.borrow().closed, "it is told, and closes itself");
        let (parent, _) = net.agent("leaf").peers.parent().unwrap();
        assert_eq!(parent.to_string(), "root");
    }
    // (one of version 1 says no way: it is taken where there is no parent, as ever)
    net.agents.remove("root");
    net.steps(2);
    let end = net.stranger("leaf", "other", &hello("other", "leaf"));
    net.steps(2);
    match next(&end, Expect::Hello) {
        Some(Message::Hello(hello)) => assert_eq!((hello.version, hello.life), (OLD, 3)),
        other => panic!("{:?}", other),
    }
}

/// A parent that stands still is left after a bounded time, however its bytes come.
#[test]
fn a_parent_that_stands_still_or_drips_is_left() {
    let frame = wire::frame(3, &Body::of(vec![7; 1 << 20]));
    // (whole, what comes of a further frame at once, and then in each second; and after how long it
    // is left: a frame of 1 MiB has 16 seconds more)
    for (at_once, each_second, least, most) in
        [(&b""[..], &b""[..], 8, 9), (&frame[..5], &b""[..], 8, 9), (&frame[..], &b"x"[..], 24, 25)]
    {
        let mut net = path([true, true]);
        net.agents.remove("root");
        let says =
            [hello_2("root", "a", 9).bytes(), wire::way(&way(0, &["root"])), at_once.to_vec()];
        let end = net.stranger("a", "root", &says.concat());
        net.steps(10);
        assert!(net.agent("a").peers.parent().is_some());
        let mut seconds = 0;
        while net.agent("a").peers.parent().is_some() && seconds < 60 {
            end.to.borrow_mut().bytes.extend(each_second);
            net.steps(100);
            seconds += 1;
        }
        assert!((least..=most).contains(&seconds), "{seconds} s, {least} to {most}");
        assert!(net.said("a", "closed the parent: nothing came in time"));
    }
    // (one that says its way now and again is alive)
    let mut net = path([false, false]);
    net.publish("root", "T0");
    net.steps(100);
    let before = net.agent("b").peers.reconnects();
    net.steps(3_000);
    assert_eq!(net.agent("b").peers.reconnects(), before);
}

/// Where any child may connect, one that takes another parent is a child no longer: else those that
/// came and went would be kept for ever, until no further one may connect.
#[test]
fn who_takes_another_parent_is_forgotten_where_any_may_connect() {
    let mut net = Net::new(vec![setup("root", vec![], Children::Any)]);
    net.publish("root", "T0");
    let says = [hello_2("pod", "root", 9).bytes(), wire::GOODBYE.to_vec()].concat();
    let end = net.stranger("root", "pod", &says);
    net.steps(2);
    assert!(net.said("root", "closed pod: it takes another parent"));
    assert_eq!(net.agent("root").peers.relay().children().count(), 0);
    assert!(net.said("root", "gone pod"));
    // (it may come back)
    drop(end);
    let end = net.stranger("root", "pod", &hello_2("pod", "root", 9).bytes());
    net.steps(2);
    let relay = net.agent("root").peers.relay();
    assert!(relay.child("pod").unwrap().is_connected());
    drop(end);
}

/// Looks that were answered do not lengthen the time of a later one that is not.
#[test]
fn a_look_that_hangs_ends_soon_although_many_were_answered() {
    let mut net = Net::new(vec![
        setup("a", vec![parent("c", None)], children(&[("leaf", false)])),
        setup("b", vec![], children(&[("leaf", true)])),
        setup("leaf", vec![parent("a", Some("a")), parent("b", None)], children(&[])),
    ]);
    net.steps(10_000);
    let way = net.agent("leaf").peers.way().clone();
    assert_eq!((way.cost, &*way.names[0]), (9, "b"));
    net.slow.insert("a".into(), u64::MAX);
    let looks = |net: &mut Net| net.agent("leaf").peers.lines().count() > 1;
    while !looks(&mut net) {
        net.step();
    }
    let mut steps = 0;
    while looks(&mut net) {
        net.step();
        steps += 1;
    }
    assert!(STEP * steps <= 3 * ACK_TIMEOUT, "{steps} steps");
}

/// A child that closes a connection once without a word need not speak version 1: it may end at
/// that moment. One that does so twice in turn is called so.
#[test]
fn a_child_is_called_in_version_1_where_it_left_twice_without_a_word() {
    for times in [1, 2] {
        let mut net = Net::new(vec![setup("root", vec![], children(&[("a", true)]))]);
        let version = |net: &mut Net| {
            let (here, there) = line("root", "a");
            net.now += Duration::from_secs(1);
            let (now, root) = (net.now, net.agent("root"));
            let call = root.next_call(now).unwrap();
            root.called(call, Ok(here), now);
            let hello = next(&there, Expect::Hello);
            drop(there);
            root.read_all(now);
            match hello {
                Some(Message::Hello(hello)) => hello.version,
                other => panic!("{:?}", other),
            }
        };
        (0..times).for_each(|_| assert_eq!(version(&mut net), FIRST));
        if times == 2 {
            assert_eq!(version(&mut net), OLD);
            continue;
        }
        let parents = vec![parent("root", None)];
        net.start(setup("a", parents, children(&[("b", false)])));
        net.steps(100);
        assert_eq!(net.agent("a").peers.way(), &way(1, &["root", "a"]));
    }
}

#[test]
fn who_looks_at_itself_is_answered_and_whatever_becomes_of_that_is_not_counted() {
    let mut net = path([false, false]);
    net.steps(100);
    let counts = |net: &mut Net| {
        let peers = &net.agent("a").peers;
        (peers.refused(), peers.last_refused().to_string())
    };
    let before = (counts(&mut net), net.agent("a").said.facts.clone());
    let look = |from: &str, to: &str| hello_2(from, to, 0).look();
    let own = net.stranger_at(Origin::Own, "a", "a", &look("a", "a"));
    net.step();
    assert!(matches!(next(&own, Expect::Hello), Some(Message::Look(it)) if it.from == "a"));
    let says = Some(Message::Way(way(1, &["root", "a"])));
    assert_eq!(next(&own, Expect::Way), says);
    // (a look is no link: neither a hello of that name, nor a look by another certificate)
    let hello = net.stranger_at(Origin::Own, "a", "a", &hello_2("a", "a", 9).bytes());
    let other = net.stranger_at(Origin::Own, "a", "b", &look("a", "a"));
    let silent = net.stranger_at(Origin::Own, "a", "nobody", b"\x16\x03\x01\x02");
    drop(net.stranger_at(Origin::Own, "a", "nobody", b""));
    net.steps(2);
    assert!([&hello, &other, &silent].iter().all(|it| it.from.borrow().closed));
    drop(own);
    net.steps(2);
    assert_eq!((counts(&mut net), net.agent("a").said.facts.clone()), before);
    // (from anywhere else it is counted, and said)
    net.stranger("a", "b", &look("a", "a"));
    net.steps(2);
    assert_eq!(counts(&mut net).0, before.0 .0 + 1);
    assert!(net.said("a", "refused"));
}

#[test]
fn it_is_known_since_when_no_connection_comes_about_and_whether_a_parent_answers() {
    let mut net = path([false, false]);
    net.steps(100);
    let fails = |net: &mut Net| net.agent("a").peers.fails_since();
    assert_eq!(fails(&mut net), None);
    let begun = net.now;
    for _ in 0..3 {
        drop(net.stranger("a", "b", b""));
        net.steps(50);
    }
    assert_eq!(fails(&mut net), Some(begun + STEP));
    // (the agent itself comes otherwise, so it does not count)
    net.stranger_at(Origin::Own, "a", "a", &hello_2("a", "a", 0).look());
    net.steps(2);
    assert_eq!(fails(&mut net), Some(begun + STEP));
    net.cut("b");
    net.steps(100);
    assert_eq!(fails(&mut net), None, "a child came");
    drop(net.stranger_at(Origin::Own, "a", "nobody", b""));
    net.steps(2);
    assert_eq!(fails(&mut net), None);
    let answers = |net: &mut Net| net.agent("a").peers.looks_answered();
    let before = answers(&mut net);
    net.cut("a");
    net.steps(100);
    assert_eq!(answers(&mut net), before + 1);
    net.agents.remove("root");
    net.steps(400);
    assert_eq!(answers(&mut net), before + 1, "nobody answers");
}

/// Whoever is back at its deadline alone leaves in time who answers nothing.
#[test]
fn the_deadline_is_none_later_than_that_of_a_connection() {
    let mut net = path([false, false]);
    net.publish("root", "T0");
    net.steps(100);
    // (the child hears nothing from now on)
    let published = net.now;
    net.publish("root", "1");
    let (mut now, root) = (published, net.agent("root"));
    while !root.said.facts.iter().any(|it| it.contains("nothing came in time")) {
        let next = root.peers.deadline().expect("it waits for an answer");
        assert!(next > now, "it turns without end");
        now = next;
        root.tick(now);
    }
    assert!(now - published <= 2 * ACK_TIMEOUT, "{:?}", now - published);
}

/// A root that takes three times as long as an answer may take at first.
#[test]
fn who_is_slow_is_connected_and_known_to_be_slow() {
    let mut net = path([false, false]);
    net.slow.insert("root".into(), 150);
    net.steps(3_000);
    assert!(net.agent("a").peers.parent().is_some());
    net.calls.clear();
    for _ in 0..10 {
        net.cut("a");
        net.steps(900);
        assert!(net.agent("a").peers.parent().is_some());
    }
    assert_eq!(net.calls["root"], 10, "each call is the last one");
}

#[test]
fn who_is_slow_now_and_then_is_given_the_time() {
    let mut net = path([false, false]);
    net.publish("root", "T");
    net.steps(200);
    let timeouts = |net: &Net| net.agents["root"].peers.relay().child("a").unwrap().timeouts;
    let mut after = Vec::new();
    for turn in 0..40 {
        let is_slow = turn % 8 == 7;
        net.slow.insert("a".into(), if is_slow { 80 } else { 1 });
        net.publish("root", &turn.to_string());
        // (each slow answer takes as long)
        net.steps(if is_slow { 660 } else { 20 });
        assert!(net.agent("a").said.items.contains(&turn.to_string()), "{turn}");
        after.push(timeouts(&net));
    }
    assert!(after[7] > 0 && after[39] == after[7], "{after:?}");
}

/// What a receiver remembers may be another parent's: then no link goes on. A look tells no life,
/// and a parent that speaks version 1 leaves without an answer to it.
#[test]
fn a_parent_after_another_one_is_told_another_life() {
    for version in [OLD, VERSION] {
        let parents = vec![parent("a", Some("a")), parent("b", Some("b"))];
        let mut net = Net::new(vec![setup("c", parents, children(&[]))]);
        let life = net.agent("c").peers.life();
        let (mut now, mut lives) = (net.now, Vec::new());
        let c = net.agent("c");
        let said = |there: &End| next(there, Expect::Hello).expect("it says something first");
        for greets in [true, true, false, true, false] {
            now += Duration::from_secs(9);
            c.tick(now);
            let call = c.next_call(now).unwrap();
            let (name, (here, mut there)) = (call.address.clone(), line("c", &call.address));
            let mut hello =
                Hello { version, life: 9, label: 255, from: name.clone(), to: "c".into() };
            c.called(call, Ok(here), now);
            write_all(c, now);
            assert!(matches!(said(&there), Message::Look(look) if look.life == 0));
            if version == OLD {
                drop(there);
                c.read_all(now);
                let call = c.next_call(now).unwrap();
                let (here, other) = line("c", &call.address);
                there = other;
                c.called(call, Ok(here), now);
            } else {
                let names = vec!["root".into(), name.clone()];
                let way = wire::way(&Way { cost: 1, names });
                there.to.borrow_mut().bytes.extend([hello.look(), way].concat());
                c.read_all(now);
            }
            write_all(c, now);
            match said(&there) {
                Message::Hello(hello) => {
                    assert_eq!(hello.version, version);
                    lives.push((name.clone(), hello.life - life));
                }
                other => panic!("{other:?}"),
            }
            if greets {
                hello.from = name;
                there.to.borrow_mut().bytes.extend(hello.bytes());
                c.read_all(now);
                now += Duration::from_secs(9);
            }
            drop(there);
            c.read_all(now);
        }
        let told = |name: &str, life| (name.to_string(), life);
        // (the third call fails, and so the other parent is next)
        let expected = [told("a", 0), told("a", 0), told("a", 0), told("b", 1), told("a", 2)];
        assert_eq!(lives, expected, "version {version}");
    }
}

/// All that is to be written is written, a few bytes at a time.
fn write_all(agent: &mut Agent, now: Time) {
    while agent.lines.values().any(|it| it.has_output()) {
        agent.read_all(now);
    }
}

#[test]
fn children_that_come_at_once_do_not_drive_each_other_out() {
    let names: Vec<String> = (0..300).map(|at| format!("n{at}")).collect();
    let all: Vec<(&str, bool)> = names.iter().map(|name| (&**name, false)).collect();
    let mut net = Net::new(vec![setup("root", vec![], children(&all))]);
    let ends: Vec<End> =
        names.iter().map(|name| net.stranger("root", name, &hello(name, "root"))).collect();
    net.steps(10);
    let root = net.agent("root");
    assert_eq!(root.peers.refused(), 0);
    assert!(root.peers.relay().children().all(|(_, link)| link.is_connected()));
    drop(ends);
}

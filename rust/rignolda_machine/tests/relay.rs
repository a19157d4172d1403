//! Trees of nodes without sockets: connections that break, processes that begin anew, children that
//! are away, and what every agent has at the end.
use rignolda::Connection;
use rignolda_machine::net::{Body, Relay};
use rignolda_machine::settings::{furthest, Meaning, Table};
use rignolda_machine::Time;
use std::collections::{BTreeMap, VecDeque};
use std::sync::Arc;
use std::time::Duration;

mod common;
use common::Random;

type Settings = BTreeMap<String, Vec<u8>>;

/// An agent without its shell.
struct Agent {
    parent: Option<usize>,
    relay: Relay,
    table: Table,
    settings: Settings,
    life: u64,
    /// The sequence numbers that it applied in this life.
    applied: Vec<u64>,
    wire: Option<Wire>,
}

/// The connection of an agent to its parent.
struct Wire {
    below: Connection,
    above: Connection,
    down: VecDeque<(u16, Arc<Body>)>,
    up: VecDeque<u16>,
}

struct Tree {
    agents: Vec<Agent>,
    now: Time,
    room: u64,
    lives: u64,
    sequence: u64,
    since_table: u64,
    truth: Settings,
}

impl Tree {
    /// The agent `at` has the parent `(at - 1) / 2`.
    fn new(count: usize, room: u64) -> Tree {
        let mut tree = Tree {
            agents: Vec::new(),
            now: Time::default(),
            room,
            lives: 0,
            sequence: 0,
            since_table: 0,
            truth: Settings::new(),
        };
        for at in 0..count {
            let agent = tree.begun(at, count);
            tree.agents.push(agent);
        }
        tree
    }

    fn begun(&mut self, at: usize, count: usize) -> Agent {
        self.lives += 1;
        let mut relay = match at {
            0 => Relay::root(self.room),
            _ => Relay::below(self.room),
        };
        (2 * at + 1..2 * at + 3).filter(|it| *it < count).for_each(|it| {
            relay.add(&it.to_string(), self.now);
        });
        Agent {
            parent: (at > 0).then(|| (at - 1) / 2),
            relay,
            table: Table::default(),
            settings: Settings::new(),
            life: self.lives,
            applied: Vec::new(),
            wire: None,
        }
    }

    fn restart(&mut self, at: usize) {
        let count = self.agents.len();
        for other in 0..count {
            if other == at || self.agents[other].parent == Some(at) {
                self.leave(other);
            }
        }
        self.agents[at] = self.begun(at, count);
        if at == 0 {
            self.publish_table();
        }
    }

    fn leave(&mut self, at: usize) {
        let wire = match self.agents[at].wire.take() {
            Some(found) => found,
            None => return,
        };
        self.agents[at].relay.ended(wire.below);
        let parent = self.agents[at].parent.unwrap();
        self.agents[parent].relay.child_ended(&at.to_string(), wire.above, self.now);
    }

    /// A connection that the agent makes, or its parent: then the agent acknowledges first.
    fn connect(&mut self, at: usize, by_parent: bool) {
        let parent = match self.agents[at].parent {
            Some(found) => found,
            None => return,
        };
        self.leave(at);
        let name = at.to_string();
        let made = by_parent.then(|| self.agents[parent].relay.made_to(&name).unwrap());
        let (life, agent) = (self.agents[at].life, &mut self.agents[at].relay);
        let (below, up) = match by_parent {
            true => (agent.accepted().unwrap(), agent.ack()),
            false => (agent.made().unwrap(), None),
        };
        assert_eq!(up.is_some(), by_parent);
        let label = agent.label();
        let above = self.agents[parent].relay.greeted(&name, life, label, made, self.now);
        let wire =
            Wire { below, above: above.unwrap().0, down: [].into(), up: up.into_iter().collect() };
        self.agents[at].wire = Some(wire);
    }

    /// The parent writes to this child what it may.
    fn poll(&mut self, at: usize) {
        let parent = match self.agents[at].parent {
            Some(found) => found,
            None => return,
        };
        if self.agents[at].wire.is_none() {
            return;
        }
        let frame = self.agents[parent].relay.poll(&at.to_string(), self.now);
        let wire = self.agents[at].wire.as_mut().unwrap();
        wire.down.extend(frame);
        assert!(wire.down.len() + wire.up.len() <= 1, "one message is under way");
    }

    fn take_frame(&mut self, at: usize) {
        let agent = &mut self.agents[at];
        let wire = match &mut agent.wire {
            Some(found) => found,
            None => return,
        };
        let (label, body) = match wire.down.pop_front() {
            Some(found) => found,
            None => return,
        };
        let below = wire.below;
        let came = agent.relay.on_frame(Some(below), label, &body);
        let (fresh, left) = (came.is_fresh, came.left_behind);
        if fresh && agent.deliver(&body) {
            agent.relay.last_is_a_table();
        }
        let ack = agent.relay.ack();
        agent.wire.iter_mut().for_each(|wire| wire.up.extend(ack));
        assert!(agent.relay.kept().0 <= self.room);
        left.iter().for_each(|it| self.leave(it.parse().unwrap()));
    }

    fn take_ack(&mut self, at: usize) {
        let parent = match self.agents[at].parent {
            Some(found) => found,
            None => return,
        };
        let wire = match &mut self.agents[at].wire {
            Some(found) => found,
            None => return,
        };
        let label = match wire.up.pop_front() {
            Some(found) => found,
            None => return,
        };
        let above = wire.above;
        self.agents[parent].relay.on_ack(&at.to_string(), Some(above), label, self.now);
    }

    fn publish(&mut self, meaning: &Meaning<'_>) {
        self.sequence += 1;
        let body = Body::new(self.sequence, meaning);
        let left = self.agents[0].relay.publish(&body);
        left.iter().for_each(|it| self.leave(it.parse().unwrap()));
        self.since_table += 1;
        if self.agents[0].deliver(&body) {
            self.agents[0].relay.last_is_a_table();
            self.since_table = 0;
        }
    }

    fn publish_table(&mut self) {
        let truth = std::mem::take(&mut self.truth);
        let entries = truth.iter().map(|(key, value)| (key.as_str(), Some(value.as_slice())));
        self.publish(&Meaning::Table(entries.collect()));
        self.truth = truth;
    }

    fn change(&mut self, key: &str, value: Option<Vec<u8>>) {
        if self.since_table >= self.room / 2 {
            self.publish_table();
        }
        self.publish(&Meaning::Changes(vec![(key, value.as_deref())]));
        match value {
            Some(value) => self.truth.insert(key.into(), value),
            None => self.truth.remove(key),
        };
    }

    /// Every message arrives, and every agent connects, until nothing is left to do.
    fn settle(&mut self) {
        for _ in 0..10_000 {
            let mut idle = true;
            for at in 1..self.agents.len() {
                if self.agents[at].wire.is_none() {
                    self.connect(at, at % 2 == 0);
                    idle = false;
                }
                self.poll(at);
                idle &= self.agents[at].wire.as_ref().is_none_or(|it| it.down.is_empty());
                self.take_frame(at);
                self.take_ack(at);
            }
            if idle {
                return;
            }
        }
        panic!("it does not come to rest");
    }

    /// A round, above whatever number an agent has.
    fn round(&mut self, harmless: usize) {
        let numbers = self.agents.iter().map(|agent| agent.table.taker.number);
        self.sequence = furthest(self.sequence, numbers);
        for _ in 0..harmless {
            self.publish(&Meaning::Harmless);
            self.settle();
        }
        self.publish_table();
        self.settle();
    }

    fn all_are_right(&self) -> bool {
        self.agents.iter().all(|agent| agent.settings == self.truth)
    }
}

impl Agent {
    fn deliver(&mut self, body: &Body) -> bool {
        let (sequence, meaning) = match body.meaning() {
            Some(found) => found,
            None => return false,
        };
        if !self.table.takes(sequence, &meaning) {
            return false;
        }
        self.applied.push(sequence);
        match meaning {
            Meaning::Harmless => false,
            Meaning::Changes(entries) => {
                for (key, value) in entries {
                    match value {
                        Some(value) => self.settings.insert(key.into(), value.into()),
                        None => self.settings.remove(key),
                    };
                }
                false
            }
            Meaning::Table(entries) => {
                let entries = entries.into_iter();
                self.settings =
                    entries.map(|(key, value)| (key.into(), value.unwrap().into())).collect();
                true
            }
        }
    }
}

fn drawn(seed: u64, restarts: bool, steps: usize) -> Tree {
    let mut random = Random(seed * 2 + 1);
    let mut tree = Tree::new(7, 16);
    tree.publish_table();
    for step in 0..steps {
        let at = random.below(7);
        match random.below(24) {
            0 if restarts => tree.restart(at),
            0 => tree.leave(at),
            1 | 2 => tree.leave(at),
            3..=5 => {
                if tree.agents[at].wire.is_none() {
                    tree.connect(at, random.below(2) == 0);
                }
            }
            6 | 7 => {
                let key = format!("key{}", random.below(5));
                let value = (random.below(4) > 0).then(|| step.to_string().into_bytes());
                tree.change(&key, value);
            }
            8..=12 => tree.poll(at),
            13..=17 => tree.take_frame(at),
            _ => tree.take_ack(at),
        }
    }
    tree
}

/// Draws trees, with restarts or without, of which each agent is right once nothing is under way.
fn each_agent_is_right(restarts: bool) {
    for seed in 1..300 {
        let mut tree = drawn(seed, restarts, 3_000);
        tree.settle();
        assert!(tree.all_are_right(), "seed {seed}");
        for agent in &tree.agents {
            assert!(agent.applied.windows(2).all(|two| two[0] < two[1]), "seed {seed}");
        }
    }
}

#[test]
fn without_restarts_each_agent_is_right_without_a_round() {
    each_agent_is_right(false);
}

#[test]
fn restarts_lose_nothing_either() {
    // (a child begins anew at the last whole table, with a label that it does not remember)
    each_agent_is_right(true);
}

#[test]
fn two_rounds_mend_whatever_an_agent_remembers() {
    for seed in 1..100 {
        let mut random = Random(seed);
        let mut tree = drawn(seed, true, 1_000);
        let at = random.below(7);
        tree.agents[at].table.taker.number = [0, 1, u64::MAX / 2, u64::MAX][random.below(4)];
        tree.agents[at].settings.insert("spoiled".into(), vec![1]);
        tree.settle();
        tree.round(7);
        tree.round(7);
        assert!(tree.all_are_right(), "seed {seed}");
    }
}

#[test]
fn a_child_that_is_away_stops_nobody() {
    let mut tree = Tree::new(7, 16);
    tree.publish_table();
    tree.settle();
    // (a leaf is gone; the other agents get a thousand changes)
    tree.leave(6);
    for at in 0..1_000u32 {
        tree.change("key", Some(at.to_be_bytes().to_vec()));
        for _ in 0..8 {
            for at in 1..6 {
                tree.poll(at);
                tree.take_frame(at);
                tree.take_ack(at);
            }
        }
    }
    for at in 0..6 {
        assert_eq!(tree.agents[at].settings, tree.truth);
        assert!(tree.agents[at].relay.kept().0 <= 16);
    }
    assert!(tree.agents[2].relay.is_left_behind("6"));
    // (it is back, and has the present value after no more than what is kept)
    let before = tree.agents[6].applied.len();
    tree.settle();
    assert!(tree.all_are_right());
    assert!(tree.agents[6].applied.len() - before <= 16);
}

#[test]
fn what_is_kept_for_one_that_is_away_has_a_bound() {
    let mut tree = Tree::new(3, 1_024);
    tree.publish_table();
    tree.settle();
    tree.leave(2);
    for at in 0..80u8 {
        tree.change("key", Some(vec![at; 1 << 20]));
        if at % 3 == 0 {
            tree.publish_table();
        }
        for _ in 0..3 {
            tree.poll(1);
            tree.take_frame(1);
            tree.take_ack(1);
        }
        assert!(tree.agents[0].relay.kept().1 <= 66 << 20);
    }
    assert!(tree.agents[0].relay.is_left_behind("2"));
    assert_eq!(tree.agents[1].settings, tree.truth);
    tree.settle();
    assert!(tree.all_are_right());
}

#[test]
fn one_that_is_away_too_long_is_evicted() {
    let mut tree = Tree::new(3, 16);
    tree.publish_table();
    tree.settle();
    tree.leave(2);
    let after = Duration::from_secs(60);
    let relay = &mut tree.agents[0].relay;
    assert_eq!(relay.evicts_at(after), Some(tree.now + after));
    assert!(relay.evict(after, tree.now + after / 2).is_empty());
    assert_eq!(relay.evict(after, tree.now + after), ["2"]);
    assert_eq!(relay.evicts_at(after), None);
    tree.settle();
    assert!(tree.all_are_right());
}

#[test]
fn what_no_child_lacks_is_forgotten_at_the_next_acknowledgement() {
    let now = Time::default();
    let mut root = Relay::root(8);
    ["line", "store"].iter().for_each(|name| root.add(name, now));
    let publish = |root: &mut Relay, text: &[u8]| {
        root.publish(&Arc::new(Body::of(text.to_vec())));
    };
    publish(&mut root, b"one");
    let (line, _) = root.greeted("line", 1, 0, None, now).unwrap();
    assert_eq!(root.word_seen("store", 2, 0, now), Some(true));
    let (label, _) = root.poll("line", now).unwrap();
    root.on_ack("line", Some(line), label, now);
    assert_eq!(root.kept(), (1, 3), "the store's child lacks it");
    publish(&mut root, b"two");
    let (label, _) = root.poll("line", now).unwrap();
    let (word, _) = root.poll("store", now).unwrap();
    assert!(root.on_ack("store", None, word, now));
    assert_eq!(root.kept(), (1, 3), "it lacks the second one");
    // (its sender has it now, and then the other child acknowledges)
    assert!(root.poll("store", now).is_some());
    root.on_ack("line", Some(line), label, now);
    assert_eq!(root.kept(), (0, 0));
}

#[test]
fn what_comes_by_a_connection_that_was_left_changes_nothing() {
    let mut tree = Tree::new(2, 16);
    tree.publish_table();
    tree.connect(1, false);
    tree.poll(1);
    // (the frame lies on the old connection when the agent makes a new one)
    let old = tree.agents[1].wire.take().unwrap();
    tree.agents[0].relay.child_ended("1", old.above, tree.now);
    tree.connect(1, false);
    let (label, body) = old.down[0].clone();
    let came = tree.agents[1].relay.on_frame(Some(old.below), label, &body);
    let fresh = came.is_fresh;
    assert!(!fresh);
    let now = tree.now;
    tree.agents[0].relay.on_ack("1", Some(old.above), label, now);
    tree.settle();
    assert!(tree.all_are_right());
    assert_eq!(tree.agents[1].applied, [1]);
}

//! Agents whose links lie in a store in memory: what is lost, spoiled, late or old there, and what
//! each agent received then, judged by C, E and M of the links.
use rignolda_machine::net::wire::{self, Hello, OLD};
use rignolda_machine::net::{Body, Call, Children, Parent, Peers, ReportKind, Setup, Turn, Way};
use rignolda_machine::Time;
use std::collections::BTreeMap;
use std::io;
use std::sync::Arc;
use std::time::Duration;

mod common;
use common::shell::{Line, Shell};
use common::{Random, Said};

const STEP: Duration = Duration::from_millis(10);
/// In how many steps an agent looks at its state: a second.
const CHECKS: u64 = 100;

/// There are no connections here.
type NoLine = io::Empty;

impl Line for NoLine {}

type Keys = BTreeMap<String, Vec<u8>>;

/// What the store answered, and after how many steps the agent is told.
type Answer = (usize, Result<Vec<Vec<u8>>, String>);

struct Agent {
    shell: Shell<NoLine, Said>,
    answer: Option<Answer>,
    /// Whether it has a connection to the store; and what it has set by earlier ones and gave up.
    is_connected: bool,
    given_up: Vec<Vec<(String, Vec<u8>)>>,
    /// Whether something came or was asked of it since its last step.
    is_told: bool,
}

/// Agents that reach one store alone.
struct Net {
    agents: BTreeMap<String, Agent>,
    keys: Keys,
    is_up: bool,
    now: Time,
    steps: u64,
    lives: u64,
    random: Random,
    /// How many of a hundred turns fail.
    fails: usize,
}

fn parent(name: &str) -> Parent<String> {
    Parent { name: Some(name.into()), address: Some("store".into()), price: None }
}

fn setup(name: &str, parents: Vec<Parent<String>>, children: &[&str]) -> Setup<String> {
    let child = |name: &&str| (name.to_string(), Some("store".to_string()));
    Setup {
        name: name.into(),
        parents,
        rank: None,
        children: Children::Named(children.iter().map(child).collect()),
        ack_timeout: Duration::from_millis(500),
        evict: Duration::from_secs(60),
        poll: Duration::from_millis(50),
    }
}

/// The root, `a` below it, and `b` below that.
fn setup_of(name: &str) -> Setup<String> {
    match name {
        "root" => setup("root", vec![], &["a"]),
        "a" => setup("a", vec![parent("root")], &["b"]),
        _ => setup("b", vec![parent("a")], &[]),
    }
}

const PATH: [&str; 3] = ["root", "a", "b"];

impl Net {
    fn new(seed: u64) -> Net {
        let mut net = Net {
            agents: BTreeMap::new(),
            keys: Keys::new(),
            is_up: true,
            now: Time::default(),
            steps: 0,
            lives: 0,
            random: Random(seed * 2 + 1),
            fails: 0,
        };
        PATH.iter().for_each(|name| net.start(setup_of(name)));
        net
    }

    /// A process begins. What an earlier one of its name has given up may still be done.
    fn start(&mut self, setup: Setup<String>) {
        self.lives += 1;
        let name = setup.name.clone();
        let before = self.agents.remove(&name);
        let agent = Agent {
            shell: Shell::new(Peers::new(setup, self.lives, 64, self.now), Said::default()),
            answer: None,
            is_connected: false,
            given_up: before.map_or(Vec::new(), |it| it.given_up),
            is_told: true,
        };
        self.agents.insert(name, agent);
    }

    fn agent(&mut self, name: &str) -> &mut Agent {
        self.agents.get_mut(name).unwrap()
    }

    /// Kills a process, perhaps in the middle of a turn.
    fn restart(&mut self, name: &str) {
        self.start(setup_of(name));
    }

    /// A turn at the store, by the rules of the trait.
    fn turn(&mut self, name: &str, turn: Turn) -> Answer {
        let late = self.random.below(3);
        let fails = !self.is_up || self.random.below(100) < self.fails;
        let how = self.random.below(3);
        for (key, _) in &turn.sets {
            // (each key has one writer)
            let parts: Vec<&str> = key.split(':').collect();
            let writer = if ["down", "way"].contains(&parts[2]) { parts[0] } else { parts[1] };
            assert_eq!(writer, name, "{key}");
        }
        let (is_up, agent) = (self.is_up, self.agents.get_mut(name).unwrap());
        if is_up && !agent.is_connected {
            // (whoever begins a connection ends what earlier ones had under way)
            agent.given_up.clear();
            agent.is_connected = true;
        }
        if fails {
            agent.is_connected = false;
            match how {
                0 if is_up => self.keys.extend(turn.sets),
                1 => agent.given_up.push(turn.sets),
                _ => (),
            }
            return (late, Err("it was cut".into()));
        }
        self.keys.extend(turn.sets);
        let got = turn.gets.iter().map(|(key, most)| {
            let value = self.keys.get(key).map_or(&[][..], Vec::as_slice);
            value[..value.len().min(*most)].to_vec()
        });
        (late, Ok(got.collect()))
    }

    /// Each agent does all that it can do now. That is nothing where it was told nothing and its
    /// deadline is later: so whoever waits for these two is never late.
    fn step(&mut self) {
        self.now += STEP;
        self.steps += 1;
        let now = self.now;
        let names: Vec<String> = self.agents.keys().cloned().collect();
        for name in names {
            if self.random.below(12) == 0 && self.is_up {
                // (what was given up may be done at any time)
                let late = self.agent(&name).given_up.pop();
                self.keys.extend(late.into_iter().flatten());
            }
            let agent = self.agent(&name);
            let is_due = agent.shell.deadline(now).is_some_and(|at| now >= at);
            let mut acts = std::mem::take(&mut agent.is_told) || is_due;
            match &mut agent.answer {
                Some((late, _)) if *late > 0 => *late -= 1,
                answer => {
                    if let Some((_, got)) = answer.take() {
                        agent.shell.turned("store", got, now);
                        acts = true;
                    }
                }
            }
            agent.shell.tick(now);
            while let Some(call) = agent.shell.next_call(now) {
                assert!(acts, "{name} has a call to make, and does not know it");
                let Call { address, .. } = &call;
                match address.as_str() {
                    "store" => agent.shell.peers.in_store(call, now),
                    _ => {
                        let nobody = Err(io::Error::other("nobody is there"));
                        agent.shell.called(call, nobody, now);
                    }
                }
            }
            // (there is one store)
            if let Some((_, turn)) = agent.shell.turns(now).pop() {
                assert!(acts, "{name} has a turn to begin, and does not know it");
                let answer = self.turn(&name, turn);
                let agent = self.agent(&name);
                assert!(agent.answer.replace(answer).is_none(), "one is under way");
            }
            let (checks, agent) = (self.steps % CHECKS == 0, self.agent(&name));
            assert_eq!(agent.shell.peers.fault(), None, "{name}");
            if checks {
                let sound = agent.shell.check(false, now);
                assert_eq!(sound, Ok(()), "{name}");
            }
        }
    }

    fn steps(&mut self, count: usize) {
        (0..count).for_each(|_| self.step());
    }

    /// Goes on until all have what was published last, and a while longer.
    fn settle(&mut self) {
        for _ in 0..80 {
            self.steps(50);
            let last = self.items("root").last().cloned();
            if PATH.iter().all(|it| self.items(it).last() == last.as_ref()) {
                break;
            }
        }
        self.steps(100);
    }

    fn publish(&mut self, text: &str) {
        let (now, agent) = (self.now, self.agent("root"));
        let body = Arc::new(Body::of(text.as_bytes().to_vec()));
        agent.shell.publish(&body, now);
        agent.is_told = true;
    }

    /// Whether an agent has a parent to say this to.
    fn report(&mut self, name: &str, report: &[u8]) -> bool {
        let (now, agent) = (self.now, self.agent(name));
        agent.is_told = true;
        agent.shell.report(report, now)
    }

    /// Publishes a dozen items with drawn pauses, waits until all have them, and judges what each
    /// agent received from now on: at `a` and `b`, so many items lie in backlogs now.
    fn judge_from_now(&mut self, seed: u64, held: [usize; 2], is_table: fn(usize) -> bool) {
        let before = PATH.map(|name| self.items(name).len());
        for at in 0..12 {
            let kind = if is_table(at) { "T" } else { "" };
            self.publish(&format!("{kind}since {at}"));
            let pause = self.random.below(30);
            self.steps(pause);
        }
        self.fails = 0;
        self.settle();
        let published = self.items("root").split_off(before[0]);
        for depth in [1, 2] {
            let name = PATH[depth];
            let got = self.items(name).split_off(before[depth]);
            let strays = depth + held[depth - 1];
            let fault = judge(&got, &published, strays, 3 * depth);
            assert_eq!(fault, None, "{seed} {name}");
            assert_eq!(got.last(), published.last(), "{seed} {name}");
        }
    }

    fn items(&mut self, name: &str) -> Vec<String> {
        self.agent(name).shell.said.items.clone()
    }

    fn said(&mut self, name: &str, fact: &str) -> usize {
        let facts = &self.agent(name).shell.said.facts;
        facts.iter().filter(|it| it.starts_with(fact)).count()
    }

    /// A key of the two links, drawn.
    fn key(&mut self) -> String {
        let link = ["root:a", "a:b"][self.random.below(2)];
        format!("{link}:{}", ["down", "up"][self.random.below(2)])
    }

    /// Something is lost there: a key is deleted, or shows no word, or is cut.
    fn lose(&mut self) {
        let (key, how) = (self.key(), self.random.below(4));
        let length = self.random.below(90);
        match how {
            0 => drop(self.keys.remove(&key)),
            1 => {
                let bytes = (0..length).map(|_| self.random.below(256) as u8);
                let bytes = bytes.collect();
                self.keys.insert(key, bytes);
            }
            2 => self.keys.entry(key).or_default().truncate(length),
            _ => self.keys.entry(key).or_default().push(0),
        }
    }

    /// A word that an agent of these names could have set at some time.
    fn old_word(&mut self) {
        let key = self.key();
        let parts: Vec<String> = key.split(':').map(String::from).collect();
        let (life, label) = (self.random.below(9) as u64, self.random.below(256) as u16);
        let (mut from, mut to) = (parts[0].clone(), parts[1].clone());
        if parts[2] == "up" {
            std::mem::swap(&mut from, &mut to);
        }
        let mut bytes = Hello { version: OLD, life, label, from, to }.bytes();
        if parts[2] == "up" {
            bytes.extend(7_u32.to_be_bytes());
        } else {
            let body = Body::of(format!("old {}", self.random.below(99)).into_bytes());
            bytes.extend(wire::frame(label, &body));
            bytes.extend(&body.bytes);
        }
        self.keys.insert(key, bytes);
    }
}

/// What is wrong with what an agent received since a moment, where the root published this since:
/// its strays come first, and of the items before its last one only some among the first are
/// missing. No two texts are equal.
fn judge(got: &[String], published: &[String], strays: usize, missing: usize) -> Option<String> {
    let place = |text: &String| published.iter().position(|it| it == text);
    let (mut front, mut after) = (got.len(), published.len());
    while front > 0 && place(&got[front - 1]).is_some_and(|at| at < after) {
        front -= 1;
        after = place(&got[front]).unwrap();
    }
    let places: Vec<usize> = got[front..].iter().filter_map(place).collect();
    let end = places.last().copied().unwrap_or(0);
    let late = (missing..end).find(|at| !places.contains(at));
    match (front <= strays, late) {
        (true, None) => None,
        _ => Some(format!("{front} strays, {late:?} is missing: {got:?}")),
    }
}

#[test]
fn items_travel_through_a_store() {
    let mut net = Net::new(1);
    net.publish("T0");
    for at in 1..40 {
        net.publish(&format!("{at} {}", "x".repeat(at * 997 % 3_001)));
        net.steps(1);
    }
    net.settle();
    let all = net.items("root");
    assert_eq!(all.len(), 40);
    assert_eq!((net.items("a"), net.items("b")), (all.clone(), all));
    let root = &net.agents["root"].shell.peers;
    let link = root.relay().child("a").unwrap();
    assert_eq!((link.acknowledged(), link.timeouts, link.connections), (40, 0, 1));
    assert_eq!(root.relay().least_backlog(), Some(0));
    assert_eq!(net.agents["b"].shell.peers.parent().unwrap().0.to_string(), "a");
    // (a report comes up beside it, and a whole one, since some of those that are set are not seen)
    let kinds = ["b", "root"].map(|name| net.agents[name].shell.peers.report_kind());
    assert_eq!(kinds, [Some(ReportKind::Whole), None]);
    assert!(net.report("b", b"well"));
    assert!(!net.report("root", b"well"));
    net.steps(50);
    assert_eq!(net.said("a", "report of b well"), 1);
}

#[test]
fn what_is_lost_late_or_given_up_loses_no_item() {
    for seed in 1..40 {
        let mut net = Net::new(seed);
        net.publish("T0");
        net.steps(60);
        net.fails = [0, 10, 40][seed as usize % 3];
        for at in 1..40 {
            let length = net.random.below(2) * net.random.below(3_000);
            net.publish(&format!("{at} {}", "x".repeat(length)));
            let pause = net.random.below(25);
            net.steps(pause);
            match net.random.below(12) {
                0..=5 => net.lose(),
                6 => net.keys.clear(),
                7 => net.is_up = false,
                _ => (),
            }
            net.steps(3);
            net.is_up = true;
        }
        net.fails = 0;
        net.settle();
        let all = net.items("root");
        assert_eq!(net.items("a"), all, "{seed}");
        assert_eq!(net.items("b"), all, "{seed}");
        for (name, other) in [("root", "a"), ("a", "b")] {
            let fact = format!("connected {other}, a new count");
            assert_eq!(net.said(name, &fact), 1, "{seed}");
        }
    }
}

#[test]
fn whatever_a_store_holds_at_first_costs_what_the_laws_say() {
    for seed in 1..60 {
        let mut net = Net::new(seed);
        let words = net.random.below(5);
        (0..words).for_each(|_| net.old_word());
        let lost = net.random.below(3);
        (0..lost).for_each(|_| net.lose());
        net.judge_from_now(seed, [0, 0], |at| at % 3 == 0);
    }
}

#[test]
fn faults_are_counted_from_the_last_one() {
    for seed in 1..60 {
        let mut net = Net::new(seed);
        net.fails = [0, 20][seed as usize % 2];
        net.publish("T0");
        let (mut backup, mut texts) = (net.keys.clone(), 0);
        for _ in 0..30 {
            texts += 1;
            net.publish(&format!("{}{texts}", if texts % 4 == 0 { "T" } else { "" }));
            let pause = net.random.below(40);
            net.steps(pause);
            match net.random.below(9) {
                0 => backup = net.keys.clone(),
                1 => net.keys = backup.clone(),
                2 => net.old_word(),
                3 => net.restart("a"),
                4 => net.restart("b"),
                5 => net.lose(),
                _ => (),
            }
        }
        // (the last fault)
        net.keys = backup;
        let backlog = |name: &str| {
            let relay = net.agents[name].shell.peers.relay();
            let (_, link) = relay.children().next().unwrap();
            relay.backlog(link) as usize
        };
        let backlogs = [backlog("root"), backlog("a")];
        // (what the root still has to send is a backlog too, and so is a table begun anew)
        let held = [backlogs[0] + 5, backlogs[0] + backlogs[1] + 10];
        net.judge_from_now(seed, held, |at| at == 7);
    }
}

#[test]
fn one_that_begins_anew_gets_the_table_and_what_came_since() {
    for seed in 1..15 {
        let mut net = Net::new(seed);
        for text in ["T0", "1", "T2", "3", "4"] {
            net.publish(text);
            net.steps(100);
        }
        net.restart("a");
        net.steps(600);
        let got = net.items("a");
        assert!(got.ends_with(&["T2".into(), "3".into(), "4".into()]), "{seed}: {got:?}");
        // (its parent's word may still show the last frame)
        assert!(got.len() <= 4, "{seed}: {got:?}");
        net.publish("5");
        net.steps(300);
        assert_eq!(net.items("b").last().unwrap(), "5", "{seed}");
        // (the root begins anew, and the others stay)
        net.restart("root");
        net.publish("T6");
        net.steps(600);
        assert_eq!(net.items("b").last().unwrap(), "T6", "{seed}");
    }
}

#[test]
fn one_that_does_not_answer_stops_nobody_and_is_served_when_it_is_back() {
    let mut net = Net::new(5);
    net.publish("T0");
    net.steps(100);
    let away = net.agents.remove("b").unwrap();
    for at in 1..400 {
        net.publish(&format!("{}{at}", if at % 10 == 0 { "T" } else { "" }));
        net.steps(20);
        assert!(net.agents["a"].shell.peers.relay().kept().0 <= 64);
    }
    let link = net.agents["a"].shell.peers.relay().child("b").unwrap();
    let facts = &net.agents["a"].shell.said.facts;
    assert!(link.timeouts > 2 && !link.is_connected(), "{} {facts:?}", link.timeouts);
    assert_eq!(net.said("a", "closed b: nothing came in time"), 1);
    assert_eq!(net.said("a", "left-behind b") + net.said("a", "evicted b"), 1);
    assert_eq!(net.items("a"), net.items("root"));
    // (the same process goes on where it was: it takes what lies there, and then the last table)
    net.agents.insert("b".into(), away);
    net.steps(4_000);
    assert_eq!(net.said("a", "connected b"), 2);
    let last: Vec<String> = (390..400).map(|at| format!("{at}")).collect();
    let got = net.items("b");
    assert_eq!(got[got.len() - 10..], [&["T390".to_string()], &last[1..]].concat());
}

#[test]
fn the_next_parent_is_tried_where_the_store_has_no_word_of_one() {
    let mut net = Net::new(3);
    net.agents.clear();
    let elsewhere =
        Parent { name: Some("other".into()), price: None, address: Some("elsewhere".into()) };
    net.start(setup("a", vec![parent("root"), elsewhere], &[]));
    net.steps(300);
    assert!(net.said("a", "parent store: its word is not there") > 0);
    assert!(net.agents["a"].shell.peers.parent().is_none());
    net.restart("root");
    net.publish("T0");
    net.steps(600);
    assert_eq!(net.agents["a"].shell.peers.parent().unwrap().0.to_string(), "root");
    assert_eq!(net.items("a"), ["T0"]);
    // (where the store is gone it is said once, and it is looked for again)
    net.is_up = false;
    net.steps(300);
    assert!(net.agents["a"].shell.peers.parent().is_none());
    assert_eq!(net.said("a", "closed the parent: it was cut"), 1);
    net.is_up = true;
    net.publish("1");
    net.steps(600);
    assert_eq!(net.items("a"), ["T0", "1"]);
    // (one that is a child no longer has its word no more)
    let (now, agent) = (net.now, net.agent("root"));
    let gone = setup("root", vec![], &[]);
    agent.shell.set_up(gone, now);
    net.publish("2");
    net.steps(300);
    assert_eq!(net.items("a"), ["T0", "1"]);
    assert_eq!(net.said("root", "gone a"), 1);
}

/// Whoever may write there makes a parent send its table again and again, as each costs some bytes.
#[test]
fn words_that_change_their_lives_or_are_spoiled_cost_few_tables() {
    for spoils in [false, true] {
        let mut net = Net::new(7);
        net.publish(&format!("T{}", "x".repeat(4 << 20)));
        net.settle();
        let (mut tables, mut before) = (0, Vec::new());
        for at in 0..1_200 {
            let (life, label) = (1_000 + at, (at % 200) as u16);
            let (from, to) = ("a".to_string(), "root".to_string());
            let mut word = Hello { version: OLD, life, label, from, to }.bytes();
            word.extend((at as u32).to_be_bytes());
            if !spoils || at == 0 {
                net.keys.insert("root:a:up".into(), word);
            }
            net.step();
            let down = net.keys.get_mut("root:a:down").expect("the root sets it");
            tables += usize::from(down.len() > 4 << 20 && *down != before);
            before.clone_from(down);
            if spoils {
                *down = vec![0];
                before = vec![0];
            }
        }
        assert!((1..9).contains(&tables), "{tables} tables of 4 MiB in 12 s, {spoils}");
        // (and the honest one is served when that is over)
        net.publish("1");
        net.settle();
        net.settle();
        assert_eq!(net.items("b").last().unwrap(), "1", "{spoils}");
    }
}

/// In a store too a parent says its way: one that has no root is passed over, and comes to be the
/// parent once it has one.
#[test]
fn a_parent_without_a_root_is_passed_over_in_a_store_too() {
    let mut net = Net::new(3);
    net.agents.clear();
    net.start(setup("root", vec![], &["a", "b"]));
    net.start(setup("a", vec![parent("ghost")], &["leaf"]));
    net.start(setup("b", vec![parent("root")], &["leaf"]));
    net.publish("T0");
    net.steps(300);
    net.start(setup("leaf", vec![parent("a"), parent("b")], &[]));
    net.steps(300);
    let names = |net: &mut Net| net.agent("leaf").shell.peers.way().names.join(" ");
    assert_eq!(names(&mut net), "root b leaf");
    assert_eq!(net.items("leaf"), ["T0"]);
    assert_eq!(net.agent("a").shell.peers.way().cost, 128);
    net.start(setup("a", vec![parent("root")], &["leaf"]));
    net.steps(2_500);
    assert_eq!(names(&mut net), "root a leaf");
    net.publish("1");
    net.steps(300);
    assert_eq!(net.items("leaf").last().unwrap(), "1");
    // (whose way leads over this agent is left)
    let way = wire::way(&Way { cost: 2, names: vec!["leaf".into(), "a".into()] });
    net.keys.insert("a:leaf:way".into(), way);
    net.steps(50);
    assert_eq!(net.said("leaf", "closed the parent: its way leads over this agent"), 1);
}

/// Whoever takes a parent in a store takes no other one that it looked at meanwhile: else it goes
/// from one to the other for ever, where each look is at several.
#[test]
fn of_several_in_a_store_the_best_one_is_taken_and_kept() {
    let priced = |name, price| Parent { price: Some(price), ..parent(name) };
    let mut net = Net::new(5);
    net.agents.clear();
    net.start(setup("root", vec![], &["best", "far", "dear"]));
    net.start(setup("far", vec![priced("root", 60)], &["leaf"]));
    net.start(setup("dear", vec![priced("root", 0)], &["leaf"]));
    let candidates = vec![priced("best", 0), priced("far", 1), priced("dear", 20)];
    net.start(setup("leaf", candidates, &[]));
    net.publish("T0");
    net.steps(2_000);
    let names = |net: &mut Net| net.agent("leaf").shell.peers.way().names.join(" ");
    assert_eq!(names(&mut net), "root dear leaf");
    // (once the store is back, all are looked at by one turn)
    net.is_up = false;
    net.start(setup("best", vec![priced("root", 0)], &["leaf"]));
    net.steps(300);
    net.is_up = true;
    net.steps(2_000);
    assert_eq!(names(&mut net), "root best leaf");
    let moves = net.agent("leaf").shell.peers.reconnects();
    net.steps(2_000);
    assert_eq!(names(&mut net), "root best leaf");
    assert_eq!(net.agent("leaf").shell.peers.reconnects(), moves);
}

//! What a run is of, as its seed draws it: the shape of a tree, its links, groups and times.
use crate::disks::{FOLDER, ROOT};
use crate::random::Random;
use rignolda_machine::apply::Hook;
use rignolda_machine::config::{Apply, Config, Root as RootConfig};
use rignolda_machine::net::{wire, Address, Children, Parent, Setup};
use std::collections::BTreeMap;
use std::time::Duration;

/// The room of an agent's list.
pub const ROOM: u64 = 64;
/// How long a round is where links lie in stores, and after how long an agent looks into one again
/// that shows nothing new, in milliseconds.
const IN_STORES: u64 = 20_000;
const POLLS: u64 = 250;
/// The deepest that an agent is drawn: the depth that a root counts on if it knows none.
const DEEPEST: usize = 10;

/// What is drawn for a run.
pub struct Drawn {
    pub configs: Vec<Config>,
    /// How many of them may be the root: the first one, or the first two.
    pub roots: usize,
    /// How many stores there are in which links lie.
    pub stores: u64,
    /// By how many milliseconds lines are slow at most; and files, of each agent.
    pub slow: u64,
    pub files: Vec<u64>,
    pub round: u64,
    /// Which version of the protocol each agent speaks at most, as one of an older release does;
    /// and after how long its first life restarts itself, if it does.
    pub speaks: Vec<u8>,
    pub restarts: Vec<Option<u64>>,
    /// Whether changes of the root's folder may be held until somebody confirms them.
    pub holds: bool,
    /// For how long there are faults, in milliseconds; and how often one comes, and a change.
    pub span: u64,
    pub pause: u64,
    pub changes: u64,
}

/// The name of an agent.
pub fn name(agent: usize) -> String {
    format!("n{agent}")
}

/// Which agent has this name, if one has.
pub fn agent(name: &str) -> Option<usize> {
    name.strip_prefix('n')?.parse().ok()
}

fn address(agent: usize) -> Address {
    Address::Unix(format!("/{}", name(agent)))
}

/// The address of a store.
pub fn store(at: u64) -> Address {
    Address::Redis { server: format!("s{at}.example:6379"), prefix: "tree".into() }
}

/// Which agent listens at this address, if one does.
pub fn listens(address: &Address) -> Option<usize> {
    match address {
        Address::Unix(path) => agent(path.strip_prefix('/')?),
        _ => None,
    }
}

impl Drawn {
    /// A run of at most so many agents.
    pub fn new(seed: u64, most: u64) -> Drawn {
        let mut random = Random::new(seed, "tree", 0);
        let most = most.max(3);
        let large = random.once_in(4);
        let count = 3 + random.below(if large { most - 2 } else { (most - 2).min(9) }) as usize;
        let parents = parents(count, &mut random);
        let slow = random.of(&[0, 5, 40, 100]);
        let round = if slow >= 40 { 20_000 } else { 10_000 };
        let times = (random.of(&[500, 2_000]), random.of(&[2_000, 20_000, 60_000]));
        let mut configs: Vec<Config> =
            (0..count).map(|it| config(it, times, round, &mut random)).collect();
        for (it, parents) in parents.iter().enumerate() {
            for parent in parents {
                // (one end makes the connection)
                let is_called = !random.once_in(5);
                let price = random.once_in(10).then(|| random.below(6) as u16);
                configs[it].peers.parents.push(Parent {
                    name: Some(name(*parent)),
                    address: is_called.then(|| address(*parent)),
                    price,
                });
                if let Children::Named(all) = &mut configs[*parent].peers.children {
                    all.insert(name(it), (!is_called).then(|| address(it)));
                }
            }
        }
        // (each has a stream of its own, so that the rest is as it was)
        let mut more = Random::new(seed, "more", 0);
        let holds = more.once_in(5);
        if let Some(root) = configs[0].root.as_mut().filter(|_| holds) {
            root.hold = more.once_in(2);
            root.unsets = more.of(&[None, Some(2)]);
        }
        let mut two = Random::new(seed, "two roots", 0);
        let roots = if !holds && two.once_in(5) { 2 } else { 1 };
        if roots == 2 {
            has_two_roots(&mut configs);
        }
        let mut lies = Random::new(seed, "stores", 0);
        let stores = if lies.once_in(5) { 1 + lies.below(2) } else { 0 };
        let round = if stores > 0 { IN_STORES } else { round };
        if stores > 0 {
            lie_in(stores, roots, &mut configs, &mut lies);
            let roots = configs.iter_mut().filter_map(|it| it.root.as_mut());
            roots.for_each(|it| it.round = Duration::from_millis(round));
        }
        if more.once_in(2) {
            configs.iter_mut().filter_map(|it| it.apply.as_mut()).for_each(|apply| {
                let groups: &[&str] =
                    more.of(&[&[], &["canary"], &["eu"], &["canary", "eu"], &["eu", "canary"]]);
                apply.groups = groups.iter().map(|it| (*it).to_owned()).collect();
            });
        }
        let mut hooks = Random::new(seed, "hooks", 0);
        if hooks.once_in(3) {
            for apply in configs.iter_mut().filter_map(|it| it.apply.as_mut()) {
                apply.hook = hooks.once_in(2).then(|| "/hook".into());
                let (keys, run) = (vec!["k1*".into(), "k2".into()], "/run".into());
                let timeout = Duration::from_secs(1);
                apply.hooks.extend(hooks.once_in(2).then_some(Hook { keys, run, timeout }));
            }
        }
        let (are_old, do_restart) = (more.once_in(3), more.once_in(4));
        let speaks =
            (0..count)
                .map(|_| if are_old { more.of(&[2, 3, wire::VERSION]) } else { wire::VERSION });
        let mut speaks: Vec<u8> = speaks.collect();
        // (who speaks version 1 says no way: so there are no rings, and nobody chooses)
        let mut oldest = Random::new(seed, "version 1", 0);
        let choose = configs.iter().any(|it| it.peers.parents.len() > 1);
        if !choose && roots == 1 && stores == 0 {
            let old = speaks.iter_mut().filter(|it| **it == wire::FIRST);
            old.filter(|_| oldest.once_in(2)).for_each(|it| *it = wire::OLD);
        }
        let restarts = (0..count)
            .map(|_| Some(10_000 + more.below(100_000)).filter(|_| do_restart && more.once_in(2)));
        let restarts = restarts.collect();
        Drawn {
            roots,
            stores,
            speaks,
            restarts,
            holds,
            configs,
            slow,
            files: (0..count).map(|_| random.of(&[0, 3, 50, 400])).collect(),
            round,
            span: 20_000 + random.below(100_000),
            pause: random.of(&[200, 1_000, 5_000]),
            changes: random.of(&[300, 3_000, 20_000]),
        }
    }
}

/// The second agent may be the root, too. Each of the two is first parent and child of the other;
/// who is below the first one may have both as parents.
fn has_two_roots(configs: &mut [Config]) {
    let parent = |it| Parent { name: Some(name(it)), address: Some(address(it)), price: None };
    let is_second = |it: &Parent<Address>| it.name.as_deref() == Some("n1");
    for it in 0..configs.len() {
        let peers = &mut configs[it].peers;
        let first = peers.parents.iter().position(|it| it.name.as_deref() == Some("n0"));
        if let (Some(at), false) = (first, it == 1 || peers.parents.iter().any(is_second)) {
            peers.parents.insert(at + 1, parent(1));
            if let Children::Named(all) = &mut configs[1].peers.children {
                all.insert(name(it), None);
            }
        }
    }
    let root = configs[0].root.clone().map(|it| RootConfig { standby: true, ..it });
    for (it, config) in configs.iter_mut().enumerate() {
        let Children::Named(children) = &mut config.peers.children else { continue };
        children.remove("n1");
        if it < 2 {
            children.insert(name(1 - it), None);
            config.peers.parents = vec![parent(1 - it)];
            config.root.clone_from(&root);
            config.apply.iter_mut().for_each(|it| it.may_be_root = true);
        }
    }
}

/// Links lie in these stores: all of them, or some.
fn lie_in(stores: u64, roots: usize, configs: &mut [Config], random: &mut Random) {
    let are_all = random.once_in(3);
    configs.iter_mut().for_each(|it| it.peers.poll = Duration::from_millis(POLLS));
    // (two roots look at each other over lines)
    for it in (0..configs.len()).filter(|it| roots == 1 || *it > 1) {
        for at in 0..configs[it].peers.parents.len() {
            let store = store(random.below(stores));
            let parent = &mut configs[it].peers.parents[at];
            let other = parent.name.as_deref().and_then(agent);
            if let Some(other) = other.filter(|_| are_all || random.once_in(2)) {
                parent.address = Some(store.clone());
                if let Children::Named(all) = &mut configs[other].peers.children {
                    all.insert(name(it), Some(store));
                }
            }
        }
    }
}

/// Whom each agent may have as parents: a line, a star, a heap, or any, with more parents or few.
fn parents(count: usize, random: &mut Random) -> Vec<Vec<usize>> {
    let (mut parents, mut depths) = (vec![Vec::new(); count], vec![0; count]);
    let shape = random.below(5);
    for it in 1..count {
        let first = match shape {
            0 => it - 1,
            1 => 0,
            2 => (it - 1) / 2,
            _ => random.at(it),
        };
        let first = if depths[first] < DEEPEST { first } else { 0 };
        depths[it] = depths[first] + 1;
        parents[it].push(first);
        let more = match shape {
            3 => 1 + random.below(2),
            4 => u64::from(random.once_in(3)),
            _ => u64::from(random.once_in(8)),
        };
        for _ in 0..more {
            let other = random.at(count);
            if other != it && !parents[it].contains(&other) {
                parents[it].push(other);
            }
        }
    }
    parents
}

fn config(it: usize, times: (u64, u64), round: u64, random: &mut Random) -> Config {
    let groups = if random.once_in(4) { vec!["canary".into()] } else { Vec::new() };
    Config {
        peers: Setup {
            name: name(it),
            parents: Vec::new(),
            rank: None,
            children: Children::Named(BTreeMap::new()),
            ack_timeout: Duration::from_millis(times.0),
            evict: Duration::from_millis(times.1),
            poll: Duration::from_millis(100),
        },
        listens: true,
        backlog: ROOM,
        root: (it == 0).then(|| RootConfig {
            settings: ROOT.into(),
            standby: false,
            round: Duration::from_millis(round),
            harmless: None,
            hold: false,
            unsets: Some(usize::MAX),
        }),
        apply: Some(Apply { folder: FOLDER.into(), mode: 0o640, groups, ..Apply::default() }),
    }
}

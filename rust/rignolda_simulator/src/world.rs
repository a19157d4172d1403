//! A tree of agents in virtual time: each is a [`Machine`] as it runs in the daemon, and what that
//! asks for is done here, at times that are drawn.
use crate::disks::{Disk, Settings};
use crate::drawn::Drawn;
use crate::judge::{Broken, Judge};
use crate::lines::{Clock, End, Held};
use crate::random::Random;
use rignolda_machine::machine::{Act, Host, Machine, Now};
use rignolda_machine::net::{Address, Call};
use rignolda_machine::{Ticket, Time};
use rignoldactl::{sha256, Request};
use roots::Roots;
use shell::Shell;
use std::cmp::Reverse;
use std::collections::{BTreeMap, BTreeSet, BinaryHeap};
use std::rc::Rc;
use std::time::Duration;
use stores::{Got, Store};

mod roots;
mod shell;
mod shown;
mod stores;
mod turns;
mod visitors;

/// When it is at the start of a run, by the clock of a machine: in milliseconds since 1970.
const START: i64 = 1_800_000_000_000;
/// The same by the clock that only goes on.
const BEGUN: Time = Time::after(Duration::from_secs(3_600));
/// After how long somebody starts an agent again that ended by itself, in milliseconds.
const RESTARTS: u64 = 100;
/// How many turns of agents one millisecond has at most.
const TURNS: u64 = 50_000;

/// What comes to an agent at a time, besides what comes over lines.
enum Comes {
    Line(End),
    Called(Box<Call<Address>>, Option<End>),
    /// A worker has done this.
    Works(Box<Act>),
    Asked(Ticket, Request),
    Changed,
    /// What came of a turn of a store.
    Turned(Address, Got),
}

/// An agent, its machine, and what that has.
pub struct Agent {
    pub machine: Option<Machine>,
    /// Its lines by their numbers, and the last number.
    pub lines: BTreeMap<u64, Held>,
    made: u64,
    pub disk: Disk,
    /// Why its process ends by itself, if it does.
    failed: Option<String>,
    /// Until when its process is stopped, and until when it refuses connections.
    pub stopped: u64,
    pub refuses: u64,
    /// When it is started again, if it does not run.
    pub starts: Option<u64>,
    /// By how much its clock is ahead, in milliseconds.
    pub ahead: i64,
    comes: BTreeMap<(u64, u64), Comes>,
    /// When a wake is planned, and when it had a turn last; and how many it had in this millisecond
    /// since something came.
    planned: u64,
    turned: u64,
    spins: u64,
    /// Since when it had turn after turn to which nothing came.
    busy: Option<u64>,
    /// Whether its shell is to look at itself.
    checks: bool,
    random: Random,
    lives: u64,
    shell: Shell,
}

/// A run.
pub struct World {
    pub drawn: Drawn,
    pub clock: Rc<Clock>,
    pub agents: Vec<Agent>,
    /// Which agents cannot reach each other.
    pub apart: BTreeSet<[usize; 2]>,
    /// The root's folder, which is the truth, and that of a second root.
    pub folders: Vec<Settings>,
    roots: Roots,
    pub stores: Vec<Store>,
    pub judge: Judge,
    pub turns: u64,
    /// Who asked an agent for something and was not answered yet, and when.
    asked: Vec<(usize, Ticket, u64)>,
    /// The ends of lines that nobody of the tree has, and until when each is there.
    strangers: Vec<(End, u64)>,
    seed: u64,
    heap: BinaryHeap<Reverse<(u64, u64, usize)>>,
    lines: u64,
    events: u64,
    spins: (u64, u64),
    acts: Vec<Act>,
    /// On which lines all is written, and which are over.
    written: Vec<(u64, bool)>,
    pub talks: bool,
}

impl World {
    pub fn new(seed: u64, most: u64, talks: bool) -> World {
        let drawn = Drawn::new(seed, most);
        let (count, stores) = (drawn.configs.len(), drawn.stores);
        let disk = |it: usize| {
            let stands = drawn.roots == 2 && it < 2;
            let rank = (stands && it == 0).then_some(roots::RANK);
            Disk::new(Random::new(seed, "disk", it as u64), stands, rank)
        };
        let agents = (0..count).map(|it| Agent {
            machine: None,
            lines: BTreeMap::new(),
            made: 0,
            disk: disk(it),
            failed: None,
            stopped: 0,
            refuses: 0,
            starts: Some(0),
            ahead: 0,
            comes: BTreeMap::new(),
            planned: 0,
            turned: 0,
            spins: 0,
            busy: None,
            checks: false,
            random: Random::new(seed, "agent", it as u64),
            lives: 0,
            shell: Shell::default(),
        });
        World {
            agents: agents.collect(),
            judge: Judge::new(&drawn),
            drawn,
            clock: Rc::default(),
            apart: BTreeSet::new(),
            folders: vec![Settings::new(); count],
            roots: Roots::default(),
            stores: (0..stores).map(|it| Store::new(Random::new(seed, "store", it))).collect(),
            turns: 0,
            asked: Vec::new(),
            strangers: Vec::new(),
            seed,
            heap: BinaryHeap::new(),
            lines: 0,
            events: 0,
            spins: (0, 0),
            acts: Vec::new(),
            written: Vec::new(),
            talks,
        }
    }

    pub fn now(&self, agent: usize) -> Now {
        let clock = self.clock.now();
        let unix = START + clock as i64 + self.agents[agent].ahead;
        let unix = Duration::from_millis(u64::try_from(unix).unwrap_or(0));
        Now { at: BEGUN + Duration::from_millis(clock), unix }
    }

    /// Starts the agents whose time has come.
    pub fn start_some(&mut self) {
        let now = self.clock.now();
        for it in 0..self.agents.len() {
            if self.agents[it].starts.is_some_and(|at| at <= now) {
                self.start(it);
            }
        }
    }

    /// When the next one is started.
    pub fn next_start(&self) -> Option<u64> {
        self.agents.iter().filter_map(|it| it.starts).min()
    }

    fn start(&mut self, it: usize) {
        let now = self.now(it);
        let config = self.drawn.configs[it].clone();
        let agent = &mut self.agents[it];
        (agent.starts, agent.lives) = (None, agent.lives + 1);
        self.roots.begins(it, self.clock.now());
        self.judge.begins(it);
        agent.comes.clear();
        (agent.failed, agent.shell) = (None, Shell::default());
        let found = agent.disk.begins();
        let restarts = self.drawn.restarts[it].filter(|_| agent.lives == 1);
        let restarts = restarts.map(Duration::from_millis);
        let host = Host { drawn: agent.random.number(), waiting: 64, restarts, sha256 };
        let machine = Machine::new(config, found, host, now, &mut self.acts);
        agent.machine = Some(machine);
        self.acts_of(it);
        self.clock.wake(self.clock.now(), it);
    }

    /// An agent ends; by a loss of power its lines end without a word. What its workers had begun
    /// is done, or is not.
    pub fn end(&mut self, it: usize, power: bool, starts: u64) {
        let now = self.clock.now();
        let agent = &mut self.agents[it];
        let root = agent.machine.as_ref().and_then(|it| it.came.root.as_ref());
        if self.drawn.holds && root.is_some_and(|it| !it.is_kept()) {
            self.judge.is_set_back = true;
        }
        if power {
            agent.lines.values().for_each(|it| it.end.is_cut_off());
        }
        agent.machine = None;
        agent.lines.clear();
        self.stores.iter_mut().for_each(|store| store.is_left(it));
        self.asked.retain(|(to, ..)| *to != it);
        let mut begun = 0;
        for what in std::mem::take(&mut agent.comes).into_values() {
            if let Comes::Works(act) = what {
                // (each worker does one after the other)
                if begun < agent.random.below(3) {
                    agent.disk.ends_at(*act, &mut self.folders[it], now);
                }
                begun += 1;
            }
        }
        agent.starts = Some(now + starts);
        self.has_worked(it);
    }

    /// The folder of a root has changed.
    pub fn changed(&mut self, it: usize) {
        self.judge.changed(it, &self.folders[it]);
        if self.agents[it].machine.is_some() {
            self.comes(it, 0, Comes::Changed);
        }
    }

    fn comes(&mut self, it: usize, after: u64, what: Comes) {
        self.events += 1;
        let at = self.clock.now() + after;
        self.agents[it].comes.insert((at, self.events), what);
        self.clock.wake(at, it);
    }

    fn plan(&mut self, it: usize, at: u64) {
        let agent = &mut self.agents[it];
        if agent.planned <= self.clock.now() || at < agent.planned {
            agent.planned = at;
            self.clock.wake(at, it);
        }
    }

    fn takes_wakes(&mut self) {
        let now = self.clock.now();
        for (at, it) in self.clock.wakes() {
            self.events += 1;
            self.heap.push(Reverse((at.max(now), self.events, it)));
        }
    }

    /// Goes on until this time.
    pub fn run(&mut self, until: u64) -> Result<(), Broken> {
        self.takes_wakes();
        while let Some(Reverse((at, _, it))) =
            self.heap.peek().copied().filter(|it| it.0 .0 <= until)
        {
            self.heap.pop();
            let now = at.max(self.clock.now());
            self.spins = if now > self.spins.0 { (now, 0) } else { (now, self.spins.1 + 1) };
            let most = if self.judge.is_spoilt() { TURNS / 20 } else { TURNS };
            if self.spins.1 > most {
                if !self.judge.is_spoilt() {
                    return Err(format!("SPINS: n{it}"));
                }
                // (as if each took a little)
                self.spins = (now + 1, 0);
            }
            self.clock.set(self.spins.0);
            self.turn(it)?;
            self.takes_wakes();
        }
        self.clock.set(until.max(self.clock.now()));
        Ok(())
    }
}

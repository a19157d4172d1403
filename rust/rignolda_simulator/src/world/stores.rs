//! Stores in which links lie: what their keys show, by the law of a turn.
use super::{Comes, World};
use crate::drawn;
use crate::random::Random;
use rignolda_machine::net::{Address, Turn};
use std::collections::{BTreeMap, BTreeSet};

/// What came of a turn.
pub type Got = Result<Vec<Vec<u8>>, String>;

type Keys = BTreeMap<String, Vec<u8>>;
type Sets = Vec<(String, Vec<u8>)>;

/// After how long a turn is given up, in milliseconds.
const GIVES_UP: u64 = 5_000;

/// A store.
pub struct Store {
    pub keys: Keys,
    /// What it showed once.
    copy: Option<Keys>,
    /// Until when nobody reaches it, and until when some turns fail.
    pub away: u64,
    pub fails: u64,
    /// Who has a connection to it; and what was set by earlier ones that were given up, which may
    /// still be done as long as their agent has no new one.
    connected: BTreeSet<usize>,
    given_up: Vec<(usize, Sets)>,
    slow: u64,
    random: Random,
}

impl Store {
    /// An empty one.
    pub fn new(mut random: Random) -> Store {
        Store {
            keys: Keys::new(),
            copy: None,
            away: 0,
            fails: 0,
            connected: BTreeSet::new(),
            given_up: Vec::new(),
            slow: random.of(&[1, 5, 40]),
            random,
        }
    }

    /// A process, or what it had of a store, is gone.
    pub fn is_left(&mut self, it: usize) {
        self.connected.remove(&it);
    }

    /// A backup is made, or comes back.
    pub fn copies_or_goes_back(&mut self) -> &'static str {
        match self.copy.take() {
            Some(copy) => {
                self.keys = copy;
                "store is as it was once"
            }
            None => {
                self.copy = Some(self.keys.clone());
                "store is copied"
            }
        }
    }

    /// A turn of an agent: after how long that knows what came of it.
    fn turn(&mut self, it: usize, turn: Turn, now: u64) -> (u64, Got) {
        let after = self.random.below(self.slow + 1);
        if now < self.away {
            self.is_left(it);
            let most = self.random.of(&[1, GIVES_UP]);
            return (self.random.below(most), Err("nobody is there".into()));
        }
        if self.connected.insert(it) {
            // (whoever begins a connection ends what earlier ones had under way)
            self.given_up.retain(|(who, _)| *who != it);
        }
        if !self.given_up.is_empty() && self.random.once_in(4) {
            let at = self.random.at(self.given_up.len());
            self.keys.extend(self.given_up.swap_remove(at).1);
        }
        if now < self.fails && self.random.once_in(4) {
            self.is_left(it);
            match self.random.below(3) {
                0 => self.keys.extend(turn.sets),
                1 => self.given_up.push((it, turn.sets)),
                _ => (),
            }
            return (self.random.below(GIVES_UP), Err("it was cut".into()));
        }
        self.keys.extend(turn.sets);
        let got = turn.gets.iter().map(|(key, most)| {
            let value = self.keys.get(key).map_or(&[][..], Vec::as_slice);
            value[..value.len().min(*most)].to_vec()
        });
        (after, Ok(got.collect()))
    }
}

impl World {
    fn store(&self, address: &Address) -> Option<usize> {
        (0..self.stores.len()).find(|it| drawn::store(*it as u64) == *address)
    }

    /// An agent asks a store for a turn.
    pub(super) fn asks_a_store(&mut self, it: usize, address: Address, turn: Turn) {
        let now = self.clock.now();
        let Some(at) = self.store(&address) else { return };
        self.judge.sets(it, turn.sets.iter().map(|(key, _)| &**key));
        let (after, got) = self.stores[at].turn(it, turn, now);
        self.comes(it, after, Comes::Turned(address, got));
    }

    /// Whether an agent waits for what no store was asked for, or the other way round.
    pub(super) fn asks_otherwise(&self, it: usize) -> bool {
        let agent = &self.agents[it];
        let waits = |address: &Address| {
            let is_it = |it: &Comes| matches!(it, Comes::Turned(store, _) if store == address);
            agent.comes.values().any(is_it)
        };
        let asks = |address: &Address| {
            agent.machine.as_ref().is_some_and(|it| it.peers.asks(address)) != waits(address)
        };
        (0..self.drawn.stores).any(|it| asks(&drawn::store(it)))
    }
}

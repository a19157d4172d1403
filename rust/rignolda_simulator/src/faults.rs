//! Faults: of lines, processes, disks, clocks and of memory.
use crate::disks::{self, set, FOLDER};
use crate::drawn;
use crate::random::Random;
use crate::world::World;
use rignolda_machine::apply::{marker, FileSystem, GROUPS, MARKER, PENDING};
use rignolda_machine::net::wire::{self, Hello};
use rignolda_machine::net::{Children, Way};
use rignoldactl::Request;
use std::collections::BTreeMap;

mod fields;
mod memory;
mod roots;
mod stores;

/// Of which kinds faults are.
#[derive(Clone, Copy, Debug, PartialEq, Eq, PartialOrd, Ord)]
pub enum Class {
    /// Lines, processes, disks and the root's clock.
    World,
    /// These, and what agents remember.
    Memory,
    /// These, and the markers of their folders.
    Markers,
    /// Any field of what agents remember, and now and then those of lines, processes and disks.
    Fields,
}

/// How many faults of other kinds there are among those of fields: one in so many.
const OTHERS: u64 = 16;

/// A disk of another time, and what its agent had put by then.
pub type Copy = (disks::Copy, BTreeMap<String, usize>);

/// What faults are drawn from.
pub struct Faults {
    pub class: Class,
    random: Random,
    /// The same for fields; and whether a run is one in which texts are struck too.
    fields: Random,
    forges: bool,
    /// The same for groups.
    more: Random,
    /// The same for what operators do with two roots.
    roots: Random,
    /// The same for what goes wrong with stores, and for what is lost of disks.
    stores: Random,
    disks: Random,
    /// How many of each kind there were, and of each field.
    pub counts: BTreeMap<&'static str, u64>,
    pub struck: BTreeMap<String, u64>,
    older: Vec<Vec<Copy>>,
    values: u64,
}

impl Faults {
    pub fn new(seed: u64, class: Class, agents: usize) -> Faults {
        let mut fields = Random::new(seed, "fields", 0);
        Faults {
            class,
            random: Random::new(seed, "faults", 0),
            forges: fields.once_in(2),
            fields,
            more: Random::new(seed, "groups", 0),
            roots: Random::new(seed, "promotions", 0),
            stores: Random::new(seed, "faults of stores", 0),
            disks: Random::new(seed, "faults of disks", 0),
            counts: BTreeMap::new(),
            struck: BTreeMap::new(),
            older: (0..agents).map(|_| Vec::new()).collect(),
            values: 0,
        }
    }

    /// A time of up to this long.
    pub fn time(&mut self, most: u64) -> u64 {
        self.random.below(most.max(1))
    }

    /// How often a fault comes, if one of the other kinds came so often.
    pub fn pause(&mut self, pause: u64) -> u64 {
        match self.class {
            Class::Fields => self.fields.of(&[10, 50, 200]),
            _ => pause,
        }
    }

    /// Operators ask for something, and mostly for what changes settings.
    pub fn ask(&mut self, world: &mut World) {
        let (it, root) = (self.random.at(world.agents.len()), world.root());
        let (key, group) = (self.random.below(12), self.random.of(&["", "", "@canary"]));
        let of_other = !group.is_empty() && self.more.once_in(2);
        let key = format!("k{key}{}", if of_other { "@eu" } else { group });
        self.values += 1;
        let value = format!("{} asked for", self.values).into_bytes();
        let (it, request) = match self.random.below(12) {
            0..=3 => (root, Request::Publish { key, value }),
            4 | 5 => (root, Request::Unset { key }),
            6 => {
                world.judge.names(&key);
                (root, Request::PromoteValue { key })
            }
            7 => (root, Request::Round),
            8 => (root, Request::Look),
            9 if self.random.once_in(2) => (root, Request::Drain),
            9 => (root, Request::Resume),
            10 => (it, Request::Status),
            _ => (it, Request::Tree),
        };
        world.ask(it, request);
    }

    /// The root's folder changes.
    pub fn change(&mut self, world: &mut World) {
        self.changes(world, world.root());
    }

    /// That of this agent does.
    fn changes(&mut self, world: &mut World, it: usize) {
        for _ in 0..1 + self.random.below(3) {
            let mut group = self.random.of(&["", "", "", "..canary"]);
            if !group.is_empty() && self.more.once_in(2) {
                group = "..eu";
            }
            let key = format!("k{}{group}", self.random.below(12));
            let long = if world.drawn.slow >= 40 { 600 } else { 40_000 };
            let length = self.random.of(&[3, 3, 30, 30, 300, long]);
            self.values += 1;
            let filler = vec![b'a' + self.random.below(26) as u8; self.random.at(length)];
            let value = [format!("{} ", self.values).as_bytes(), &filler].concat();
            let value = (!self.random.once_in(4)).then_some(value);
            if world.drawn.holds {
                world.judge.waits_for(value.as_deref());
            }
            set(&mut world.folders[it], &key, value);
            let changed = world.agents[it].disk.changed.iter_mut();
            changed.for_each(|it| it.extend([key.clone()]));
            world.judge.changed(it, &world.folders[it]);
        }
        world.changed(it);
    }

    /// Something goes wrong.
    pub fn strike(&mut self, world: &mut World) {
        if self.class == Class::Fields && !self.fields.once_in(OTHERS) {
            return self.strike_a_field(world);
        }
        world.is_struck();
        let it = self.random.at(world.agents.len());
        let kinds = match self.class {
            Class::World | Class::Fields => 21,
            Class::Memory => 29,
            Class::Markers => 31,
        };
        let kind = self.random.below(kinds);
        let what = match kind {
            0..=5 => self.of_line(world, it, kind),
            6 | 7 => {
                let most = [2_000, 20_000][kind as usize - 6];
                world.agents[it].stopped = world.clock.now() + self.time(most);
                Some("agent stops")
            }
            8 | 9 => self.crash(world, it),
            10 => self.goes_back(world, it),
            11 => {
                world.agents[it].refuses = world.clock.now() + self.time(20_000);
                Some("agent refuses")
            }
            12 => {
                let other = self.random.at(world.agents.len());
                world.apart.insert([it.min(other), it.max(other)]);
                Some("two are apart")
            }
            13 => {
                world.apart.clear();
                Some("none are apart")
            }
            14 => self.set_back(world),
            15 | 16 => {
                let key = format!("k{}", self.random.below(12));
                let spoilt = (!self.random.once_in(3)).then(|| b"spoilt".to_vec());
                let files = &world.agents[it].disk.files;
                match self.disks.below(6) {
                    0 => files.spoil(&format!("{FOLDER}/{GROUPS}"), &(key + "..canary"), spoilt),
                    1 => files.spoil(FOLDER, &format!("{PENDING}/{key}"), None),
                    _ => files.spoil(FOLDER, &key, spoilt),
                }
                Some("file is spoilt")
            }
            17 => {
                world.agents[it].disk.fails = world.clock.now() + self.time(5_000);
                Some("disk is full")
            }
            18 => {
                world.agents[it].disk.hooks_fail = world.clock.now() + self.time(5_000);
                Some("hooks fail")
            }
            19 | 20 => self.stranger(world, it),
            21..=28 => self.of_memory(world, it, kind),
            _ => {
                world.judge.spoils(it, false);
                let number = self.number(world);
                let text = match self.random.below(3) {
                    0 => self.random.of(&["", "no number"]).into(),
                    _ => marker::text(number),
                };
                let files = &world.agents[it].disk.files;
                match self.disks.below(6) {
                    0 => drop(files.remove(FOLDER)),
                    _ => files.spoil(FOLDER, MARKER, Some(text.into_bytes())),
                }
                let starts = self.time(2_000);
                world.end(it, false, starts);
                Some("marker is spoilt")
            }
        };
        if let Some(machine) = world.agents[it].machine.as_mut().filter(|_| kind >= 21) {
            // (what it knows of its own deadline is of before)
            machine.peers.tick(machine.came.now);
        }
        what.into_iter().for_each(|it| *self.counts.entry(it).or_default() += 1);
        if let (true, Some(what)) = (world.talks, what) {
            eprintln!("{:>9} n{it} FAULT {what}", world.clock.now());
        }
    }

    /// Keeps a copy of a disk, which may come back.
    pub fn copies(&mut self, world: &World, it: usize) {
        if self.older[it].len() < 20 && self.random.once_in(4) {
            let copy = (world.agents[it].disk.copy(), world.judge.places(it));
            self.older[it].push(copy);
        }
    }

    fn of_line(&mut self, world: &mut World, it: usize, kind: u64) -> Option<&'static str> {
        let lines: Vec<_> = world.agents[it].lines.values().map(|it| &it.end).collect();
        if lines.is_empty() {
            return None;
        }
        let line = lines[self.random.at(lines.len())];
        Some(match kind {
            0..=2 => {
                line.breaks([self.random.at(4), self.random.at(4)]);
                "line breaks"
            }
            3 => {
                line.falls_silent(self.random.once_in(2));
                "line falls silent"
            }
            _ => {
                let most = [50, 1_500][kind as usize - 4];
                lines.iter().for_each(|it| it.slows(self.random.below(most)));
                "lines are slow"
            }
        })
    }

    fn crash(&mut self, world: &mut World, it: usize) -> Option<&'static str> {
        world.agents[it].machine.as_ref()?;
        let (power, most) = (self.random.once_in(3), self.random.of(&[1_000, 6_000, 90_000]));
        let is_only = it == 0 && world.drawn.roots == 1;
        let starts = self.time(if is_only { most.min(6_000) } else { most });
        world.end(it, power, starts);
        if !power {
            return Some("agent crashes");
        }
        if let Some((disk, places)) = self.older[it].last().filter(|_| self.disks.once_in(2)) {
            // (nothing of what is applied is synced; so the marker may be older than the files)
            world.agents[it].disk.loses_some(disk, &mut self.disks);
            world.judge.goes_back(it, places.clone());
        }
        Some("machine loses power")
    }

    fn goes_back(&mut self, world: &mut World, it: usize) -> Option<&'static str> {
        let copies = self.older[it].len();
        let (disk, places) = self.older[it].get(self.random.at(copies.max(1)))?;
        let starts = self.random.below(3_000);
        world.end(it, false, starts);
        // (where it holds a change, it may lack what agents of a group have)
        world.judge.is_set_back |= it == world.root() && world.drawn.holds;
        world.agents[it].disk.goes_back(disk, world.drawn.holds);
        world.judge.goes_back(it, places.clone());
        Some("older disk comes back")
    }

    fn set_back(&mut self, world: &mut World) -> Option<&'static str> {
        if !self.random.once_in(3) {
            return None;
        }
        let root = world.root();
        world.agents[root].ahead -= self.time(7_200_000) as i64;
        world.judge.is_set_back = true;
        let starts = self.time(2_000);
        world.end(root, false, starts);
        Some("root's clock is set back")
    }

    /// Somebody connects under the name of a child, or under none, and says anything.
    fn stranger(&mut self, world: &mut World, it: usize) -> Option<&'static str> {
        let peers = &world.drawn.configs[it].peers;
        let Children::Named(children) = &peers.children else { return None };
        // (who could be a parent, too, could publish what it likes)
        let may_be =
            |name: &&String| !peers.parents.iter().any(|parent| parent.name.as_ref() == Some(name));
        let names: Vec<&String> = children.keys().filter(may_be).collect();
        let from = match names.len() {
            0 => "nobody".into(),
            count => names[self.random.at(count)].clone(),
        };
        let (life, label) = (self.random.number(), self.random.below(255) as u16);
        let version = self.random.of(&[wire::OLD, wire::FIRST, wire::VERSION]);
        let hello = Hello { version, life, label, from, to: drawn::name(it) };
        let mut says = if self.random.once_in(3) { hello.look() } else { hello.bytes() };
        for _ in 0..self.random.below(20) {
            match self.random.below(5) {
                0 => says.extend((0..self.random.below(200)).map(|_| self.random.number() as u8)),
                1 => says.extend(wire::report(b"{\"name\":")),
                2 => says.extend(wire::REPORT_REQUEST),
                3 => says.extend(wire::way(&Way { cost: label, names: Vec::new() })),
                _ => says.extend(wire::ack(self.random.below(255) as u16)),
            }
        }
        if self.random.once_in(2) {
            let at = self.random.at(says.len());
            says[at] = self.random.number() as u8;
        }
        let stays = self.time(20_000);
        world.stranger(it, &says, stays);
        Some("a stranger says anything")
    }
}

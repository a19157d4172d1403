//! What is judged, as the pages promise it: at each turn of an agent, each quarter of a second, and
//! after the last fault.
use crate::disks::{counting, Disk, Put, Settings};
use crate::drawn::{self, Drawn, ROOM};
use rignolda_machine::machine::Machine;
use rignolda_machine::net::BODY_BYTES;
use rignolda_machine::settings::{is_newer, of_group, SETTINGS};
use rignoldactl::{Compared, Seen};
use std::collections::{BTreeMap, BTreeSet};

mod work;

/// For how long agents may be on a ring of parents, in milliseconds.
const RING: u64 = 60_000;

/// For how long an agent with spoilt memory may have more than it may, in milliseconds.
const MENDS: u64 = 5_000;

/// How a promise is broken: which one, and by whom.
pub type Broken = String;

/// The values that a key of the root's folder had, in their order. The first one is none.
type History = Vec<Option<Vec<u8>>>;

/// What is known of the run.
pub struct Judge {
    groups: Vec<Vec<String>>,
    /// What each key had. A file has the value of its key or of one for a group, as far as the root
    /// knew them: so each is in an order of its own.
    histories: BTreeMap<String, History>,
    /// What the folder is, and by groups what files are to be.
    folder: Settings,
    folders: BTreeMap<Vec<String>, Settings>,
    /// The place in its history of what each agent put last, by key.
    places: Vec<BTreeMap<String, usize>>,
    /// How often the folder has changed; and how often it had when each agent's files were what it
    /// said. (Somebody may change a file after that, and nobody knows it before the next look.)
    version: u64,
    right: Vec<u64>,
    /// Values of the root's folder that nobody has confirmed, if each is held until then.
    unconfirmed: BTreeSet<Vec<u8>>,
    holds: bool,
    /// Whose folder that is: the root. Whether there may be what another one published, as while
    /// there are two, and what values that has.
    pub root: usize,
    pub is_split: bool,
    others: BTreeSet<Vec<u8>>,
    /// Values that a fault put somewhere.
    forged: BTreeSet<Vec<u8>>,
    /// Whether memory was spoilt, or the root's clock set back, or a root that holds changes back
    /// ended before what it published was kept: then numbers say nothing about what is older, until
    /// [all is right once](Judge::is_right). And whether by that anything may have been published.
    is_spoilt: bool,
    is_forged: bool,
    /// Whether that of each agent was spoilt since its process began.
    are_spoilt: Vec<bool>,
    pub is_set_back: bool,
    /// Since when an agent has more than it may.
    above: Vec<Option<u64>>,
    rings: BTreeMap<usize, u64>,
    /// How often `wait` would have ended.
    pub waits: u64,
    /// Whether somebody was answered who had not asked, or had an answer.
    pub answers_twice: bool,
    /// Whether somebody set in a store what another agent says there.
    sets_of_others: bool,
    /// How many stores there are; and who asked for more in a step than it may.
    stores: usize,
    pub works: Option<Broken>,
    /// How many tables of rounds the root has published, and the number of the last one.
    pub rounds: u64,
    round: u64,
    /// Where agents panicked whose memory was spoilt, and how they ended by themselves.
    pub panics: BTreeMap<String, u64>,
    pub ends: BTreeMap<String, u64>,
    /// How often each line was written.
    pub facts: BTreeMap<&'static str, u64>,
}

impl Judge {
    pub fn new(drawn: &Drawn) -> Judge {
        let groups = drawn.configs.iter().map(|it| match &it.apply {
            Some(apply) => apply.groups.clone(),
            None => Vec::new(),
        });
        let groups: Vec<_> = groups.collect();
        Judge {
            places: vec![BTreeMap::new(); groups.len()],
            histories: BTreeMap::new(),
            folder: Settings::new(),
            folders: groups.iter().map(|it| (it.clone(), Settings::new())).collect(),
            version: 0,
            right: vec![0; groups.len()],
            groups,
            unconfirmed: BTreeSet::new(),
            holds: drawn.configs[0].root.as_ref().is_some_and(|it| it.hold),
            root: 0,
            is_split: false,
            others: BTreeSet::new(),
            forged: BTreeSet::new(),
            is_spoilt: false,
            are_spoilt: vec![false; drawn.configs.len()],
            is_forged: false,
            is_set_back: false,
            above: vec![None; drawn.configs.len()],
            rings: BTreeMap::new(),
            waits: 0,
            answers_twice: false,
            sets_of_others: false,
            stores: drawn.stores as usize,
            works: None,
            rounds: 0,
            round: 0,
            panics: BTreeMap::new(),
            ends: BTreeMap::new(),
            facts: BTreeMap::new(),
        }
    }

    /// The folder of this root is so from now on.
    pub fn changed(&mut self, it: usize, folder: &Settings) {
        if it != self.root {
            self.others.extend(folder.values().cloned());
        }
        if it != self.root || self.folder == *folder {
            return;
        }
        for key in self.folder.keys().chain(folder.keys()).collect::<BTreeSet<_>>() {
            let value = folder.get(key);
            if value != self.folder.get(key) {
                let values = self.histories.entry(key.clone()).or_insert_with(|| vec![None]);
                values.push(value.cloned());
            }
        }
        self.folder.clone_from(folder);
        let before = self.version;
        self.version += 1;
        for (groups, old) in &mut self.folders {
            let new = counting(folder, groups);
            if *old == new {
                let same = self.right.iter_mut().zip(&self.groups).filter(|(_, it)| *it == groups);
                same.filter(|it| *it.0 == before).for_each(|it| *it.0 = self.version);
            }
            *old = new;
        }
    }

    /// A fault put this value somewhere.
    pub fn forges(&mut self, value: &[u8]) {
        self.forged.insert(value.into());
    }

    /// This value lies in the root's folder now, and waits to be confirmed.
    pub fn waits_for(&mut self, value: Option<&[u8]>) {
        self.unconfirmed.extend(value.filter(|_| self.holds).map(<[u8]>::to_vec));
    }

    /// What lies in the root's folder is confirmed.
    pub fn confirms(&mut self) {
        self.unconfirmed.clear();
    }

    /// Somebody named this key: so its value need not be confirmed.
    pub fn names(&mut self, key: &str) {
        let value = self.folder.get(&key.replace('@', ".."));
        if let Some(value) = value {
            self.unconfirmed.remove(value);
        }
    }

    /// The memory of this agent is spoilt: what it says may be anything from now on, and by what
    /// `forges` so may be what it publishes or applies.
    pub fn spoils(&mut self, it: usize, forges: bool) {
        (self.is_spoilt, self.are_spoilt[it]) = (true, true);
        self.is_forged |= forges;
        self.above[it] = None;
        self.rings.clear();
    }

    pub fn is_spoilt(&self) -> bool {
        self.is_spoilt
    }

    /// All is right: what was spoilt is so no more, and each file has the last value that there is.
    pub fn is_right(&mut self) {
        (self.is_spoilt, self.is_forged, self.is_set_back) = (false, false, false);
        self.forged.clear();
        self.is_settled();
    }

    /// Each file has the last value that there is, and no other root's is under way.
    pub fn is_settled(&mut self) {
        self.is_split = false;
        let last = self.histories.iter().map(|(key, all)| (key.clone(), all.len() - 1));
        let last: BTreeMap<_, _> = last.collect();
        self.places.iter_mut().for_each(|it| it.clone_from(&last));
    }

    /// The disk of this agent is one of another time.
    pub fn goes_back(&mut self, it: usize, places: BTreeMap<String, usize>) {
        self.places[it] = places;
    }

    /// What an agent has put last, by key: as places in the history.
    pub fn places(&self, it: usize) -> BTreeMap<String, usize> {
        self.places[it].clone()
    }

    /// An agent sets these keys of a store: each has one writer.
    pub fn sets<'a>(&mut self, it: usize, keys: impl Iterator<Item = &'a str>) {
        for key in keys {
            let parts: Vec<&str> = key.split(':').collect();
            let writer = match parts[..] {
                [parent, _, "down" | "way"] => parent,
                [_, child, "up" | "report"] => child,
                _ => "",
            };
            self.sets_of_others |= drawn::agent(writer) != Some(it);
        }
    }

    /// An agent wrote a line.
    pub fn fact(&mut self, fact: &'static str) {
        *self.facts.entry(fact).or_default() += 1;
    }

    /// An agent panicked whose memory was spoilt.
    pub fn panics(&mut self) {
        *self.panics.entry(crate::panicked()).or_default() += 1;
    }

    /// A process begins, with memory of its own.
    pub fn begins(&mut self, it: usize) {
        self.are_spoilt[it] = false;
    }

    /// Whether an agent's memory was spoilt: that of others is no reason to end.
    pub fn may_end(&self, it: usize) -> bool {
        self.are_spoilt[it]
    }

    /// An agent ended by itself. It may, if its memory was spoilt.
    pub fn ends(&mut self, it: usize, why: &str) -> Result<(), Broken> {
        *self.ends.entry(why.into()).or_default() += 1;
        match self.may_end(it) || why.is_empty() {
            true => Ok(()),
            false => Err(format!("ENDS: n{it}: {why}")),
        }
    }

    /// After a turn of an agent.
    pub fn turn(
        &mut self,
        it: usize,
        machine: &Machine,
        disk: &mut Disk,
        now: u64,
    ) -> Result<(), Broken> {
        let puts = std::mem::take(&mut disk.puts);
        if self.right[it] < self.version && disk.own == self.folders[&self.groups[it]] {
            self.right[it] = self.version;
        }
        puts.into_iter().try_for_each(|put| self.put(it, put))?;
        let round = machine.came.table.round;
        if it == self.root && round != self.round {
            (self.round, self.rounds) = (round, self.rounds + 1);
        }
        if std::mem::take(&mut self.answers_twice) && !self.is_spoilt {
            return Err(format!("ANSWER: n{it} answers who has not asked"));
        }
        if let Some(why) = self.works.take() {
            return Err(why);
        }
        if std::mem::take(&mut self.sets_of_others) && !self.is_spoilt {
            return Err(format!("STORE: n{it} sets what another agent says"));
        }
        let Some(much) = self.has_too_much(machine) else {
            self.above[it] = None;
            return Ok(());
        };
        // (spoilt memory is looked at each second or two)
        let since = *self.above[it].get_or_insert(now);
        match self.is_spoilt && now <= since + MENDS {
            true => Ok(()),
            false => Err(format!("MEMORY: n{it} {much}")),
        }
    }

    /// What an agent has more of than it may.
    fn has_too_much(&self, machine: &Machine) -> Option<String> {
        let relay = machine.peers.relay();
        let (kept, bytes) = relay.kept();
        let ends = machine.config.peers.parents.len() + relay.children().count();
        let lines = machine.peers.lines().count();
        let below = machine.came.below.agents() as usize;
        let settings = machine.came.table.keys.len();
        match () {
            () if kept > ROOM || bytes > 5 * BODY_BYTES => {
                Some(format!("keeps {kept} items, {bytes} bytes"))
            }
            () if lines > 64 + 4 * ends + 4 => Some(format!("has {lines} lines")),
            // (how many a child had that is away is what it said last, which may be spoilt)
            () if !self.are_spoilt.contains(&true)
                && !self.is_spoilt
                && below > 8 * self.groups.len() =>
            {
                Some(format!("knows {below} below it"))
            }
            () if settings > SETTINGS => Some(format!("has {settings} settings")),
            () => None,
        }
    }

    /// A file was put: its value is one that was published, and no older one than before.
    fn put(&mut self, it: usize, (file, value): Put) -> Result<(), Broken> {
        if value.as_ref().is_some_and(|it| self.forged.contains(it)) {
            return Ok(());
        }
        if value.as_ref().is_some_and(|it| self.unconfirmed.contains(it)) && !self.is_spoilt {
            return Err(format!("HELD: n{it} puts {file}, which nobody confirmed"));
        }
        let (none, places) = (vec![None], &mut self.places[it]);
        let groups = self.groups[it].iter().map(|group| of_group(&file, group));
        let keys: Vec<String> = groups.chain([file.clone()]).collect();
        let history = |key: &str| self.histories.get(key).unwrap_or(&none);
        let later = |key: &String, last: usize| {
            let all = history(key);
            (last..all.len()).find(|at| all[*at] == value)
        };
        let last = |key: &String| places.get(key).copied().unwrap_or(0);
        let found: Vec<_> =
            keys.iter().map(|key| Some((key.clone(), later(key, last(key))?))).collect();
        // (a file goes if no key has a value)
        let is_newer = match value {
            Some(_) => found.iter().any(Option::is_some),
            None => found.iter().all(Option::is_some),
        };
        let is_known = || keys.iter().any(|key| later(key, 0).is_some());
        if is_newer {
            let found: Vec<_> = found.into_iter().flatten().collect();
            // (a value that was promoted is one of two keys, and nobody knows which one it was of)
            if value.is_none() || found.len() == 1 {
                places.extend(found);
            }
        } else if !is_known() {
            let is_others = value.as_ref().is_some_and(|it| self.others.contains(it));
            if self.is_forged || is_others && (self.is_split || self.is_set_back) {
                return Ok(());
            }
            let text = value.as_deref().map(String::from_utf8_lossy);
            return Err(format!("UNKNOWN: n{it} puts {file} {text:?}, which nobody published"));
        } else if !self.is_spoilt && !self.is_set_back && !self.is_split {
            let text = value.as_deref().map(String::from_utf8_lossy);
            return Err(format!("OLDER: n{it} puts {file} {text:?} after something newer"));
        }
        Ok(())
    }

    /// What `wait --everywhere` does now: where it would end, all files are of the folder as it is.
    pub fn wait(&mut self, sequence: u64, list: &[Seen], disks: &[&Disk]) -> Result<(), Broken> {
        if list.iter().any(|it| lacks(it, sequence)) {
            return Ok(());
        }
        self.waits += 1;
        for (it, disk) in disks.iter().enumerate() {
            let is_named = list.iter().any(|seen| drawn::agent(&seen.name) == Some(it));
            let is_right = disk.own == self.folders[&self.groups[it]];
            if self.right[it] < self.version && !is_right {
                let how = if is_named { "WAIT" } else { "UNNAMED" };
                return Err(format!(
                    "{how}: {sequence} is said to be everywhere; n{it} has it not"
                ));
            }
        }
        Ok(())
    }

    /// Which agents lie on rings of parents now.
    pub fn rings(&mut self, rings: &[usize], now: u64) -> Result<(), Broken> {
        self.rings.retain(|it, _| rings.contains(it));
        for it in rings {
            let since = *self.rings.entry(*it).or_insert(now);
            if now > since + RING {
                return Err(format!("RING: n{it} lies on one for a minute"));
            }
        }
        Ok(())
    }

    /// The first file of an agent that is not what the folder says: its name, what it is, and what
    /// it is to be.
    pub fn first_wrong(&self, it: usize, files: &Settings) -> String {
        let right = &self.folders[&self.groups[it]];
        let mut keys = right.keys().chain(files.keys()).collect::<BTreeSet<_>>().into_iter();
        let text = |it: Option<&Vec<u8>>| {
            it.map(|it| String::from_utf8_lossy(&it[..it.len().min(20)]).into_owned())
        };
        let wrong = keys.find(|key| right.get(*key) != files.get(*key));
        wrong.map_or_else(String::new, |key| {
            format!("{key:?} is {:?}, not {:?}", text(files.get(key)), text(right.get(key)))
        })
    }

    /// Whose files are not what the folder says.
    pub fn wrong(&self, files: &dyn Fn(usize) -> Settings) -> Vec<usize> {
        let is_wrong = |it: &usize| files(*it) != self.folders[&self.groups[*it]];
        (0..self.groups.len()).filter(is_wrong).collect()
    }
}

/// Whether an agent has not all up to a sequence number, as `wait` says.
pub fn lacks(seen: &Seen, sequence: u64) -> bool {
    !seen.connected
        || seen.failing > 0
        || !seen.whole
        || is_newer(sequence, seen.applied)
        || matches!(seen.compared, Compared::Differs | Compared::NotKnown)
        || seen.cut
}

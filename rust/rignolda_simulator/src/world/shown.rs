//! What is to be seen of a tree.
use super::World;
use crate::drawn;
use crate::judge::{lacks, Broken};

impl World {
    /// Which agent is the parent of this one, where both say so.
    pub fn parent(&self, it: usize) -> Option<usize> {
        let machine = self.agents[it].machine.as_ref()?;
        let name = machine.peers.parent()?.0.name.as_ref()?;
        let other = drawn::agent(name)?;
        let relay = self.agents.get(other)?.machine.as_ref()?.peers.relay();
        relay.child(&drawn::name(it))?.is_connected().then_some(other)
    }

    /// Whether each agent has a way to the root; and which lie on a ring.
    pub fn tree(&self) -> (bool, Vec<usize>) {
        let parents: Vec<_> = (0..self.agents.len()).map(|it| self.parent(it)).collect();
        let (root, mut is_whole, mut rings) = (self.root(), self.is_alone(), Vec::new());
        for it in (0..parents.len()).filter(|it| *it != root) {
            let mut here = it;
            for _ in 0..parents.len() {
                let Some(above) = parents[here] else { break };
                here = above;
                if here == it {
                    rings.push(it);
                    break;
                }
            }
            is_whole &= here == root;
        }
        (is_whole, rings)
    }

    /// What `wait --everywhere` at the root does now.
    pub fn wait(&mut self) -> Result<(), Broken> {
        let root = self.root();
        let now = self.now(root).at;
        let Some(machine) = &self.agents[root].machine else {
            return Ok(());
        };
        // (it has the root look at its folder first)
        let folder = &self.folders[root];
        let has_all = machine.came.root.as_ref().is_some_and(|it| it.has_published(folder));
        if self.judge.is_spoilt() || !has_all {
            return Ok(());
        }
        let list = machine.tree(&machine.status(now), now);
        let disks: Vec<_> = self.agents.iter().map(|it| &it.disk).collect();
        self.judge.wait(machine.came.table.taker.number, &list, &disks)
    }

    /// The number of what the root has published last.
    pub fn sequence(&self) -> u64 {
        let root = self.agents[self.root()].machine.as_ref();
        root.map_or(0, |it| it.came.table.taker.number)
    }

    /// For whom somebody waits who waits until all have what has this number, if for anybody.
    pub fn lacking(&self, sequence: u64) -> Option<String> {
        let now = self.now(self.root()).at;
        let machine = self.agents[self.root()].machine.as_ref();
        let Some(machine) = machine else { return Some("no root".into()) };
        let list = machine.tree(&machine.status(now), now);
        let seen = list.iter().find(|it| lacks(it, sequence))?;
        Some(format!("{sequence}: {seen:?}"))
    }

    /// Tells what each agent is.
    pub fn tells(&self) {
        for (it, agent) in self.agents.iter().enumerate() {
            if let Some(machine) = &agent.machine {
                eprintln!("n{it} {:?}", machine.status(self.now(it).at));
            }
        }
    }

    /// Whose files are wrong.
    pub fn wrong(&self) -> Vec<usize> {
        self.judge.wrong(&|it| self.agents[it].disk.settings())
    }

    /// What of these is wrong first.
    pub fn first_wrong(&self, wrong: &[usize]) -> String {
        let first = wrong.first();
        first.map_or_else(String::new, |it| {
            self.judge.first_wrong(*it, &self.agents[*it].disk.settings())
        })
    }

    /// How often agents were started, and connected to a parent; and went above numbers.
    pub fn moves(&self) -> u64 {
        let machines = self.agents.iter().filter_map(|it| it.machine.as_ref());
        let above = self.judge.facts.get("numbers").copied().unwrap_or(0);
        let lives: u64 = self.agents.iter().map(|it| it.lives).sum();
        let others = self.roots.changes + lives + above;
        machines.map(|it| it.peers.reconnects()).sum::<u64>() + others
    }

    /// How many rounds' tables the root has published.
    pub fn rounds(&self) -> u64 {
        self.judge.rounds
    }
}

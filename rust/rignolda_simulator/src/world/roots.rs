//! Two roots: which of them the truth is of, and what the manual promises of them.
use super::{Agent, World};
use crate::drawn::name;
use crate::judge::Broken;
use rignolda_machine::settings::is_newer;
use rignoldactl::{Request, Standby as Role};

/// After how long without a root an operator has one again, where nothing goes wrong any more.
const WITHOUT: u64 = 60_000;

/// What is known of them.
#[derive(Debug, Default)]
pub struct Roots {
    /// Which one is a root, the rank of each as it was then, and when it began last.
    are: [bool; 2],
    ranks: [u64; 2],
    begun: [u64; 2],
    /// When something went wrong last that may keep them from seeing each other.
    struck: u64,
    /// Since when there is none.
    without: Option<u64>,
    /// How often another one was the root from then on.
    pub changes: u64,
}

impl Roots {
    /// A process begins.
    pub fn begins(&mut self, it: usize, now: u64) {
        if it < 2 {
            (self.are[it], self.begun[it]) = (false, now);
        }
    }

    /// One is connected to the other one, once its name was looked up.
    pub fn is_looked_up(&mut self, ends: [usize; 2], at: u64) {
        if ends.iter().all(|it| *it < 2) {
            self.struck = self.struck.max(at);
        }
    }
}

/// The rank of the first one when all begins.
pub const RANK: u64 = super::START as u64 * 1_000 - 10_000_000;

impl World {
    /// The root: of two, the one that is to go on.
    pub fn root(&self) -> usize {
        self.judge.root
    }

    fn is_root(&self, it: usize) -> bool {
        let machine = self.agents[it].machine.as_ref();
        machine.is_some_and(|it| it.came.root.is_some())
    }

    /// Whether it is a root, and no other agent is one.
    pub fn is_alone(&self) -> bool {
        (0..self.drawn.roots).all(|it| self.is_root(it) == (it == self.root()))
    }

    /// Something goes wrong.
    pub fn is_struck(&mut self) {
        self.roots.struck = self.clock.now();
    }

    /// This one is the root from now on, and its folder the truth.
    fn follows(&mut self, it: usize) {
        self.judge.root = it;
        self.judge.is_split = true;
        self.judge.changed(1 - it, &self.folders[1 - it]);
        self.judge.changed(it, &self.folders[it]);
        self.roots.changes += 1;
    }

    /// A worker of an agent did something in the folder of its root.
    pub(super) fn has_worked(&mut self, it: usize) {
        if std::mem::take(&mut self.agents[it].disk.is_promoted) {
            self.follows(it);
        }
        self.judge.changed(it, &self.folders[it]);
    }

    /// Whether clocks and memory are right, so that ranks say who was promoted later.
    fn ranks_count(&self) -> bool {
        !self.judge.is_spoilt() && !self.judge.is_set_back
    }

    /// After a turn of an agent that may be the root.
    pub(super) fn stands(&mut self, it: usize) -> Result<(), Broken> {
        if self.drawn.roots < 2 || it > 1 {
            return Ok(());
        }
        let (root, other, is) = (self.root(), 1 - it, self.is_root(it));
        let Some(machine) = &self.agents[it].machine else { return Ok(()) };
        let role = machine.came.standby.as_ref().map(|it| it.role());
        let was = std::mem::replace(&mut self.roots.are[it], is);
        let own = self.roots.ranks[it];
        if is {
            self.roots.ranks[it] = machine.config.peers.rank.unwrap_or(0);
        }
        let [its, others] = [self.roots.ranks[it], self.roots.ranks[other]];
        let is_above = is_newer(its, others);
        let Agent { stopped, refuses, .. } = self.agents[other];
        let late = [self.roots.struck, self.roots.begun[other], stopped, refuses];
        let are_seen =
            late.iter().all(|at| *at < self.roots.begun[it]) && !self.apart.contains(&[0, 1]);
        self.judge.is_split |= is && it != root;
        match () {
            () if !self.ranks_count() => (),
            () if is && !was && it == root && own != its && !is_above => {
                return Err(format!("RANK: n{it} is promoted after n{other}, and not above it"));
            }
            () if is && !was && it != root && are_seen && self.is_root(root) && !is_above => {
                return Err(format!(
                    "ROOTS: n{it} goes on beside n{root}, which was promoted later"
                ));
            }
            () if was && !is && role == Some(Role::StandsBy) && is_above => {
                return Err(format!("ROOTS: n{it} stands by for n{other}, which is below it"));
            }
            () => (),
        }
        // (as where its children have what the other one published while it was away)
        let is_left = matches!(role, Some(Role::StandsBy | Role::Below));
        if it == root && is_left && self.is_root(other) {
            self.follows(other);
        }
        if it != root && is && !self.is_root(root) && self.is_left(root) {
            self.follows(it);
        }
        Ok(())
    }

    /// Whether an agent runs and is no root, nor looks whether it may be.
    fn is_left(&self, it: usize) -> bool {
        let standby = self.agents[it].machine.as_ref().and_then(|it| it.came.standby.as_ref());
        standby.is_some_and(|it| matches!(it.role(), Role::StandsBy | Role::Below))
    }

    /// Once all agents have the tables of one root alone, no other one's follow.
    pub fn settles(&mut self) -> Result<(), Broken> {
        let (root, rank) = (self.root(), self.roots.ranks[self.root().min(1)]);
        if !self.judge.is_split || self.judge.is_spoilt() || !self.is_alone() {
            return Ok(());
        }
        let has_all = |it: usize| {
            let Some(machine) = &self.agents[it].machine else { return false };
            let numbers = [machine.came.table.round, self.agents[it].disk.marker()];
            !numbers.iter().any(|number| is_newer(rank, *number))
        };
        if !(0..self.agents.len()).all(has_all) || !self.wrong().is_empty() {
            return Ok(());
        }
        self.judge.is_settled();
        let other = 1 - root;
        let status = |it: usize| Some(self.agents[it].machine.as_ref()?.status(self.now(it).at));
        match (status(root), status(other)) {
            (Some(its), _) if !its.is_root || its.standby != Role::Root => {
                Err(format!("STATUS: n{root} is the root, and says {:?}", its.standby))
            }
            (_, Some(its)) if its.is_root || !["", &*name(root)].contains(&&*its.other_root) => {
                Err(format!("STATUS: n{other} says that {:?} is another root", its.other_root))
            }
            _ => Ok(()),
        }
    }

    /// Where no agent is the root for long, an operator makes one that.
    pub fn is_without_root(&mut self) {
        let (now, root) = (self.clock.now(), self.root());
        if self.drawn.roots == 1 || (0..2).any(|it| self.is_root(it)) {
            self.roots.without = None;
        } else if now > *self.roots.without.get_or_insert(now) + WITHOUT {
            self.roots.without = None;
            self.ask(root, Request::Promote { as_is: true });
        }
    }
}

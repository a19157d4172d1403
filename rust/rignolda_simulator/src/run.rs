//! One run: faults and changes for a while, and then what the pages promise after the last fault.
use crate::faults::{Class, Faults};
use crate::judge::Broken;
use crate::random::Random;
use crate::world::World;
use rignoldactl::Request;
use std::collections::BTreeMap;

/// How often `wait` and rings are looked at, in milliseconds.
const LOOKS: u64 = 250;
/// Within which time after the last fault all agents have a way to the root, in milliseconds.
const TREE: u64 = 240_000;
/// The same after faults of any field: an agent that has no parent, and could have one, ends after
/// some minutes.
const TREE_OF_FIELDS: u64 = 480_000;
/// How many rounds are enough then: the rest of one, a whole one, and one more if the root did not
/// know how deep its tree is. A table that is on its way down counts as the next one.
const ROUNDS: u64 = 3;

/// Within which time an agent answers that is up. (It may be stopped for a while, and its disk be
/// slow; what is published waits for the quickest child.)
const ANSWERS: u64 = 120_000;
/// For how many rounds somebody waits at most who waits for all.
const WAITS: u64 = 8;
/// How many changes have to come to all agents by themselves at the end: a round would hide that
/// one is lost.
const CHANGES: u64 = 3;

/// What a run is of.
#[derive(Clone, Copy, Debug)]
pub struct Plan {
    pub seed: u64,
    pub class: Class,
    pub agents: u64,
    /// How many faults there are at most: fewer show a violation better.
    pub faults: u64,
    pub talks: bool,
}

/// What a run was.
#[derive(Debug, Default)]
pub struct Counts {
    pub faults: BTreeMap<&'static str, u64>,
    /// The fields that were struck, where agents panicked, and why they ended.
    pub fields: BTreeMap<String, u64>,
    pub panics: BTreeMap<String, u64>,
    pub ends: BTreeMap<String, u64>,
    pub struck: u64,
    pub turns: u64,
    pub millis: u64,
    pub agents: u64,
    pub waits: u64,
    pub rounds: u64,
}

/// Runs it: what it was, and which promise was broken, if one was.
pub fn run(plan: Plan) -> (Counts, Result<(), Broken>) {
    let mut run = Run::new(plan);
    let done = run.goes();
    if done.is_err() && plan.talks {
        run.world.tells();
    }
    let counts = Counts {
        faults: run.faults.counts,
        fields: run.faults.struck,
        panics: run.world.judge.panics,
        ends: run.world.judge.ends,
        struck: run.struck,
        turns: run.world.turns,
        millis: run.world.clock.now(),
        agents: run.world.agents.len() as u64,
        waits: run.world.judge.waits,
        rounds: run.rounds,
    };
    (counts, done)
}

struct Run {
    plan: Plan,
    world: World,
    faults: Faults,
    struck: u64,
    rounds: u64,
    /// Whether nothing is in the way any more; and what operators do is drawn from.
    is_calm: bool,
    plans: Random,
}

impl Run {
    fn new(plan: Plan) -> Run {
        let world = World::new(plan.seed, plan.agents, plan.talks);
        let faults = Faults::new(plan.seed, plan.class, world.agents.len());
        let plans = Random::new(plan.seed, "operators", 0);
        Run { plan, world, faults, struck: 0, rounds: 0, is_calm: false, plans }
    }

    fn goes(&mut self) -> Result<(), Broken> {
        (0..3).for_each(|_| self.faults.change(&mut self.world));
        self.world.start_some();
        self.is_disturbed()?;
        self.calms();
        self.becomes_right()?;
        self.world.judge.is_right();
        self.is_waited_for()?;
        (0..CHANGES).try_for_each(|_| self.brings_a_change())
    }

    /// For a while there are faults and changes.
    fn is_disturbed(&mut self) -> Result<(), Broken> {
        let (span, pause, changes) =
            (self.world.drawn.span, self.world.drawn.pause, self.world.drawn.changes);
        let pause = self.faults.pause(pause);
        let (mut fault, mut change, mut look) = (3_000, 0, 0);
        let mut roots = if self.world.drawn.roots == 2 { 3_000 } else { u64::MAX };
        let mut stores = if self.world.stores.is_empty() { u64::MAX } else { 3_000 };
        while self.now() < span {
            self.world.start_some();
            self.world.strangers_leave(false);
            if self.now() >= fault {
                if self.struck < self.plan.faults {
                    self.struck += 1;
                    self.faults.strike(&mut self.world);
                }
                fault = self.now() + self.faults.time(2 * pause);
            }
            if self.now() >= roots {
                roots = self.now() + self.faults.of_roots(&mut self.world);
            }
            if self.now() >= stores {
                stores = self.now() + self.faults.of_stores(&mut self.world);
            }
            if self.now() >= change {
                match self.faults.time(4) {
                    0 => self.faults.ask(&mut self.world),
                    _ => self.faults.change(&mut self.world),
                }
                change = self.now() + self.faults.time(2 * changes);
            }
            if self.now() >= look {
                self.looks()?;
                (0..self.world.agents.len()).for_each(|it| self.faults.copies(&self.world, it));
                look = self.now() + LOOKS;
            }
            let start = self.world.next_start().unwrap_or(u64::MAX);
            let until =
                [fault, change, look, start, roots, stores, span].into_iter().min().unwrap_or(span);
            self.world.run(until.max(self.now() + 1))?;
        }
        Ok(())
    }

    fn now(&self) -> u64 {
        self.world.clock.now()
    }

    /// What is judged all the time.
    fn looks(&mut self) -> Result<(), Broken> {
        let now = self.now();
        if let Some(it) = self.world.waits(ANSWERS) {
            return Err(format!("SILENT: n{it} does not answer"));
        }
        if self.plans.once_in(if self.is_calm { 1 } else { 8 }) {
            self.world.confirms();
        }
        let rings = self.world.tree().1;
        self.world.judge.rings(&rings, now)?;
        self.world.settles()?;
        self.world.wait()
    }

    /// Nothing is in the way any more, and one more change is made.
    fn calms(&mut self) {
        let now = self.now();
        self.is_calm = true;
        let world = &mut self.world;
        world.strangers_leave(true);
        world.apart.clear();
        world.stores.iter_mut().for_each(|it| (it.away, it.fails) = (0, 0));
        for (it, agent) in world.agents.iter_mut().enumerate() {
            (agent.refuses, agent.stopped) = (0, 0);
            (agent.disk.fails, agent.disk.hooks_fail) = (0, 0);
            agent.starts = agent.starts.map(|_| now);
            let lines = agent.lines.values();
            lines.for_each(|it| it.end.recovers(world.drawn.slow));
            world.clock.wake(now, it);
        }
        world.start_some();
        // (else nothing is published any more)
        world.ask(world.root(), Request::Resume);
        self.faults.change(world);
    }

    /// All agents have a way to the root in time; and then so many rounds are enough.
    fn becomes_right(&mut self) -> Result<(), Broken> {
        let (calm, round) = (self.now(), self.world.drawn.round);
        let (mut moves, mut since, mut begun) = (0, calm, None);
        loop {
            let now = self.now();
            self.world.run(now + LOOKS)?;
            self.world.start_some();
            self.looks()?;
            self.world.is_without_root();
            let (is_whole, moved) = (self.world.tree().0, self.world.moves());
            if !is_whole || moved != moves {
                let most = if self.plan.class == Class::Fields { TREE_OF_FIELDS } else { TREE };
                if now > calm + most {
                    return Err("TREE: agents have no way to the root, or move".into());
                }
                (moves, since, begun) = (moved, now, None);
                continue;
            }
            let rounds = self.world.rounds();
            // (operators may have asked for several at once, which began before the last change)
            let most = (now - since) / round + 1;
            let rounds = most.min(rounds - *begun.get_or_insert(rounds));
            let wrong = self.world.wrong();
            if !wrong.is_empty() {
                self.rounds = rounds + 1;
            }
            match wrong.is_empty() {
                true if rounds > ROUNDS + 1 => break,
                false if rounds > ROUNDS + 2 || now > since + 8 * round => {
                    let first = self.world.first_wrong(&wrong);
                    return Err(format!("WRONG: {wrong:?} after {rounds} rounds: {first}"));
                }
                _ => (),
            }
        }
        match self.rounds > ROUNDS {
            true => Err(format!("LATE: {} rounds", self.rounds)),
            false => Ok(()),
        }
    }

    /// Somebody who waits until all is everywhere is answered. (What fails is done again by a
    /// round, and a restart takes its time.)
    fn is_waited_for(&mut self) -> Result<(), Broken> {
        let until = self.now() + WAITS * self.world.drawn.round;
        let sequence = self.world.sequence();
        while let Some(lacks) = self.world.lacking(sequence) {
            if self.now() > until {
                return Err(format!("WAITS: wait never ends: {lacks}"));
            }
            self.world.run(self.now() + LOOKS)?;
            self.world.start_some();
            self.looks()?;
        }
        Ok(())
    }

    /// Where nothing goes wrong, a change is everywhere before the next round begins.
    fn brings_a_change(&mut self) -> Result<(), Broken> {
        let rounds = self.world.rounds();
        while self.world.rounds() == rounds {
            self.world.run(self.now() + LOOKS)?;
            self.world.start_some();
        }
        self.faults.change(&mut self.world);
        // (what is held waits for an operator, too)
        let round = self.world.drawn.round;
        let time = if self.world.drawn.holds { 2 * round } else { round / 5 * 4 };
        let (until, moves) = (self.now() + time, self.world.moves());
        while self.now() < until {
            self.world.run(self.now() + LOOKS)?;
            self.world.start_some();
            self.looks()?;
            if self.world.wrong().is_empty() {
                return Ok(());
            }
        }
        if self.world.moves() != moves {
            // (who restarts itself, as spoilt memory may have it, needs the next round)
            return Ok(());
        }
        Err(format!("LOST: a change is not at {:?} before the next round", self.world.wrong()))
    }
}

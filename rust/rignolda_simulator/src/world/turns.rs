//! What an agent does at a time, and what is done of what its machine asks for.
use super::{Agent, Comes, World, BEGUN, RESTARTS};
use crate::drawn;
use crate::judge::Broken;
use crate::lines::{line, Held};
use crate::random::Random;
use rignolda_machine::machine::{Act, Input};
use rignolda_machine::net::{Address, Call, End};
use rignolda_machine::Time;
use std::any::Any;
use std::io::Read;
use std::panic::{catch_unwind, resume_unwind, AssertUnwindSafe};

/// How often an agent has a turn at least, in milliseconds: systemd wants to hear of it.
const WAKES: u64 = 15_000;
/// How many turns of an agent take no time.
const SPINS: u64 = 64;
/// For how long an agent may have turns one after the other to which nothing comes, in
/// milliseconds: spoilt memory is looked at each second or two.
const BUSY: u64 = 5_000;

impl World {
    /// An agent does what there is to do.
    pub(super) fn turn(&mut self, it: usize) -> Result<(), Broken> {
        let clock = self.clock.now();
        let agent = &mut self.agents[it];
        if clock < agent.stopped {
            let at = agent.stopped;
            agent.busy = None;
            self.plan(it, at);
            return Ok(());
        }
        if agent.machine.is_none() {
            return Ok(());
        }
        let is_ready = |it: &Held| !it.is_told && (it.end.is_ready() | it.end.is_over());
        let ready = agent.lines.iter().filter(|(_, it)| is_ready(it));
        let ready: Vec<u64> = ready.map(|it| *it.0).collect();
        let later = agent.comes.split_off(&(clock + 1, 0));
        let comes = std::mem::replace(&mut agent.comes, later);
        let now = self.now(it);
        let is_due = self.until(it).is_some_and(|at| at <= now.at);
        let agent = &mut self.agents[it];
        let is_due = is_due || clock >= agent.turned + WAKES;
        if ready.is_empty() && comes.is_empty() && !is_due {
            return self.rests(it);
        }
        let is_again = agent.turned == clock;
        (agent.turned, agent.spins) = (clock, if is_again { agent.spins + 1 } else { 0 });
        self.turns += 1;
        ready.into_iter().for_each(|id| self.reads(it, id));
        for what in comes.into_values() {
            match what {
                Comes::Line(line) => {
                    let id = self.adds(it, line);
                    self.step(it, Input::Accepted(id, End::default()));
                }
                Comes::Called(call, line) => {
                    let made = line.map(|line| (self.adds(it, line), End::default()));
                    let made = made.ok_or_else(|| "nobody is there".to_owned());
                    self.step(it, Input::Called(*call, made));
                }
                Comes::Turned(store, got) => self.step(it, Input::Turned(&store, got)),
                Comes::Changed => self.step(it, Input::Changed),
                Comes::Asked(ticket, request) => self.step(it, Input::Asked(ticket, request)),
                Comes::Works(act) => {
                    let is_root = matches!(*act, Act::Disk(_) | Act::Stand(_));
                    let disk = &mut self.agents[it].disk;
                    let done = disk.works(*act, &mut self.folders[it], clock);
                    if is_root {
                        self.has_worked(it);
                    }
                    done.into_iter().for_each(|input| self.step(it, input));
                }
            }
        }
        if is_due {
            self.step(it, Input::Tick);
        }
        self.is_busy(it)?;
        // (what was asked for until then is under way now)
        if std::mem::take(&mut self.agents[it].checks) {
            if let Some(why) = self.shell_fault(it) {
                self.agents[it].failed.get_or_insert(why.into());
            }
        }
        self.stands(it)?;
        let agent = &mut self.agents[it];
        if let Some(machine) = &agent.machine {
            self.judge.turn(it, machine, &mut agent.disk, clock)?;
        }
        self.rests(it)
    }

    /// When an agent wants its next turn, if it runs.
    fn until(&mut self, it: usize) -> Option<Time> {
        let machine = self.agents[it].machine.as_ref()?;
        match catch_unwind(AssertUnwindSafe(|| machine.until())) {
            Ok(until) => Some(until),
            Err(why) => {
                self.panics(it, why);
                None
            }
        }
    }

    /// A process ends in the midst of it, which it may if its memory was spoilt.
    fn panics(&mut self, it: usize, why: Box<dyn Any + Send>) {
        if !self.judge.may_end(it) {
            resume_unwind(why);
        }
        self.acts.clear();
        let agent = &mut self.agents[it];
        (agent.machine, agent.failed) = (None, Some("it panics".into()));
        agent.lines.clear();
        self.judge.panics();
    }

    /// Whether it wants turn after turn for long, as if none were of any use.
    fn is_busy(&mut self, it: usize) -> Result<(), Broken> {
        let (now, clock) = (self.now(it).at, self.clock.now());
        let is_due = self.until(it).is_some_and(|at| at <= now);
        let agent = &mut self.agents[it];
        agent.busy = is_due.then(|| agent.busy.unwrap_or(clock));
        match agent.busy {
            Some(since) if clock > since + BUSY => Err(format!("BUSY: n{it} is never done")),
            _ => Ok(()),
        }
    }

    fn rests(&mut self, it: usize) -> Result<(), Broken> {
        let until = self.until(it);
        if let Some(why) = self.agents[it].failed.take() {
            self.judge.ends(it, &why)?;
            self.end(it, false, RESTARTS);
            return Ok(());
        }
        let Some(until) = until else { return Ok(()) };
        let until = until - BEGUN;
        let until = until.as_nanos().div_ceil(1_000_000) as u64;
        let (agent, now) = (&self.agents[it], self.clock.now());
        // (each turn takes a little)
        let least = if agent.spins < SPINS { now } else { now + 1 };
        self.plan(it, until.min(agent.turned + WAKES).max(least));
        Ok(())
    }

    /// There is this line from now on: its number.
    fn adds(&mut self, it: usize, line: crate::lines::End) -> u64 {
        let agent = &mut self.agents[it];
        agent.made += 1;
        let version = self.drawn.speaks[it].min(self.drawn.speaks[line.from()]);
        agent.lines.insert(agent.made, Held::new(line, version));
        agent.made
    }

    /// Reads what there is of a line, and writes what can be written.
    fn reads(&mut self, it: usize, id: u64) {
        let mut space = [0; 4_096];
        while let Some(held) = self.agents[it].lines.get_mut(&id) {
            match held.end.read(&mut space) {
                Ok(0) => {
                    held.is_told = true;
                    self.step(it, Input::Over(id, "the other end closed it"));
                    break;
                }
                Ok(count) => self.step(it, Input::Bytes(id, &space[..count])),
                Err(_) => break,
            }
        }
        self.writes(it, id);
        self.acts_of(it);
    }

    fn writes(&mut self, it: usize, id: u64) {
        let held = self.agents[it].lines.get_mut(&id).filter(|it| it.has_output());
        self.written.extend(held.and_then(Held::write).map(|done| (id, done.is_ok())));
    }

    /// What the machine is to know of its lines; those that it does not know are closed.
    fn looks_at_lines(&mut self, it: usize) {
        let Agent { lines, machine, comes, .. } = &mut self.agents[it];
        let Some(machine) = machine else { return };
        let is_call = |it: &&Comes| matches!(it, Comes::Called(..));
        machine.calls = comes.values().filter(is_call).count() as u32;
        lines.retain(|id, _| machine.peers.has_line(*id));
        for id in machine.peers.lines() {
            match lines.get(&id) {
                None => self.written.push((id, false)),
                Some(held) if !held.has_output() && machine.peers.sends(id) => {
                    self.written.push((id, true));
                }
                Some(_) => (),
            }
        }
    }

    /// Something comes to an agent, and what follows from it is done.
    pub fn step(&mut self, it: usize, input: Input<'_>) {
        self.steps(it, input);
        self.acts_of(it);
    }

    fn steps(&mut self, it: usize, input: Input<'_>) {
        let now = self.now(it);
        let lines = self.agents[it].lines.len();
        let Some(machine) = &mut self.agents[it].machine else { return };
        let before = self.acts.len();
        let acts = &mut self.acts;
        let steps = catch_unwind(AssertUnwindSafe(|| machine.step(now, input, acts)));
        match steps {
            Ok(()) => {
                let work = self.judge.work(it, machine, lines, &self.acts[before..]);
                self.judge.works = self.judge.works.take().or(work.err());
            }
            Err(why) => self.panics(it, why),
        }
    }

    /// What the machine asks for is done, and what follows from that.
    pub(super) fn acts_of(&mut self, it: usize) {
        while !self.acts.is_empty() || !self.written.is_empty() {
            for act in std::mem::take(&mut self.acts) {
                self.act(it, act);
            }
            for (id, done) in std::mem::take(&mut self.written) {
                let over = Input::Over(id, "it is over");
                self.steps(it, if done { Input::Sent(id) } else { over });
            }
        }
    }

    fn act(&mut self, it: usize, act: Act) {
        match act {
            Act::Send(id, chunk) => {
                if let Some(held) = self.agents[it].lines.get_mut(&id) {
                    held.says(chunk);
                }
                self.writes(it, id);
            }
            Act::Close(id) => drop(self.agents[it].lines.remove(&id)),
            Act::Call(call) => self.call(it, call),
            Act::Fact(fact) => {
                if self.talks {
                    eprintln!("{:>9} n{it} {} {fact}", self.clock.now(), fact.kind());
                }
                self.judge.fact(fact.kind());
            }
            Act::Fail(why) => self.agents[it].failed = Some(why.into()),
            Act::Restart => self.agents[it].failed = Some(String::new()),
            Act::Answer(ticket, response) => {
                let at = self.asked.iter().position(|(to, own, _)| (*to, *own) == (it, ticket));
                match at {
                    Some(at) => drop(self.asked.remove(at)),
                    None => self.judge.answers_twice = true,
                }
                self.is_told(response);
            }
            Act::Begins => self.agents[it].shell.has_disk = true,
            Act::Anew => {
                let agent = &mut self.agents[it];
                agent.shell.has_disk = false;
                agent.lines.clear();
                // (nobody hears any more of what its disk does)
                let is_left = |it: &Comes| match it {
                    Comes::Called(..) | Comes::Turned(..) => true,
                    Comes::Works(act) => matches!(**act, Act::Disk(_)),
                    _ => false,
                };
                agent.comes.retain(|_, it| !is_left(it));
                self.stores.iter_mut().for_each(|store| store.is_left(it));
            }
            Act::Check => {
                self.agents[it].checks = true;
                self.looks_at_lines(it);
            }
            Act::Turn(address, turn) => self.asks_a_store(it, address, turn),
            act => {
                let clock = self.clock.now();
                let at = self.agents[it].disk.takes(&act, self.drawn.files[it], clock);
                self.comes(it, at - clock, Comes::Works(Box::new(act)));
            }
        }
    }

    /// Whether an agent is let in by another one.
    pub(super) fn answers(&self, it: usize, to: usize) -> bool {
        let is_apart = self.apart.contains(&[it.min(to), it.max(to)]);
        let is_up = |it: &Agent| it.machine.is_some() && it.refuses <= self.clock.now();
        self.agents.get(to).is_some_and(is_up) && !is_apart
    }

    /// A connection is made, after a look-up of its name sometimes, which may take seconds.
    fn call(&mut self, it: usize, call: Call<Address>) {
        let Some(to) = drawn::listens(&call.address) else {
            return;
        };
        let random = &mut self.agents[it].random;
        let most = random.of(&[1, 1, 1, 1, 1, 300, 8_000]);
        let after = random.below(most);
        self.roots.is_looked_up([it, to], self.clock.now() + after);
        if !self.answers(it, to) {
            return self.comes(it, after, Comes::Called(Box::new(call), None));
        }
        self.lines += 1;
        let random = Random::new(self.seed, "line", self.lines);
        let [here, there] = line(&self.clock, [it, to], self.drawn.slow, random);
        self.comes(it, after, Comes::Called(Box::new(call), Some(here)));
        self.comes(to, after, Comes::Line(there));
    }
}

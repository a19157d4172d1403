//! What an agent decides, as one pure step: what comes, and when, goes in; what is to be done comes
//! out as values. No clock is read here, and no socket, file or thread is touched: the
//! shell does that, and in a trial a simulator.
//!
//! ```text
//! step(now, input, acts)      until() is when the next one is wanted at the latest
//! ```
//!
//! What is asked for is an [`Act`], and what came of it an [`Input`]. Lines have numbers, which the
//! shell gives, none of them twice. An input that names what is none is ignored.
use crate::apply::Applier;
use crate::below::reports::Told;
use crate::came::Came;
use crate::config::Config;
use crate::control::Response;
use crate::net::{Address, Output, Peers};
use crate::prelude::*;
use crate::restarts::Restarts;
use crate::root::Root;
use crate::standby::Standby;
use crate::{Refused, Time};

mod inputs;
mod looks;
mod publishes;
mod requests;
mod role;
mod status;

pub use inputs::{Act, Found, Host, Input, Now};

/// What an agent is, and knows.
#[derive(Debug)]
pub struct Machine {
    pub config: Config,
    pub peers: Peers<Address>,
    pub came: Came,
    /// How many calls are under way: the shell sets that to 0 if no name is looked up, and no other
    /// call waits. And when the own certificate expires, in seconds since 1970, or 0, as it says.
    pub calls: u32,
    pub certificate_expires: u64,
    /// When the last step was, in seconds since 1970.
    pub(crate) unix: u64,
    host: Host,
    reported: Time,
    /// What the parent was told then.
    told: Told,
    /// What the children had not acknowledged when it last reported that.
    reported_backlog: u64,
    checked: Time,
    restarts: Restarts,
}

impl Machine {
    /// An agent that begins.
    pub fn new(
        mut config: Config,
        found: Found,
        mut host: Host,
        now: Now,
        acts: &mut Vec<Act>,
    ) -> Machine {
        let at = now.at;
        let Found { applied, standby } = found;
        let (floor, settings) =
            applied.as_ref().map_or_else(Default::default, |it| (it.floor, it.settings.clone()));
        let applier = config.apply.as_ref().zip(applied);
        let applier = applier.map(|(config, found)| Applier::new(config, found.due));
        let standby =
            standby.map(|found| Standby::new(names_of(&config), found, settings.clone(), at));
        config.peers.rank = standby.as_ref().and_then(Standby::rank);
        let came = Came::new(applier, standby, floor, host.sha256, at);
        let mut machine = Machine {
            peers: peers(&config, &mut host, at),
            came,
            calls: 0,
            certificate_expires: 0,
            unix: now.unix.as_secs(),
            host,
            reported: at,
            told: Told::default(),
            reported_backlog: 0,
            checked: at,
            restarts: Restarts::new(
                &config.peers.name,
                now.unix.as_secs() / 86_400,
                host.restarts,
                host.sha256,
                at,
            ),
            config,
        };
        if machine.came.standby.is_none() {
            machine.begins_as_root(settings, now.micros(), at, acts);
        }
        machine.hands_out(at, acts);
        machine
    }

    /// When the next step is wanted at the latest: as it was after the last one.
    pub fn until(&self) -> Time {
        self.deadline(self.came.now)
    }

    /// Takes up what came, and says what is to be done.
    pub fn step(&mut self, now: Now, input: Input<'_>, acts: &mut Vec<Act>) {
        let at = now.at;
        (self.came.now, self.unix) = (at, now.unix.as_secs());
        // (what comes over lines, and of files, is most of all: mostly nothing else is due then,
        // and nothing follows from what is written or kept)
        let is_end = match input {
            Input::Sent(_) => true,
            Input::Applied(..) => self.came.standby.is_none(),
            _ => false,
        };
        let is_of_line = matches!(input, Input::Bytes(..) | Input::Shown(..) | Input::Over(..));
        let is_due = !(is_end || is_of_line) || self.may_check(at);
        self.comes(now, input, acts);
        if is_due || is_of_line || self.peers.has_output() {
            self.follows(now, is_due, acts);
        }
        self.hands_out(at, acts);
    }

    /// Does what follows from what came, and what is due.
    fn follows(&mut self, now: Now, is_due: bool, acts: &mut Vec<Act>) {
        let at = now.at;
        self.takes_up(at, acts);
        if is_due {
            self.comes_due(now, acts);
        }
        if self.came.ended {
            self.learns();
        }
        self.publish(at, acts);
        self.came.below.asked().iter().for_each(|child| self.peers.request_report(child));
        let turns = self.peers.turns(at);
        acts.extend(turns.into_iter().map(|(store, turn)| Act::Turn(store, turn)));
        self.takes_up(at, acts);
    }

    /// Hands what came to the part that it is for.
    fn comes(&mut self, now: Now, input: Input<'_>, acts: &mut Vec<Act>) {
        let at = now.at;
        match input {
            Input::Accepted(line, end) => self.peers.accept(line, end, at),
            Input::Called(call, made) => {
                self.calls = self.calls.saturating_sub(1);
                self.peers.called(call, made, at);
            }
            Input::Shown(line, end) => self.peers.shows(line, end),
            Input::Bytes(line, bytes) => self.peers.bytes(line, bytes, at),
            Input::Sent(line) => self.peers.sent(line, at),
            Input::Over(line, why) => self.peers.over(line, why, at),
            Input::Leave(line, why) => self.peers.close(line, why, at),
            Input::Turned(store, got) => self.peers.turned(store, got, at),
            Input::Changed => self.came.root.iter_mut().for_each(|it| it.notified(at)),
            Input::Disk(done) => {
                if let Some(root) = &mut self.came.root {
                    root.done(done, at);
                }
            }
            Input::Stood(done) => {
                let change = self.came.standby.as_mut().and_then(|it| it.done(done));
                self.becomes(change, now, acts);
            }
            Input::Applied(worker, done) => {
                if let Some(applier) = &mut self.came.applier {
                    applier.ended(worker, done, at);
                }
                self.came.applied(at);
            }
            Input::Asked(ticket, request) => {
                if let Some(response) = self.request(ticket, request, now) {
                    acts.push(Act::Answer(ticket, response));
                }
                self.came.root.iter_mut().for_each(Root::commit);
            }
            Input::Reload(config) => self.reload(*config, at),
            Input::Tick => (),
        }
    }

    /// Takes up what comes out of its connections: what came is told, and what is to be done about
    /// lines is handed on.
    fn takes_up(&mut self, at: Time, acts: &mut Vec<Act>) {
        while let Some(output) = self.peers.output() {
            match output {
                Output::Item(body) => {
                    let is_table = self.came.item(&body, at);
                    self.peers.takes(is_table, at);
                }
                Output::Send(line, chunk) => acts.push(Act::Send(line, chunk)),
                Output::Close(line) => acts.push(Act::Close(line)),
                Output::Report(child, report) => self.came.report(&child, &report, at),
                Output::ReportRequest => self.came.is_asked_for_all(),
                Output::Gone(child) => self.came.gone(&child),
                Output::Looked(at, said) => {
                    self.came
                        .standby
                        .iter_mut()
                        .for_each(|it| it.looked(at, said.as_ref().map(|it| (&it.0, it.1))));
                }
                Output::Fact(fact) => self.came.fact(fact),
            }
        }
    }

    /// Does what is due by now.
    fn comes_due(&mut self, now: Now, acts: &mut Vec<Act>) {
        let at = now.at;
        self.peers.tick(at);
        while let Some(call) = self.peers.next_call(at) {
            match call.address {
                Address::Redis { .. } => self.peers.in_store(call, at),
                _ => {
                    self.calls = self.calls.saturating_add(1);
                    acts.push(Act::Call(call));
                }
            }
        }
        self.takes_up(at, acts);
        if let Some(root) = &mut self.came.root {
            root.tick(at, || self.came.below.depth());
        }
        self.came.applied(at);
        self.came.below.reads(at);
        self.came.heard();
        self.stands(now, acts);
        self.report(at);
        if self.may_check(at) {
            self.checked = at;
            self.check(now, acts);
            self.takes_up(at, acts);
        }
    }

    /// Whether it may look at itself now, so that it need not wake for that alone.
    fn may_check(&self, at: Time) -> bool {
        self.checked > at || at >= self.checked + self.checks()[0]
    }

    /// When there is something to do although nothing comes.
    fn deadline(&self, now: Time) -> Time {
        let root = self.came.root.as_ref().map(Root::deadline);
        let report = self.peers.parent().map(|_| self.reports_at());
        let more = self.may_publish().then_some(now);
        // (also where the time of the last look is spoilt, and nothing else is to be done)
        let checked = self.checked.min(now);
        let (peers, checks) = (self.peers.deadline(), Some(checked + self.checks()[1]));
        let standby = self.came.standby.as_ref().and_then(Standby::deadline);
        let reads = self.came.below.reads_at(now);
        let applier = self.came.applier.as_ref().and_then(Applier::until);
        let all = [peers, root, standby, report, reads, applier, more, checks];
        all.into_iter().flatten().min().unwrap_or(now)
    }

    /// Puts what its parts ask for and say into one list, in the order in which it is to be done.
    fn hands_out(&mut self, now: Time, acts: &mut Vec<Act>) {
        let Came { facts, root, applier, standby, .. } = &mut self.came;
        acts.extend(facts.drain(..).map(Act::Fact));
        if let Some(root) = root {
            acts.extend(root.facts().into_iter().map(Act::Fact));
            acts.extend(root.jobs().into_iter().map(Act::Disk));
        }
        if let Some(standby) = standby {
            acts.extend(standby.facts().into_iter().map(Act::Fact));
            acts.extend(standby.jobs().into_iter().map(Act::Stand));
        }
        if let Some(applier) = applier {
            acts.extend(applier.facts().into_iter().map(Act::Fact));
            acts.extend(applier.jobs(now).into_iter().map(|(at, job)| Act::Apply(at, job)));
        }
    }
}

/// The name of an agent, and of the folder of its root.
fn names_of(config: &Config) -> (&str, &str) {
    (&config.peers.name, config.root.as_ref().map_or("", |it| &it.settings))
}

/// What is answered where it is refused.
pub(crate) fn refused(why: Refused) -> Response {
    Response::Refused(why.to_string())
}

/// The connections of an agent that begins.
fn peers(config: &Config, host: &mut Host, now: Time) -> Peers<Address> {
    let peers = Peers::new(config.peers.clone(), host.draws(), config.backlog, now);
    let mut peers = peers.with_digests(host.sha256);
    peers.bound_waiting(host.waiting.max(1));
    peers
}

rignolda::spoils! { Machine {
    config, peers, came, calls, certificate_expires, host, reported, told, reported_backlog,
    checked, restarts
} }

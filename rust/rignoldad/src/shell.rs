//! The loop of an agent: what comes over sockets, from files and from operators goes into its
//! [machine](Machine), and what that says is done. One thread does all of it but hooks, files, the
//! look-up of names and handshakes of TLS, and never waits for anything else than for all of them
//! at once.
use crate::answers::Answers;
use crate::config::{plain, Config, Fault};
use crate::fact;
use crate::journal;
use crate::label::Labels;
use crate::lines::{self, Fired, Lines};
use crate::reach::Reach;
use crate::sockets::Sockets;
use crate::system::{self, notify, Signals};
use crate::threads::Threads;
use rignolda_machine::came::Trace;
use rignolda_machine::machine::{Act, Input, Machine, Now};
use rignolda_machine::renews::Renews;
use rignolda_machine::{Fact, Time};
use rignolda_tls::Own;
use rignoldactl::{at, sha256, ErrorAt};
use std::io::{self, Read};
use std::os::unix::io::AsRawFd;
use std::path::{Path, PathBuf};
use std::time::Duration;

/// How often systemd hears of an agent at least, where it asked for nothing.
const MINUTE: Duration = Duration::from_secs(60);

/// An agent, and what it has of the system.
pub struct Shell {
    path: PathBuf,
    config: Config,
    pub(crate) machine: Machine,
    /// What is to be done.
    pub(crate) acts: Vec<Act>,
    pub(crate) lines: Lines,
    pub(crate) sockets: Sockets,
    threads: Threads,
    pub(crate) answers: Answers,
    pub(crate) reach: Reach,
    renews: Renews,
    /// What was not taken at the last reload, and why.
    pub(crate) reload_failed: String,
    /// What stands for digests where operators ask.
    pub(crate) labels: Labels,
    /// Whether it is to look at itself, and to be started again.
    checks: bool,
    restarts: bool,
    /// What the machine says that cannot be.
    spoiled: Option<&'static str>,
}

/// Runs the agent that this file configures until it is told to end.
pub fn run(path: &Path, config: Config) -> Result<(), ErrorAt> {
    let signals = Signals::new().map_err(at("signals"))?;
    let mut shell = Shell::new(path, config)?;
    let (watchdog, mut watched) = (system::watchdog(), crate::system::time());
    // (OpenSSL reads its configuration when it is first used: better now than in a round)
    openssl::sha::sha256(&[]);
    notify("READY=1");
    fact!("start", "{} life {:016x}", shell.machine.config.peers.name, shell.machine.peers.life());
    loop {
        let fired = shell.wait(&signals, watchdog.unwrap_or(MINUTE)).map_err(at("poll"))?;
        if fired.others.contains(&signals.end.as_raw_fd()) {
            notify("STOPPING=1");
            fact!("end", "{}", shell.machine.config.peers.name);
            journal::flush();
            return Ok(());
        }
        let now = system::now();
        if fired.others.contains(&signals.reload.as_raw_fd()) {
            let _ = (&signals.reload).read(&mut [0; 64]);
            shell.reload_failed = shell.reload(now).err().unwrap_or_default();
            match &*shell.reload_failed {
                "" => fact!("reload", "done"),
                why => fact!("reload", "{why}"),
            }
            notify(&format!("STATUS={}", shell.reload_failed));
        }
        shell.turn(&fired, now)?;
        if shell.restarts {
            fact!("restart", "{}", shell.machine.config.peers.name);
            return Err(system::restarted());
        }
        if watchdog.is_some_and(|part| now.at >= watched + part) && shell.reach.is_sound(now.at) {
            watched = now.at;
            notify("WATCHDOG=1");
        }
    }
}

/// Writes a line at once, for trials.
fn writes(fact: &Fact) {
    journal::line(fact.kind(), &fact.to_string());
    journal::flush();
}

impl Shell {
    pub fn new(path: &Path, config: Config) -> Result<Shell, ErrorAt> {
        let now = system::now();
        let own = Own::default();
        let lines = Lines::new(&config, &own)?;
        let (threads, found) = Threads::new(&config, lines.wake())?;
        let sockets = Sockets::new(&config, now.at)?;
        let by = (config.tls.as_ref(), &lines.maker);
        let (name, control) = (&config.agent.peers.name, config.control.clone());
        let reach = Reach::new(name, by, control, sockets.places(&config), own);
        let (mut acts, host) = (Vec::new(), system::host().map_err(at("/dev/urandom"))?);
        let mut machine = Machine::new(config.agent.clone(), found, host, now, &mut acts);
        let traces = std::env::var_os("RIGNOLDA_TRACE").is_some();
        machine.came.traces = traces.then_some(writes as Trace);
        let drawn = machine.peers.life();
        let mut shell = Shell {
            path: path.into(),
            config,
            machine,
            acts,
            lines,
            sockets,
            threads,
            answers: Answers::default(),
            reach: reach.map_err(at("its thread cannot be started"))?,
            renews: Renews::new(drawn, system::seconds("RIGNOLDA_RENEWS"), sha256, now.at),
            reload_failed: String::new(),
            labels: Labels::new(
                [system::random(), system::random()].map(Result::unwrap_or_default),
            ),
            checks: false,
            restarts: false,
            spoiled: None,
        };
        shell.says_when_it_expires();
        shell.act(now)?;
        Ok(shell)
    }

    /// Waits until something can be done.
    fn wait(&mut self, signals: &Signals, most: Duration) -> io::Result<Fired> {
        let now = crate::system::time();
        let reads = [signals.reload.as_raw_fd(), signals.end.as_raw_fd()].into_iter();
        let reads = reads.chain(self.threads.descriptor(&self.machine)).map(|fd| (fd, 0, false));
        let others = reads.chain(self.sockets.descriptors(now)).collect();
        let asks = self.threads.asks_at(&self.machine, now);
        let others_due = self.sockets.deadline(now).into_iter().chain(asks);
        let until = others_due.chain([self.machine.until()]).min();
        let peers = &self.machine.peers;
        self.lines.wait(|it| peers.knows(it), others, until.unwrap_or(now), most)
    }

    /// Does all that can be done now. Mostly there is something to read, and nothing else.
    fn turn(&mut self, fired: &Fired, now: Now) -> Result<(), ErrorAt> {
        for (at, done) in self.threads.applied() {
            self.step(now, Input::Applied(at, done));
        }
        let peers = &self.machine.peers;
        for id in self.lines.in_turn(&fired.ready, |id| peers.is_greeting(id)) {
            let (machine, acts) = (&mut self.machine, &mut self.acts);
            self.lines.read(id, |input| {
                machine.step(now, input, acts);
                machine.peers.has_line(id)
            });
            self.lines.write(id);
            self.act(now)?;
        }
        if fired.is_due {
            for (store, got) in self.threads.stores.done() {
                self.machine.step(now, Input::Turned(store, got), &mut self.acts);
            }
            for done in self.threads.done() {
                self.step(now, done);
            }
            for line in self.sockets.accept(&fired.others, &self.lines.maker, now.at) {
                let (id, end) = self.lines.add(line);
                self.step(now, Input::Accepted(id, end));
            }
            for (line, why) in self.lines.left() {
                self.step(now, Input::Leave(line, &why));
            }
            for called in self.lines.called() {
                self.step(now, called);
            }
            let changes = self.threads.descriptor(&self.machine);
            if changes.is_some_and(|fd| fired.others.contains(&fd)) {
                self.step(now, Input::Changed);
            }
            self.serve(&fired.others, now);
            self.step(now, Input::Tick);
        }
        self.act(now)
    }

    pub(crate) fn step(&mut self, now: Now, input: Input<'_>) {
        self.machine.step(now, input, &mut self.acts);
    }

    /// Does what is to be done, and what follows from that; and looks at itself, if it is to.
    fn act(&mut self, now: Now) -> Result<(), ErrorAt> {
        self.does_all(now)?;
        // (what was asked for until then is under way now)
        if std::mem::take(&mut self.checks) {
            let checked = self.check(now);
            self.spoiled = self.spoiled.or(checked.err());
            self.does_all(now)?;
        }
        self.spoiled.map_or(Ok(()), |why| Err(at("its memory is spoiled")(why)))
    }

    fn does_all(&mut self, now: Now) -> Result<(), ErrorAt> {
        loop {
            for act in std::mem::take(&mut self.acts) {
                self.does(act, now)?;
            }
            for (id, done) in self.lines.written() {
                match done {
                    Ok(()) => self.step(now, Input::Sent(id)),
                    Err(why) => self.step(now, Input::Over(id, &why.to_string())),
                }
            }
            if self.acts.is_empty() {
                return Ok(());
            }
        }
    }

    fn does(&mut self, act: Act, now: Now) -> Result<(), ErrorAt> {
        match act {
            Act::Send(id, chunk) => self.lines.send(id, chunk),
            Act::Close(id) => self.lines.close(id),
            Act::Fact(fact) => journal::line(fact.kind(), &fact.to_string()),
            Act::Answer(ticket, response) => {
                let response = self.labels.response(response);
                self.sockets.answer(ticket, &response);
            }
            Act::Call(call) => {
                if let Some(called) = self.lines.call(call) {
                    self.step(now, called);
                }
            }
            Act::Turn(store, turn) => {
                let name = self.machine.peers.name();
                if let Err(why) = self.threads.stores.begin(&store, turn, name) {
                    self.step(now, Input::Turned(&store, Err(why.to_string())));
                }
            }
            Act::Check => self.checks = true,
            Act::Restart => self.restarts = true,
            Act::Fail(why) => self.spoiled = Some(why),
            act => {
                if matches!(act, Act::Anew) {
                    self.lines.begin_anew();
                }
                self.threads.begin(act, &self.config)?;
            }
        }
        Ok(())
    }

    /// Each second or two: looks at what it has of the system, as the machine does at itself.
    fn check(&mut self, now: Now) -> Result<(), &'static str> {
        let at = now.at;
        self.answers.passes(at);
        self.sockets.keep(at, &mut self.lines);
        self.renew(at);
        self.says_when_it_expires();
        if !self.lines.looks_up() {
            // (what was lost by a fault is under way no more)
            self.machine.calls = 0;
        }
        for input in self.lines.look_again(&self.machine) {
            self.step(now, input);
        }
        let (config, peers) = (&self.config, &self.machine.peers);
        let has_parent = peers.setup().is_root() || peers.parent().is_some();
        let (parents, answers) = (&peers.setup().parents, peers.looks_answered());
        let tls = config.tls.as_ref();
        let misses = self.reach.misses((has_parent, answers), tls, parents, at);
        let decides = &self.machine.config;
        let is_same = lines::silence(config) == self.lines.maker.timeout()
            && (&config.agent.root, &config.agent.apply) == (&decides.root, &decides.apply);
        let faults = [
            (!is_same).then_some("its configuration is another one"),
            (!self.sockets.listen(config)).then_some("it does not listen where it is to"),
            self.lines.maker.fault(tls.is_some()),
            self.lines.fault(),
            misses.then_some("it has no parent, and one answers whoever comes anew"),
            self.threads.fault(&self.machine),
        ];
        faults.into_iter().flatten().next().map_or(Ok(()), Err)
    }

    /// The machine shows when the certificate expires.
    fn says_when_it_expires(&mut self) {
        let expires = self.lines.maker.expires().and_then(|at| u64::try_from(at).ok());
        self.machine.certificate_expires = expires.unwrap_or(0);
    }

    /// Makes anew what was made once, and is used only if somebody connects. Links go on, and what
    /// cannot be made now is as before.
    fn renew(&mut self, now: Time) {
        let (fails_since, tls) = (self.machine.peers.fails_since(), self.config.tls.as_ref());
        if !self.renews.are_due(fails_since, self.reach.is_unwelcome(), now) {
            return;
        }
        if let Ok(Some(maker)) = self.lines.maker.renewed(tls) {
            self.lines.maker = maker;
            self.reach.reload(tls, &self.lines.maker);
        }
        self.sockets.begin_anew(&self.config, &mut self.lines);
    }

    /// Reads the configuration again, and takes what may change while the agent runs. It says what
    /// it did not take.
    fn reload(&mut self, now: Now) -> Result<(), String> {
        let nothing = |why: String| format!("nothing changes: {}", plain(&why));
        let whys = |faults: Vec<Fault>| faults.iter().map(Fault::to_string).collect::<Vec<_>>();
        let new = Config::read(&self.path).map_err(|faults| nothing(whys(faults).join("; ")))?;
        if let Some(why) = self.config.refuses(&new) {
            return Err(nothing(why.into()));
        }
        let maker = lines::maker(&new).map_err(|why| nothing(why.to_string()))?;
        let late = self.config.take(new).join(", ");
        // (first it is known what is to be so, and then it is)
        self.reach.reload(self.config.tls.as_ref(), &maker);
        self.lines.reload(maker);
        self.says_when_it_expires();
        self.step(now, Input::Reload(Box::new(self.config.agent.clone())));
        let late = Some(late).filter(|late| !late.is_empty());
        late.map_or(Ok(()), |late| Err(format!("counts from a start alone: {late}")))
    }
}

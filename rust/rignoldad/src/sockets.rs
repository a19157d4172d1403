//! Where an agent listens: for children, and for operators and those who watch.
use crate::config::{Address, Config};
use crate::control::{self, Server};
use crate::fact;
use crate::lines::{Lines, Other};
use rignolda_machine::Ticket;
use rignolda_machine::Time;
use rignolda_tls::{Line, Listener, Maker};
use rignoldactl::{at, ErrorAt, Response};
use std::collections::HashSet;
use std::io::ErrorKind;
use std::os::unix::io::{AsRawFd, RawFd};
use std::path::Path;
use std::time::Duration;

/// How many connections are accepted in one turn.
const ACCEPTS: usize = 64;
/// For how long nobody is accepted where no descriptor was left.
const FULL: Duration = Duration::from_millis(100);

pub struct Sockets {
    listeners: Vec<Listener>,
    pub servers: Vec<Server>,
    /// Until when nobody is accepted, since no descriptor was left, and how often that was so.
    full_until: Time,
    turned_away: u64,
    /// Which sockets are not at their places and cannot be made anew, and why.
    lost: String,
}

impl Sockets {
    /// Listens where this says.
    pub fn new(config: &Config, now: Time) -> Result<Sockets, ErrorAt> {
        let listen = |address: &Address| {
            Listener::new(address, Some(0o660)).map_err(at(format!("listen: {address}")))
        };
        let listeners: Vec<_> = config.listen.iter().map(listen).collect::<Result<_, _>>()?;
        let control = config
            .control
            .iter()
            .map(|it| control::server(it).map_err(at(format!("control: {}", it.display()))));
        let counts = config.metrics.iter();
        let counts = counts.map(|it| control::counts(*it).map_err(at(format!("metrics: {it}"))));
        let servers = control.chain(counts).collect::<Result<_, _>>()?;
        let lost = String::new();
        let sockets = Sockets { listeners, servers, full_until: now, turned_away: 0, lost };
        for it in sockets.all() {
            if let (Some(path), Some(to)) = (it.path(), it.moved()) {
                let (path, to) = (path.display(), to.display());
                fact!("socket", "what lay at {path} was no socket: it is {to} now");
            }
        }
        Ok(sockets)
    }

    fn all(&self) -> impl Iterator<Item = &Listener> {
        self.listeners.iter().chain(self.servers.iter().map(Server::listener))
    }

    /// Where each of those listens that children come to.
    pub fn places(&self, config: &Config) -> Vec<Address> {
        let all = self.listeners.iter().zip(&config.listen);
        all.map(|(it, address)| it.place_of(address)).collect()
    }

    /// What is waited for.
    pub fn descriptors(&self, now: Time) -> impl Iterator<Item = Other> + '_ {
        let listeners = self.listeners.iter().filter(move |_| now >= self.full_until);
        let listeners = listeners.map(|it| (it.socket.as_raw_fd(), 0, false));
        listeners.chain(self.servers.iter().flat_map(Server::descriptors))
    }

    /// When there is something to do although nobody comes.
    pub fn deadline(&self, now: Time) -> Option<Time> {
        let served = self.servers.iter().filter_map(Server::deadline).min();
        let full = Some(self.full_until).filter(|at| *at > now);
        served.into_iter().chain(full).min()
    }

    /// Those who come to it now.
    pub fn accept(&mut self, fired: &HashSet<RawFd>, maker: &Maker, now: Time) -> Vec<Line> {
        let mut came = Vec::new();
        for listener in self.listeners.iter().filter(|it| fired.contains(&it.socket.as_raw_fd())) {
            for _ in 0..ACCEPTS {
                match maker.accept(listener) {
                    Ok(line) => came.push(line),
                    Err(e) if e.kind() == ErrorKind::WouldBlock => break,
                    // (that connection is gone already, or no descriptor is left)
                    Err(_) => {
                        self.full_until = now + FULL;
                        self.turned_away += 1;
                        break;
                    }
                }
            }
        }
        came
    }

    /// How often somebody could not be accepted, or served.
    pub fn turned_away(&self) -> u64 {
        self.turned_away + self.servers.iter().map(Server::turned_away).sum::<u64>()
    }

    /// Answers an operator, through the server that has this ticket.
    pub fn answer(&mut self, ticket: Ticket, response: &Response) {
        let bytes = control::answer(response);
        self.servers.iter_mut().for_each(|server| server.answer(ticket, &bytes));
    }

    /// Whoever connects to a socket's file comes to this agent, whatever was done to that. To be
    /// told each second or two.
    pub fn keep(&mut self, now: Time, lines: &mut Lines) {
        self.full_until = self.full_until.min(now + FULL);
        if self.all().all(Listener::is_in_place) {
            return self.lost.clear();
        }
        self.is_forgotten(lines);
        let served = self.servers.iter_mut().map(Server::listener_mut);
        let mut lost = String::new();
        for it in self.listeners.iter_mut().chain(served).filter(|it| !it.is_in_place()) {
            let done = it.comes_back();
            let path = it.path().unwrap_or(Path::new("")).display();
            match (done, it.moved()) {
                (Err(why), _) => lost += &format!("{path} is lost: {why}; "),
                (Ok(()), None) => fact!("socket", "{path} was gone: made anew"),
                (Ok(()), Some(to)) => {
                    let to = to.display();
                    fact!("socket", "{path} was no socket: made anew, that is {to} now");
                }
            }
        }
        // (a failure is said once, and again when it is another one)
        if lost != self.lost && !lost.is_empty() {
            fact!("socket", "{}", lost.trim_end_matches("; "));
        }
        self.lost = lost;
    }

    /// Whether each is one that listens where it is configured to.
    pub fn listen(&self, config: &Config) -> bool {
        let Config { listen, control, metrics, .. } = config;
        let control = control.iter().map(|it| Address::Unix(it.display().to_string()));
        let counts = metrics.iter().map(|it| Address::Tcp(it.to_string()));
        let served: Vec<Address> = control.chain(counts).collect();
        let counts = [self.listeners.len(), self.servers.len()];
        let addresses = listen.iter().chain(&served);
        counts == [listen.len(), served.len()]
            && self.all().zip(addresses).all(|(it, address)| it.is_of(address))
    }

    /// Makes each anew, since it is used only if somebody connects. What cannot be made now is as
    /// before.
    pub fn begin_anew(&mut self, config: &Config, lines: &mut Lines) {
        self.is_forgotten(lines);
        self.listeners.iter_mut().for_each(|it| drop(it.begins_anew()));
        let counts = config.control.iter().map(|_| None);
        let counts = counts.chain(config.metrics.map(Some));
        for (server, counts) in self.servers.iter_mut().zip(counts) {
            let _ = control::begins_anew(server, counts);
        }
    }

    /// The descriptors are others from now on: else the system would go on to tell of those of
    /// before, and would tell nothing of one that has the number of another one then.
    fn is_forgotten(&self, lines: &mut Lines) {
        let old: Vec<RawFd> = self.all().map(AsRawFd::as_raw_fd).collect();
        lines.forget(&old);
    }
}

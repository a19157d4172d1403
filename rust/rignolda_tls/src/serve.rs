//! A small server for an agent's loop: it never waits, and its clients, what they send and how long
//! they may take are bounded.
//!
//! ```
//! use rignolda_machine::Time;
//! use rignolda_tls::serve::Server;
//! use std::collections::HashSet;
//! use std::io::{Read, Write};
//! use std::os::unix::net::{UnixListener, UnixStream};
//! use std::time::Duration;
//!
//! let path = std::env::temp_dir().join(format!("rignolda-serve-{}", std::process::id()));
//! let listener = UnixListener::bind(&path)?;
//! listener.set_nonblocking(true)?;
//! let parse = |bytes: &[u8], _| Some((*bytes.first()?, 1));
//! let mut server = Server::new(listener, 8, Duration::from_secs(9), parse);
//! let mut client = UnixStream::connect(&path)?;
//! client.write_all(b"?")?;
//! // (here a loop waits until one of the descriptors can be read or written)
//! let fired: HashSet<_> = server.descriptors().map(|(fd, ..)| fd).collect();
//! for (ticket, request) in server.ready(&fired, Time::default()) {
//!     assert_eq!(request, b'?');
//!     server.answer_last(ticket, b"!");
//! }
//! let mut answer = String::new();
//! client.read_to_string(&mut answer)?;
//! assert_eq!(answer, "!");
//! std::fs::remove_file(path)?;
//! # Ok::<(), std::io::Error>(())
//! ```
use rignolda_machine::{Ticket, Time};
use std::collections::HashSet;
use std::fmt;
use std::io::{self, ErrorKind, Read, Write};
use std::os::unix::io::{AsRawFd, RawFd};
use std::os::unix::net::{UnixListener, UnixStream};
use std::sync::atomic::{AtomicU64, Ordering};
use std::time::Duration;

/// How many clients there are at most. For one more, that is closed which has been longest without
/// a request.
const CLIENTS: usize = 16;

/// For how long nobody is accepted where no descriptor was left.
const FULL: Duration = Duration::from_millis(100);

/// Where clients are accepted.
pub trait Listener: AsRawFd {
    /// The connection to a client, of which neither reading nor writing waits.
    type Socket: Read + Write + AsRawFd;

    /// Takes the next one, and never waits for it.
    ///
    /// # Errors
    ///
    /// `WouldBlock` where there is none; else that none can be taken now.
    fn accept(&self) -> io::Result<Self::Socket>;
}

impl Listener for UnixListener {
    type Socket = UnixStream;

    fn accept(&self) -> io::Result<UnixStream> {
        let socket = UnixListener::accept(self)?.0;
        socket.set_nonblocking(true)?;
        Ok(socket)
    }
}

/// How many clients any server had, and 1 more.
static MADE: AtomicU64 = AtomicU64::new(1);

/// Reads the first request of some bytes, and how many it took; nothing where more has to come. Of
/// the first ones, as many as it is told, it has said before that more has to come: so it need not
/// look at these again.
pub type Parse<T> = fn(&[u8], usize) -> Option<(T, usize)>;

struct Client<S> {
    number: u64,
    socket: S,
    input: Vec<u8>,
    /// How many bytes of it are known to be no whole request.
    seen: usize,
    output: Vec<u8>,
    /// Whether a request of it waits for its answer. Then nothing more is read.
    asked: bool,
    /// Whether what came before that answer may be a request too.
    again: bool,
    last: bool,
    until: Time,
}

/// A server whose clients ask for `T`.
pub struct Server<T, L: Listener> {
    listener: L,
    parse: Parse<T>,
    clients: Vec<Client<L::Socket>>,
    most: usize,
    idle: Duration,
    /// Until when nobody is accepted, since no descriptor was left.
    full: Option<Time>,
    /// How often somebody was not served, since there was no room.
    turned_away: u64,
}

impl<T, L: Listener> fmt::Debug for Server<T, L> {
    fn fmt(&self, to: &mut fmt::Formatter<'_>) -> fmt::Result {
        let mut shown = to.debug_struct("Server");
        shown.field("listener", &self.listener.as_raw_fd());
        shown.field("clients", &self.clients.len());
        shown.finish_non_exhaustive()
    }
}

impl<T, L: Listener> Server<T, L> {
    /// A server without clients. `most`: the most bytes of a request; `idle`: how long a client may
    /// be without one.
    pub fn new(listener: L, most: usize, idle: Duration, parse: Parse<T>) -> Server<T, L> {
        Server { listener, parse, clients: Vec::new(), most, idle, full: None, turned_away: 0 }
    }

    /// Has these bounds from now on, as a new one would; its listener and clients stay.
    pub fn begins_anew(&mut self, most: usize, idle: Duration, parse: Parse<T>) {
        (self.most, self.idle, self.parse) = (most, idle, parse);
    }

    /// How often somebody was not accepted or was closed, since there was no room.
    pub fn turned_away(&self) -> u64 {
        self.turned_away
    }

    /// Where clients are accepted.
    pub fn listener(&self) -> &L {
        &self.listener
    }

    /// The same, to listen anew: its clients stay.
    pub fn listener_mut(&mut self) -> &mut L {
        &mut self.listener
    }

    /// The descriptors to wait for, each with a number that no other one has had, and whether until
    /// they can be written, and not read. (Else one that has closed its end is always ready.)
    pub fn descriptors(&self) -> impl Iterator<Item = (RawFd, u64, bool)> + '_ {
        let client =
            |it: &Client<L::Socket>| (it.socket.as_raw_fd(), it.number, !it.output.is_empty());
        let clients = self.clients.iter().filter(|it| !it.asked);
        let listener = (self.listener.as_raw_fd(), 0, false);
        let listener = self.full.is_none().then_some(listener);
        listener.into_iter().chain(clients.map(client))
    }

    /// When there is something to do although nothing comes.
    pub fn deadline(&self) -> Option<Time> {
        // (the time before `idle` began has gone by)
        let due = |it: &Client<L::Socket>| match it.again && it.output.is_empty() {
            true => it.until - self.idle,
            false => it.until,
        };
        self.clients.iter().map(due).chain(self.full).min()
    }

    /// Accepts, reads and writes what there is now, where one of these descriptors is its own: the
    /// requests that came whole. Each ticket is to be answered once.
    #[must_use = "each ticket is to be answered"]
    pub fn ready(&mut self, fired: &HashSet<RawFd>, now: Time) -> Vec<(Ticket, T)> {
        // (it was this short a time ahead)
        self.full = self.full.filter(|at| *at <= now + FULL);
        let is_due = self.deadline().is_some_and(|at| now >= at);
        if !is_due && !self.descriptors().any(|(fd, ..)| fired.contains(&fd)) {
            return Vec::new();
        }
        self.full = self.full.filter(|until| now < *until);
        self.accept(now);
        let mut requests = Vec::new();
        self.clients.retain_mut(|client| {
            if now >= client.until || !client.write() {
                return false;
            }
            let is_ready = client.again || fired.contains(&client.socket.as_raw_fd());
            if client.asked || !client.output.is_empty() || !is_ready {
                return true;
            }
            client.again = false;
            let goes_on = client.read(self.most);
            let (request, taken) = match (self.parse)(&client.input, client.seen) {
                Some(request) => request,
                None => {
                    client.seen = client.input.len();
                    return goes_on && client.input.len() < self.most;
                }
            };
            client.input.drain(..taken);
            client.seen = 0;
            client.asked = true;
            client.until = now + self.idle;
            requests.push((Ticket::of_number(client.number), request));
            true
        });
        requests
    }

    /// The connection of whoever asked for this, while it is there.
    pub fn client(&self, ticket: Ticket) -> Option<&L::Socket> {
        self.clients.iter().find(|it| it.number == ticket.number()).map(|it| &it.socket)
    }

    /// Answers a request.
    pub fn answer(&mut self, ticket: Ticket, bytes: &[u8]) {
        let mut clients = self.clients.iter_mut();
        if let Some(client) = clients.find(|it| it.number == ticket.number() && it.asked) {
            client.asked = false;
            client.again = !client.input.is_empty();
            client.output.extend_from_slice(bytes);
            if !client.write() {
                self.clients.retain(|client| client.number != ticket.number());
            }
        }
    }

    /// The same, and the connection is closed after it.
    pub fn answer_last(&mut self, ticket: Ticket, bytes: &[u8]) {
        let mut clients = self.clients.iter_mut();
        let client = clients.find(|it| it.number == ticket.number());
        client.into_iter().for_each(|it| it.last |= it.asked);
        self.answer(ticket, bytes);
    }

    fn accept(&mut self, now: Time) {
        let until = now + self.idle;
        for _ in 0..CLIENTS {
            let clients = self.clients.iter().enumerate();
            let may_go = clients.filter(|(_, it)| !it.asked && it.until < until);
            let goes = may_go.min_by_key(|(_, it)| (!it.output.is_empty(), it.until));
            let goes = goes.map(|(at, _)| at);
            let is_full = self.clients.len() >= CLIENTS;
            // (what those that came in this turn have sent is read before one of them goes)
            if is_full && goes.is_none() && self.clients.iter().any(|it| !it.asked) {
                return;
            }
            match (self.listener.accept(), goes) {
                (Ok(_), None) if is_full => self.turned_away += 1,
                (Ok(socket), goes) => {
                    if let Some(at) = goes.filter(|_| is_full) {
                        self.clients.remove(at);
                        self.turned_away += 1;
                    }
                    self.clients.push(Client {
                        number: MADE.fetch_add(1, Ordering::Relaxed),
                        socket,
                        input: Vec::new(),
                        seen: 0,
                        output: Vec::new(),
                        asked: false,
                        // (it may have sent a request already)
                        again: true,
                        last: false,
                        until,
                    });
                }
                (Err(error), _) if error.kind() == ErrorKind::WouldBlock => return,
                (Err(_), _) => {
                    self.full = Some(now + FULL);
                    self.turned_away += 1;
                    return;
                }
            }
        }
    }
}

impl<S: Read + Write> Client<S> {
    /// Reads what there is, up to the bound. Whether the connection goes on, as far as is known: a
    /// read that does not fill its room has taken all that there was, and is the last one.
    fn read(&mut self, most: usize) -> bool {
        let mut space = [0; 4_096];
        loop {
            let room = most.saturating_sub(self.input.len()).min(space.len());
            match self.socket.read(&mut space[..room]) {
                Ok(count) => {
                    self.input.extend_from_slice(&space[..count]);
                    if count < space.len() {
                        return count > 0 || room == 0;
                    }
                }
                Err(error) if error.kind() == ErrorKind::Interrupted => (),
                Err(error) => return error.kind() == ErrorKind::WouldBlock,
            }
        }
    }

    /// Writes what it can. Whether the connection goes on: it does not after the last answer.
    fn write(&mut self) -> bool {
        while !self.output.is_empty() {
            match self.socket.write(&self.output) {
                Ok(0) => return false,
                Ok(count) => drop(self.output.drain(..count)),
                Err(error) if error.kind() == ErrorKind::WouldBlock => return true,
                Err(error) if error.kind() == ErrorKind::Interrupted => (),
                Err(_) => return false,
            }
        }
        !self.last
    }
}

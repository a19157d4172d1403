//! A store of Redis for the links of an agent that lie there ([`Turn`]).
//!
//! A turn is a transaction (MULTI, EXEC) and then GETRANGE of each key. So that no transaction that
//! was given up is done later, each connection first sets `PREFIX:AGENT`, a key of the agent's own,
//! and watches it (WATCH), before it sends anything else; and it watches it again with each
//! transaction. So the server refuses a transaction of any earlier connection of this agent, also
//! of an earlier process of it, or of two at once. It is one server, neither a cluster nor a
//! replica; and nothing is encrypted.
#![forbid(unsafe_code)]
#![warn(missing_debug_implementations)]
mod connection;
mod worker;

use connection::{Connection, Due, Reply};
use rignolda_machine::net::{Address, Turn};
use std::path::PathBuf;
use std::sync::Arc;
use std::time::Duration;
use std::{fmt, io};

pub use worker::{Worker, LOST};

/// How an agent logs in to a store.
#[derive(Clone, Debug, Default, PartialEq, Eq)]
pub struct Login {
    /// The user of Redis; empty for its `default` one.
    pub user: String,
    /// The file whose first line is the password. It is read for each connection.
    pub password: Option<PathBuf>,
    /// The number of the database.
    pub database: u32,
}

type StoreWorker = Worker<Turn, Result<Vec<Vec<u8>>, String>>;

/// The stores of an agent, each with a thread that waits for it.
pub struct Stores {
    login: Login,
    timeout: Duration,
    wake: Arc<dyn Fn() + Send + Sync>,
    workers: Vec<(Address, StoreWorker)>,
}

impl fmt::Debug for Stores {
    fn fmt(&self, to: &mut fmt::Formatter<'_>) -> fmt::Result {
        let addresses = self.workers.iter().map(|(address, _)| address);
        to.debug_list().entries(addresses).finish()
    }
}

impl Stores {
    /// None yet. They answer in so much time, and `wake` is called when one has.
    pub fn new(login: Login, timeout: Duration, wake: Arc<dyn Fn() + Send + Sync>) -> Stores {
        Stores { login, timeout, wake, workers: Vec::new() }
    }

    /// What came of the turns that are over.
    pub fn done(&self) -> impl Iterator<Item = (&Address, Result<Vec<Vec<u8>>, String>)> {
        self.workers.iter().filter_map(|(address, worker)| Some((address, worker.done()?)))
    }

    /// Begins a turn of an agent of this name.
    ///
    /// # Errors
    ///
    /// Where the store can have no thread; then nothing is begun.
    pub fn begin(&mut self, address: &Address, turn: Turn, name: &str) -> io::Result<()> {
        self.worker(address, name).map(|worker| worker.begin(turn))
    }

    /// What cannot be, where something cannot: to be asked once a second. `asks`: whether the agent
    /// waits for this store.
    pub fn fault(&self, asks: impl Fn(&Address) -> bool) -> Option<&'static str> {
        let is_so = |(address, it): &(Address, StoreWorker)| it.is_asked(u32::from(asks(address)));
        (!self.workers.iter().all(is_so)).then_some("a store was asked for something else")
    }

    fn worker(&mut self, address: &Address, name: &str) -> io::Result<&StoreWorker> {
        let at = self.workers.iter().position(|(it, _)| it == address);
        let at = match (at, address) {
            (Some(at), _) => at,
            (None, Address::Redis { server, prefix }) => {
                let mut store = Redis::new(server, prefix, name, self.login.clone(), self.timeout);
                let (wake, work) = (self.wake.clone(), move |turn| store.turn(&turn));
                let worker = Worker::start("store", work, move || wake());
                self.workers.push((address.clone(), worker?));
                self.workers.len() - 1
            }
            _ => return Err(io::Error::other("it is no store")),
        };
        Ok(&self.workers[at].1)
    }
}

/// A store of Redis, as one agent has it.
#[derive(Debug)]
pub struct Redis {
    server: String,
    prefix: String,
    own: String,
    login: Login,
    timeout: Duration,
    connection: Option<Connection>,
}

impl Redis {
    /// The store at `HOST:PORT`, where all keys begin with a prefix, for the agent of this name. A
    /// turn may take `timeout`, and more for its bytes where they come at 64 KiB in a second.
    pub fn new(server: &str, prefix: &str, name: &str, login: Login, timeout: Duration) -> Redis {
        Redis {
            server: server.into(),
            prefix: prefix.into(),
            own: format!("{prefix}:{name}"),
            login,
            timeout,
            connection: None,
        }
    }

    fn connect(&self) -> Result<Connection, String> {
        let (host, port) = self.server.rsplit_once(':').unwrap_or((&self.server, ""));
        let host = host.trim_start_matches('[').trim_end_matches(']');
        let port = port.parse().unwrap_or(6_379);
        let mut connection = Connection::open(host, port, self.timeout)?;
        if let Some(path) = &self.login.password {
            let text =
                std::fs::read_to_string(path).map_err(|e| format!("{}: {e}", path.display()))?;
            let password = text.lines().next().unwrap_or_default().as_bytes();
            match self.login.user.as_bytes() {
                b"" => done(&mut connection, &[b"AUTH", password])?,
                user => done(&mut connection, &[b"AUTH", user, password])?,
            }
        }
        if self.login.database > 0 {
            let database = self.login.database.to_string();
            done(&mut connection, &[b"SELECT", database.as_bytes()])?;
        }
        let process = std::process::id().to_string();
        done(&mut connection, &[b"SET", self.own.as_bytes(), process.as_bytes()])?;
        done(&mut connection, &[b"WATCH", self.own.as_bytes()])?;
        Ok(connection)
    }

    fn run(&self, connection: &mut Connection, turn: &Turn) -> Result<Vec<Vec<u8>>, String> {
        if !turn.sets.is_empty() {
            connection.append(&[b"MULTI"]);
            for (key, value) in &turn.sets {
                let key = format!("{}:{key}", self.prefix);
                connection.append(&[b"SET", key.as_bytes(), value]);
            }
            connection.append(&[b"EXEC"]);
            connection.append(&[b"WATCH", self.own.as_bytes()]);
        }
        for (key, most) in &turn.gets {
            let key = format!("{}:{key}", self.prefix);
            let last = most.saturating_sub(1).to_string();
            connection.append(&[b"GETRANGE", key.as_bytes(), b"0", last.as_bytes()]);
        }
        if !turn.sets.is_empty() {
            for _ in 0..=turn.sets.len() {
                good(connection.reply(Due::Word)?)?;
            }
            let done = good(connection.reply(Due::Words(turn.sets.len()))?)?;
            good(connection.reply(Due::Word)?)?;
            match done {
                Reply::List(all) => all.into_iter().try_for_each(|it| good(it).map(drop))?,
                _ => return Err("another process writes there under this agent's name".into()),
            }
        }
        let got = turn.gets.iter().map(|(_, most)| match connection.reply(Due::Text(*most))? {
            Reply::Text(bytes) => Ok(bytes),
            // (somebody made it a list, say)
            Reply::Error(why) if why.starts_with("WRONGTYPE") => Ok(Vec::new()),
            other => good(other).and(Err("its answer is none to GETRANGE".into())),
        });
        got.collect()
    }
}

impl Redis {
    /// Sets and gets, on the connection that there is or on a new one: what each key shows, or
    /// nothing if there is none.
    ///
    /// # Errors
    ///
    /// Why it is not known to be done.
    pub fn turn(&mut self, turn: &Turn) -> Result<Vec<Vec<u8>>, String> {
        let mut connection = match self.connection.take() {
            Some(connection) => connection,
            None => self.connect()?,
        };
        connection.begin();
        // (one on which something failed is closed)
        let got = self.run(&mut connection, turn)?;
        self.connection = Some(connection);
        Ok(got)
    }
}

/// A reply that is no error.
fn good(reply: Reply) -> Result<Reply, String> {
    match reply {
        Reply::Error(why) => Err(why),
        reply => Ok(reply),
    }
}

/// Sends a command, and waits until it is done.
fn done(connection: &mut Connection, words: &[&[u8]]) -> Result<(), String> {
    connection.append(words);
    good(connection.reply(Due::Word)?).map(drop)
}

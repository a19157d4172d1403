//! The configuration of an agent: a TOML file, read whole and checked whole.
//!
//! Every fault is reported with its line and its key. Nothing here opens another file, except that
//! [`Config::read`] reads the one that it is given.
use crate::depth::{too_deep, TOO_DEEP};
use reader::Check;
pub use rignolda_machine::config::{Apply, Config as Agent, Root, DEEP, GROUPS};
pub use rignolda_machine::net::{is_name, Address, Children, Parent, Setup, NAME_BYTES};
pub use rignolda_machine::settings::{is_group, is_key};
pub use rignolda_redis::Login;
use rignolda_tls::read_file;
pub use rignolda_tls::Tls;
use std::io;
use std::net::SocketAddr;
use std::path::{Path, PathBuf};
use toml::value::Table;

mod fault;
mod keys;
mod lines;
mod reader;
mod rules;

pub use fault::{plain, Fault};
pub use lines::{hook_lines, leads, line_of};

/// The longest configuration file, in bytes.
const FILE_BYTES: usize = 1 << 20;

/// What an agent is set up with.
#[derive(Clone, Debug, PartialEq)]
pub struct Config {
    /// By what it decides.
    pub agent: Agent,
    pub listen: Vec<Address>,
    pub tls: Option<Tls>,
    /// How it logs in to stores.
    pub store: Login,
    /// Whether plain TCP may leave this machine, where there is no `tls`.
    pub insecure: bool,
    pub control: Option<PathBuf>,
    pub metrics: Option<SocketAddr>,
}

impl Config {
    /// Reads a file, and checks it.
    pub fn read(path: &Path) -> Result<Config, Vec<Fault>> {
        Config::parse(&read_text(path)?)
    }

    /// Reads a text, and checks it: the configuration, or every fault that was found.
    pub fn parse(text: &str) -> Result<Config, Vec<Fault>> {
        if let Some(line) = too_deep(text) {
            return Err(vec![Fault::of(line, TOO_DEEP)]);
        }
        let table: Table = toml::from_str(text).map_err(|e| {
            let line = e.line_col().map_or(0, |(line, _)| line + 1);
            let said = e.to_string();
            vec![Fault::of(line, said.rsplit_once(" at line ").map_or(&*said, |(said, _)| said))]
        })?;
        let mut check = Check { text, table: &table, insecure: false, faults: Vec::new() };
        check.unknown(&table, "");
        let config = check.config();
        check.faults.sort_by_key(|fault| fault.line);
        match check.faults.is_empty() {
            true => Ok(config),
            false => Err(check.faults),
        }
    }

    /// Why a new configuration cannot be taken while the agent runs, where it cannot: it has a
    /// table that counts from a start alone, or lacks it.
    pub fn refuses(&self, new: &Config) -> Option<&'static str> {
        let standby = |config: &Config| config.agent.root.as_ref().map(|root| root.standby);
        match (&self.agent.apply, &new.agent.apply) {
            _ if standby(self) != standby(new) => Some("a root is one from its start alone"),
            (Some(_), None) => Some("[apply] is gone, which counts from a start alone"),
            (None, Some(_)) => Some("[apply] is new, which counts from a start alone"),
            _ => None,
        }
    }

    /// Takes a new configuration, but for the keys that count from a start alone: those of them
    /// that differ. All others may change while the agent runs.
    pub fn take(&mut self, new: Config) -> Vec<&'static str> {
        fn keep<T: PartialEq>(
            key: &'static str,
            new: Option<&mut T>,
            old: Option<T>,
        ) -> Option<&'static str> {
            let differs = new.as_deref() != old.as_ref();
            new.into_iter().zip(old).for_each(|(new, old)| *new = old);
            differs.then_some(key)
        }
        let old = std::mem::replace(self, new);
        let (agent, was) = (&mut self.agent, old.agent);
        agent.listens = was.listens;
        let settings = agent.root.as_mut().map(|it| &mut it.settings);
        let folder = agent.apply.as_mut().map(|it| &mut it.folder);
        let late = [
            keep("name", Some(&mut agent.peers.name), Some(was.peers.name)),
            keep("listen", Some(&mut self.listen), Some(old.listen)),
            keep("root.settings", settings, was.root.map(|it| it.settings)),
            keep("link.backlog", Some(&mut agent.backlog), Some(was.backlog)),
            keep("store", Some(&mut self.store), Some(old.store)),
            keep("apply.folder", folder, was.apply.map(|it| it.folder)),
            keep("control", Some(&mut self.control), Some(old.control)),
            keep("metrics", Some(&mut self.metrics), Some(old.metrics)),
        ];
        late.into_iter().flatten().collect()
    }
}

/// The text of a configuration.
pub fn read_text(path: &Path) -> Result<String, Vec<Fault>> {
    read_file(path, FILE_BYTES, "the file")
        .and_then(|bytes| io::read_to_string(&bytes[..]))
        .map_err(|e| vec![Fault::of(0, e.to_string())])
}

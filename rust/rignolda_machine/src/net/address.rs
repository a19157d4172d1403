//! Where an agent listens, or connects to.
use crate::prelude::*;
use core::error::Error;
use core::fmt;
use core::net::{IpAddr, Ipv6Addr};
use core::str::FromStr;

/// Where an agent listens, or connects to.
///
/// ```
/// use rignolda_machine::net::Address;
///
/// let address = Address::parse("hub.example:7464")?;
/// assert_eq!(address, Address::Tcp("hub.example:7464".into()));
/// assert!(!address.is_local() && Address::parse("[::1]:7464")?.is_local());
/// assert!(Address::parse("unix:/run/link")?.is_local());
/// assert!(Address::parse("::1:7464").is_err());
/// let store = Address::parse("redis://store.example:6379/prefix")?;
/// assert_eq!(store.to_string(), "redis://store.example:6379/prefix");
/// # Ok::<(), rignolda_machine::net::AddressError>(())
/// ```
#[derive(Clone, Debug, PartialEq, Eq, Hash, PartialOrd, Ord)]
#[non_exhaustive]
pub enum Address {
    /// `HOST:PORT`, with an address of IPv6 in brackets.
    Tcp(String),
    /// `unix:/PATH`.
    Unix(String),
    /// `redis://HOST:PORT/PREFIX`, where a [link in a store](super::Turn) has its words. (None
    /// listens there.)
    Redis {
        /// `HOST:PORT`.
        server: String,
        /// What the names of the tree's keys begin with: it is as the name of an agent.
        prefix: String,
    },
}

/// What is wrong with the text of an address.
#[derive(Clone, Debug, PartialEq, Eq)]
#[non_exhaustive]
pub enum AddressError {
    /// It has none of the three forms.
    Form,
    /// The path of a socket is not absolute, or too long.
    Path,
    /// There is no prefix, or it is [none](super::is_name).
    Prefix,
    /// A store is not at a host and a port.
    Server,
    /// This is no port.
    Port(String),
    /// This is no host.
    Host(String),
}

impl fmt::Display for AddressError {
    fn fmt(&self, to: &mut fmt::Formatter<'_>) -> fmt::Result {
        to.write_str(match self {
            AddressError::Form => "HOST:PORT, unix:/PATH or redis://HOST:PORT/PREFIX is expected",
            AddressError::Path => "after `unix:` comes an absolute path of at most 107 bytes",
            AddressError::Prefix => "it is redis://HOST:PORT/PREFIX, and the prefix as a name",
            AddressError::Server => "after `redis://` comes HOST:PORT",
            AddressError::Port(it) => {
                return write!(to, "the port is from 1 to 65535, not `{it}`");
            }
            AddressError::Host(it) => {
                return write!(to, "`{it}` is no host (an address of IPv6 needs brackets)");
            }
        })
    }
}

impl Error for AddressError {}

impl FromStr for Address {
    type Err = AddressError;

    fn from_str(text: &str) -> Result<Address, AddressError> {
        Address::parse(text)
    }
}

impl Address {
    /// The address that the text says.
    ///
    /// # Errors
    ///
    /// What is wrong with it.
    pub fn parse(text: &str) -> Result<Address, AddressError> {
        if let Some(path) = text.strip_prefix("unix:") {
            // (a socket's path has room for 108 bytes, the last one being 0)
            return match path.starts_with('/') && path.len() <= 107 {
                true => Ok(Address::Unix(path.into())),
                false => Err(AddressError::Path),
            };
        }
        if let Some(rest) = text.strip_prefix("redis://") {
            let (server, prefix) = rest.split_once('/').unwrap_or((rest, ""));
            if !super::is_name(prefix) {
                return Err(AddressError::Prefix);
            }
            let prefix = prefix.into();
            return match Address::parse(server)? {
                Address::Tcp(server) => Ok(Address::Redis { server, prefix }),
                _ => Err(AddressError::Server),
            };
        }
        let (host, port) = text.rsplit_once(':').ok_or(AddressError::Form)?;
        if port.parse::<u16>().map_or(true, |port| port == 0) {
            return Err(AddressError::Port(port.into()));
        }
        let good = match host.strip_prefix('[') {
            Some(inner) => {
                inner.strip_suffix(']').is_some_and(|inner| inner.parse::<Ipv6Addr>().is_ok())
            }
            None => {
                let letter = |b: u8| b.is_ascii_alphanumeric() || b == b'.' || b == b'-';
                (1..=253).contains(&host.len()) && host.bytes().all(letter)
            }
        };
        let address = good.then(|| Address::Tcp(text.into()));
        address.ok_or_else(|| AddressError::Host(host.into()))
    }

    /// Whether what goes there stays on this machine.
    pub fn is_local(&self) -> bool {
        let text = match self {
            Address::Tcp(text) => text,
            Address::Unix(_) => return true,
            Address::Redis { server, .. } => server,
        };
        let host = text.rsplit_once(':').map_or("", |(host, _)| host);
        let host = host.trim_start_matches('[').trim_end_matches(']');
        host == "localhost" || host.parse::<IpAddr>().is_ok_and(|ip| ip.is_loopback())
    }
}

impl fmt::Display for Address {
    fn fmt(&self, f: &mut fmt::Formatter<'_>) -> fmt::Result {
        match self {
            Address::Tcp(text) => f.write_str(text),
            Address::Unix(path) => write!(f, "unix:{path}"),
            Address::Redis { server, prefix } => write!(f, "redis://{server}/{prefix}"),
        }
    }
}

rignolda::spoils_one_of! { Address {} Tcp(at), Unix(at) }

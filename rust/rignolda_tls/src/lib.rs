//! Lines of an agent, over sockets that never make it wait, its certificates, and a small
//! [server](serve) for those who watch it.
//!
//! A [`Maker`] makes lines by the files of a [`Tls`], a [`Caller`] connects by it to others, and a
//! [`Listener`] is where they connect to. A [`Line`] is read and written as
//! [`rignolda_machine::net::Peers`] asks for it. Before it has verified the other end's
//! certificate, that is the work of the threads of [`Handshakes`].
#![forbid(unsafe_code)]
#![warn(missing_debug_implementations)]
use std::fs::OpenOptions;
use std::io::{self, Read};
use std::os::unix::fs::OpenOptionsExt;
use std::path::{Path, PathBuf};

mod aside;
mod caller;
mod certificate;
mod handshakes;
mod line;
mod listener;
mod reach;
mod secure;
pub mod serve;

pub use aside::moved_aside;
pub use caller::{Called, Caller};
pub use certificate::{unix_time, Fault};
pub use handshakes::Handshakes;
pub use line::{Line, Maker, TlsError};
pub use listener::Listener;
pub use reach::{ask, By, Looked, Looker, Own};
pub use secure::Secure;

/// O_NONBLOCK of Linux.
const NONBLOCK: i32 = 0o4000;

/// The files of an agent: its own certificate and the key of that, and the authority that signed it
/// and those of all others.
#[derive(Clone, Debug, PartialEq)]
pub struct Tls {
    pub certificate: PathBuf,
    pub key: PathBuf,
    pub authority: PathBuf,
}

/// The bytes of a file, of which there are at most `most`. A pipe is none, and is not waited for.
pub fn read_file(path: &Path, most: usize, what: &str) -> io::Result<Vec<u8>> {
    let mut bytes = Vec::new();
    let file = OpenOptions::new().read(true).custom_flags(NONBLOCK).open(path)?;
    if !file.metadata()?.is_file() {
        return Err(io::Error::other("it is no file"));
    }
    file.take(most as u64 + 1).read_to_end(&mut bytes)?;
    match bytes.len() > most {
        true => Err(io::Error::other(format!("{what} has more than {most} bytes"))),
        false => Ok(bytes),
    }
}

//! What an agent asks of the system that it runs on, besides sockets and files.
use crate::journal;
use nix::time::{clock_gettime, ClockId};
use rignolda_machine::machine::{Host, Now};
use rignolda_machine::Time;
use rignoldactl::{at, sha256, ErrorAt};
use std::io::{self, Read, Write};
use std::os::unix::net::{UnixDatagram, UnixStream};
use std::os::unix::process::CommandExt;
use std::path::{Path, PathBuf};
use std::process::Command;
use std::sync::mpsc;
use std::thread;
use std::time::{Duration, SystemTime, UNIX_EPOCH};

/// The signals that an agent takes, each as an end that can be read once it came.
pub struct Signals {
    pub reload: UnixStream,
    pub end: UnixStream,
}

impl Signals {
    pub fn new() -> io::Result<Signals> {
        use signal_hook::consts::{SIGHUP, SIGINT, SIGTERM};
        let (reload, write) = UnixStream::pair()?;
        signal_hook::low_level::pipe::register(SIGHUP, write)?;
        let (end, write) = UnixStream::pair()?;
        signal_hook::low_level::pipe::register(SIGTERM, write.try_clone()?)?;
        signal_hook::low_level::pipe::register(SIGINT, write)?;
        Ok(Signals { reload, end })
    }
}

/// Tells systemd, where it asked for that.
pub fn notify(text: &str) {
    use std::os::{linux::net::SocketAddrExt, unix::ffi::OsStrExt};
    let Some(path) = std::env::var_os("NOTIFY_SOCKET") else { return };
    let address = match path.as_bytes().strip_prefix(b"@") {
        Some(name) => std::os::unix::net::SocketAddr::from_abstract_name(name),
        None => std::os::unix::net::SocketAddr::from_pathname(&path),
    };
    if let (Ok(address), Ok(socket)) = (address, UnixDatagram::unbound()) {
        let _ = socket.set_write_timeout(Some(Duration::from_secs(1)));
        let _ = socket.send_to_addr(text.as_bytes(), &address);
    }
}

/// How often systemd is to be given a sign, where it asked for that: so often that one which is
/// late by a few is in time.
pub fn watchdog() -> Option<Duration> {
    let micros = std::env::var("WATCHDOG_USEC").ok()?.parse::<u64>().ok()?;
    Some(Duration::from_micros(micros / 10))
}

/// Puts a new process in the place of this one, which has its number and its words: why it could
/// not.
pub fn restarted() -> ErrorAt {
    journal::flush();
    // (what was upgraded meanwhile goes on as it was, until somebody restarts it)
    let own = Path::new("/proc/self/exe");
    let is_there = |it: &PathBuf| it.exists();
    let program = std::fs::read_link(own).ok().filter(is_there).unwrap_or(own.into());
    let mut words = std::env::args_os();
    let name = words.next().unwrap_or_else(|| "rignoldad".into());
    at("restart")(Command::new(program).arg0(name).args(words).exec())
}

/// The time, by the clocks of the machine.
pub fn now() -> Now {
    let unix = SystemTime::now().duration_since(UNIX_EPOCH).unwrap_or_default();
    Now { at: time(), unix }
}

/// The time by the clock that only goes on. (Linux has it at any time, and nothing of the process
/// has to be right for that.)
pub fn time() -> Time {
    Time::after(clock_gettime(ClockId::CLOCK_MONOTONIC).map_or(Duration::ZERO, Duration::from))
}

/// Seconds since 1970, by the clock of the machine.
pub fn unix_now() -> i64 {
    i64::try_from(now().unix.as_secs()).unwrap_or(i64::MAX)
}

/// So many seconds of the environment, for trials.
pub fn seconds(name: &str) -> Option<Duration> {
    std::env::var(name).ok()?.parse().ok().map(Duration::from_secs)
}

/// What a machine gives an agent.
pub fn host() -> io::Result<Host> {
    // (the others are for children that came, files and control)
    let restarts = seconds("RIGNOLDA_RESTARTS");
    Ok(Host { drawn: random()?, waiting: descriptors() / 4, restarts, sha256 })
}

/// How many descriptors the process may have.
fn descriptors() -> usize {
    let limits = std::fs::read_to_string("/proc/self/limits").unwrap_or_default();
    let line = limits.lines().find_map(|line| line.strip_prefix("Max open files"));
    line.and_then(|it| it.split_whitespace().next()?.parse().ok()).unwrap_or(1_024)
}

/// A number that nobody can guess.
pub fn random() -> io::Result<u64> {
    let mut bytes = [0; 8];
    std::fs::File::open("/dev/urandom")?.read_exact(&mut bytes)?;
    Ok(u64::from_ne_bytes(bytes))
}

/// Ends the process as a watchdog does, whatever the loop does meanwhile or whoever reads what it
/// says.
pub fn end(why: &str) -> ! {
    let (to, said) = mpsc::channel();
    let line = format!("rignoldad: {why}\n");
    let say = move || {
        journal::flush();
        let _ = io::stderr().write_all(line.as_bytes());
        let _ = to.send(());
    };
    let _ = thread::Builder::new().spawn(say);
    let _ = said.recv_timeout(Duration::from_secs(3));
    std::process::abort()
}

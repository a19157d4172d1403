//! What the system tells of: the descriptors of lines, and others.
use crate::workers::Wake;
use mio::unix::SourceFd;
use mio::{Events, Interest, Poll, Token, Waker};
use std::collections::HashSet;
use std::io;
use std::os::unix::io::RawFd;
use std::sync::Arc;
use std::time::Duration;

/// How many events are taken in one turn.
const EVENTS: usize = 256;
/// An event of a line has its number; that of another descriptor has this bit and the descriptor.
const OTHER: usize = 1 << (usize::BITS - 1);
const WAKE: Token = Token(usize::MAX);

/// A descriptor that is no line's: its number, which is another one if the system is to be asked
/// about it anew, and whether it is waited for until it can be written, and not read.
pub type Other = (RawFd, u64, bool);

/// What can be done now.
#[derive(Default)]
pub struct Fired {
    /// The lines that can be read or written.
    pub ready: Vec<u64>,
    pub others: HashSet<RawFd>,
    /// Whether there is anything else to do.
    pub is_due: bool,
}

pub(super) struct Watched {
    poll: Poll,
    events: Events,
    others: Vec<Other>,
}

impl Watched {
    /// Nothing yet, and what wakes whoever waits.
    pub fn new() -> io::Result<(Watched, Wake)> {
        let poll = Poll::new()?;
        let waker = Waker::new(poll.registry(), WAKE)?;
        let events = Events::with_capacity(EVENTS);
        let wake: Wake = Arc::new(move || drop(waker.wake()));
        Ok((Watched { poll, events, others: Vec::new() }, wake))
    }

    /// Has the system tell of these that are no lines, and of no others. Some descriptors are a
    /// line's by now.
    pub fn others(
        &mut self,
        others: Vec<Other>,
        is_lines: impl Fn(RawFd) -> bool,
    ) -> io::Result<()> {
        if others == self.others {
            return Ok(());
        }
        let is_gone = |fd: RawFd| others.iter().all(|it| it.0 != fd) && !is_lines(fd);
        // (if one was closed, the system has forgotten it)
        self.stop(self.others.iter().map(|it| it.0).filter(|fd| is_gone(*fd)));
        for (fd, _, writes) in others.iter().filter(|it| !self.others.contains(it)) {
            self.watch(*fd, Token(OTHER | *fd as usize), interest(*writes))?;
        }
        self.others = others;
        Ok(())
    }

    /// Has the system tell of this line once it can be read, or also once it can be written.
    pub fn line(&self, id: u64, fd: RawFd, writes: bool) -> io::Result<()> {
        self.watch(fd, Token(id as usize), Interest::READABLE | interest(writes))
    }

    /// Waits for a descriptor from now on, and at once if it can be read or written already.
    fn watch(&self, fd: RawFd, token: Token, interest: Interest) -> io::Result<()> {
        let (registry, mut it) = (self.poll.registry(), SourceFd(&fd));
        let again = registry.reregister(&mut it, token, interest);
        again.or_else(|_| registry.register(&mut it, token, interest))
    }

    fn stop(&self, all: impl Iterator<Item = RawFd>) {
        all.for_each(|fd| drop(self.poll.registry().deregister(&mut SourceFd(&fd))));
    }

    /// Waits for so long at most: what can be done, and which lines the other end has closed.
    pub fn wait(&mut self, pause: Duration, mut is_closed: impl FnMut(u64)) -> io::Result<Fired> {
        // (rounded up, since the system counts in milliseconds)
        let pause = Duration::from_millis(pause.as_micros().div_ceil(1_000) as u64);
        match self.poll.poll(&mut self.events, Some(pause)) {
            Err(e) if e.kind() != io::ErrorKind::Interrupted => return Err(e),
            _ => (),
        }
        let mut fired = Fired::default();
        for event in &self.events {
            match event.token() {
                Token(line) if line & OTHER == 0 => {
                    if event.is_read_closed() || event.is_error() {
                        is_closed(line as u64);
                    }
                    fired.ready.push(line as u64);
                }
                WAKE => fired.is_due = true,
                Token(other) => drop(fired.others.insert((other & !OTHER) as RawFd)),
            }
        }
        fired.is_due |= !fired.others.is_empty();
        // (of these, all need not be read at once: so the system is asked again)
        for it in self.others.iter_mut().filter(|it| fired.others.contains(&it.0)) {
            it.1 = u64::MAX;
        }
        Ok(fired)
    }

    /// These descriptors are made anew: the system tells nothing of the old ones any more, and what
    /// has their numbers then is waited for.
    pub fn forget(&mut self, old: &[RawFd]) {
        self.stop(old.iter().copied());
        self.others.retain(|it| !old.contains(&it.0));
    }

    /// The same of all that are no lines.
    pub fn forget_all(&mut self) {
        self.stop(self.others.iter().map(|it| it.0));
        self.others.clear();
    }
}

/// Until when something is waited for: until it can be written, or read.
fn interest(writes: bool) -> Interest {
    if writes {
        Interest::WRITABLE
    } else {
        Interest::READABLE
    }
}

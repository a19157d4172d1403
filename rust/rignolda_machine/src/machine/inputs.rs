//! What comes to an agent, what is to be done, and what it has at a start.
use crate::config::Config;
use crate::control::{Request, Response};
use crate::net::{Address, Call, Chunk, End, Turn};
use crate::prelude::*;
use crate::{apply, root, standby, Fact, Sha256, Ticket, Time};
use core::time::Duration;

/// When it is: by a clock that only goes on, and by that of the machine, since 1970.
#[derive(Clone, Copy, Debug)]
pub struct Now {
    pub at: Time,
    pub unix: Duration,
}

impl Now {
    /// The microseconds since 1970.
    pub fn micros(&self) -> u64 {
        self.unix.as_micros() as u64
    }
}

/// What comes to an agent.
#[derive(Debug)]
pub enum Input<'a> {
    /// Somebody connected, by a line of this number.
    Accepted(u64, End),
    /// A call that was to be made has led to a line, or failed: why.
    Called(Call<Address>, Result<(u64, End), String>),
    /// What is known of the other end of a line is this from now on.
    Shown(u64, End),
    /// These bytes came by a line, in whatever pieces.
    Bytes(u64, &'a [u8]),
    /// The system has all that was to be [sent](Act::Send) last on a line.
    Sent(u64),
    /// The other end closed a line, or it broke: why. And it is to be left, and why.
    Over(u64, &'a str),
    Leave(u64, &'a str),
    /// What came of a turn of a store.
    Turned(&'a Address, Result<Vec<Vec<u8>>, String>),
    /// The root's folder may have changed.
    Changed,
    /// What the root's disk did; what that of an agent did that may be promoted; and what was done
    /// about files and hooks.
    Disk(root::Done),
    Stood(standby::Done),
    Applied(usize, apply::Done),
    /// What an operator asks for.
    Asked(Ticket, Request),
    /// The configuration is this one from now on, as far as that may change while it runs.
    Reload(Box<Config>),
    /// Nothing: the time has come that [`Machine::until`](super::Machine::until) named, or some
    /// time went by.
    Tick,
}

/// What is to be done.
#[derive(Debug)]
pub enum Act {
    /// This is to be sent on a line, behind what was to be sent before. Once the system has all of
    /// it, that is an [input](Input::Sent), before any other of that line.
    Send(u64, Chunk),
    /// A line is to be closed, once what was to be sent was written as far as it could be at once.
    Close(u64),
    /// A connection is to be made.
    Call(Call<Address>),
    /// A store is asked for a turn.
    Turn(Address, Turn),
    /// A root begins, which needs a disk: what one was asked for before is forgotten.
    Begins,
    /// What the root's disk is to do, and the others; each in their order.
    Disk(root::Job),
    Stand(standby::Job),
    Apply(usize, apply::Job),
    /// An operator is answered, or is shown what was asked for.
    Answer(Ticket, Response),
    /// A line for the journal: what happened, and its words.
    Fact(Fact),
    /// All connections are new ones from now on: what belongs to the old ones is left.
    Anew,
    /// The shell looks at what it has itself: each second or two.
    Check,
    /// It is to be started again: as the last resort, or since its memory is spoiled, and how that
    /// is seen.
    Restart,
    Fail(&'static str),
}

/// What an agent has of its machine.
#[derive(Clone, Copy, Debug)]
pub struct Host {
    /// A number that nobody can guess: each life of it is drawn from that.
    pub drawn: u64,
    /// How many connections may wait for their hello.
    pub waiting: usize,
    /// After how long it restarts itself, in a trial.
    pub restarts: Option<Duration>,
    /// What makes digests.
    pub sha256: Sha256,
}

impl Host {
    /// The next life, which is another one each time.
    pub(super) fn draws(&mut self) -> u64 {
        self.drawn = self.drawn.wrapping_add(0x9e37_79b9_7f4a_7c15);
        let mixed = (self.drawn ^ self.drawn >> 30).wrapping_mul(0xbf58_476d_1ce4_e5b9);
        let mixed = (mixed ^ mixed >> 27).wrapping_mul(0x94d0_49bb_1331_11eb);
        mixed ^ mixed >> 31
    }
}

/// What an agent finds on its disks when it starts.
#[derive(Debug, Default)]
pub struct Found {
    /// The number of the files, the keys of which hooks are due, and the settings as they were
    /// published.
    pub applied: Option<apply::Found>,
    /// What it is to be, if it may be promoted.
    pub standby: Option<standby::Begun>,
}

rignolda::spoils! { Host { drawn, waiting, restarts } }

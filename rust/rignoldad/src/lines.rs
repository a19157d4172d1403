//! The connections of an agent, as the system has them: which of them can be read or written, what
//! is to be written on each, and which are left since their certificates do not hold any more.
use crate::config::{Address, Config};
use crate::system::{time, unix_now};
use crate::workers::Wake;
use rignolda_machine::machine::{Input, Machine};
use rignolda_machine::net::{Call, Chunk, End, Origin};
use rignolda_machine::Time;
use rignolda_tls::{Caller, Handshakes, Line, Maker, Own};
use rignoldactl::{at, ErrorAt};
use std::collections::{BTreeMap, HashSet};
use std::io;
use std::os::unix::io::RawFd;
use std::time::Duration;

mod held;
mod watched;

use held::{Held, Piece};
use watched::Watched;
pub use watched::{Fired, Other};

/// How many certificates are looked at in one turn.
const LOOKS: usize = 64;
/// How much is read at once: some records of TLS.
const READ_BYTES: usize = 64 << 10;
/// How much is read from one line before the others have their turn.
const TURN_BYTES: usize = 1 << 20;
/// The same in reads, each of which may bring little and take long.
const TURN_READS: usize = 128;
/// How many lines are read in one turn of which nobody knows whose they are: others come first.
const TURN_GREETINGS: usize = 8;
/// The numbers of lines stay below this, of which no process has so many.
const NUMBERS: u64 = 1 << 48;
/// After how long the clock is looked at again at the latest, since it may be set.
const CLOCK: Duration = Duration::from_secs(10);

pub struct Lines {
    watched: Watched,
    held: BTreeMap<u64, Held>,
    /// The number of the last line, and those of which more may be read at once.
    made: u64,
    again: Vec<u64>,
    /// What came of writing: lines on which all is written, and why others are over.
    written: Vec<(u64, io::Result<()>)>,
    /// Where what is read comes first; and the address of that, with each bit turned.
    space: Box<[u8]>,
    not_at: usize,
    /// When the first certificate of a line expires, in seconds since 1970.
    expires: i64,
    /// The lines whose certificates have to be looked at, since the authority may be another one.
    unsure: Vec<u64>,
    handshakes: Handshakes,
    pub maker: Maker,
    caller: Caller,
    wake: Wake,
}

impl Lines {
    /// None yet.
    pub fn new(config: &Config, own: &Own) -> Result<Lines, ErrorAt> {
        let (watched, wake) = Watched::new().map_err(at("poll"))?;
        let handshakes = Handshakes::new(wake.clone());
        let mut lines = Lines {
            maker: maker(config)?.with_handshakes(&handshakes).with_own(own),
            handshakes,
            watched,
            held: BTreeMap::new(),
            made: 0,
            again: Vec::new(),
            written: Vec::new(),
            space: Box::default(),
            not_at: 0,
            expires: i64::MAX,
            unsure: Vec::new(),
            caller: Caller::new(wake.clone()),
            wake,
        };
        lines.make_space();
        Ok(lines)
    }

    /// Makes new space for what is read.
    fn make_space(&mut self) {
        self.space = vec![0; READ_BYTES].into_boxed_slice();
        self.not_at = !(self.space.as_ptr() as usize);
    }

    /// Wakes the loop.
    pub fn wake(&self) -> Wake {
        self.wake.clone()
    }

    /// Waits until something can be done, by that time at the latest. Of those who connected, some
    /// are known, and waited for first.
    pub fn wait(
        &mut self,
        knows: impl Fn(&Origin) -> bool,
        others: Vec<Other>,
        until: Time,
        most: Duration,
    ) -> io::Result<Fired> {
        let now = time();
        self.handshakes.go_on(now, |it| *it == Origin::Own || knows(it));
        let held = &self.held;
        self.watched.others(others, |fd| held.values().any(|it| it.waits_for().0 == fd))?;
        let until = if self.again.is_empty() { until.min(self.deadline(now)) } else { now };
        // (who is woken since that is long ago has a turn, whatever the machine says)
        let until = until.min(now + most);
        let held = &mut self.held;
        let mut fired = self.watched.wait(until - time(), |id| {
            held.get_mut(&id).into_iter().for_each(|it| it.ends = true);
        })?;
        fired.is_due |= time() >= until;
        fired.ready.extend(self.handshakes.ended(time()));
        Ok(fired)
    }

    /// When certificates are to be looked at.
    fn deadline(&self, now: Time) -> Time {
        let expires = u64::try_from(self.expires.saturating_sub(unix_now())).unwrap_or(0);
        // (the clock may be set meanwhile)
        let expires = Duration::from_secs(expires).min(CLOCK);
        if self.unsure.is_empty() {
            now + expires
        } else {
            now
        }
    }

    // ---- What comes, and what is written

    /// Gives a line its number: that, and what is known of the other end.
    pub fn add(&mut self, mut line: Line) -> (u64, End) {
        // (no number is given twice, whatever is remembered of them)
        let last = self.held.keys().next_back().copied();
        self.made = self.made.max(last.unwrap_or(0)) + 1;
        line.is_numbered(self.made);
        let end = line.end();
        self.held.insert(self.made, Held::new(line, end.shown));
        self.watch(self.made);
        (self.made, end)
    }

    /// Has the system tell of this line, if that is to be so in another way than before.
    fn watch(&mut self, id: u64) {
        let Some(held) = self.held.get_mut(&id) else { return };
        let (fd, writes) = held.waits_for();
        if held.watched != Some((fd, writes)) {
            let watched = self.watched.line(id, fd, writes);
            held.watched = watched.ok().map(|()| (fd, writes));
        }
        self.expires = self.expires.min(held.line.expires());
    }

    /// The lines that are read in this turn: those that were put off come first, since else a few
    /// that are always ready would come alone.
    pub fn in_turn(&mut self, ready: &[u64], is_greeting: impl Fn(u64) -> bool) -> Vec<u64> {
        if let ([], [] | [_]) = (&self.again[..], ready) {
            return ready.to_vec();
        }
        let again = std::mem::take(&mut self.again);
        let first: HashSet<u64> = again.iter().copied().collect();
        let others = ready.iter().copied().filter(|id| !first.contains(id));
        let all = again.iter().copied().chain(others);
        let (waiting, mut turn): (Vec<u64>, Vec<u64>) = all.partition(|id| is_greeting(*id));
        let (now, later) = waiting.split_at(waiting.len().min(TURN_GREETINGS));
        turn.extend_from_slice(now);
        self.again.extend_from_slice(later);
        turn
    }

    /// Reads what there is of a line, as long as somebody takes it, and says what came.
    pub fn read(&mut self, id: u64, mut takes: impl FnMut(Input<'_>) -> bool) {
        let Some(held) = self.held.get_mut(&id) else { return };
        let (mut total, mut reads) = (0, 0);
        loop {
            let piece = held.read(&mut self.space);
            if let Some(end) = held.shows() {
                takes(Input::Shown(id, end));
            }
            let (count, is_all) = match piece {
                Piece::Nothing => break,
                Piece::Over(why) => {
                    takes(Input::Over(id, &why));
                    break;
                }
                Piece::Bytes(count, is_all) => (count, is_all),
            };
            if !takes(Input::Bytes(id, &self.space[..count])) || is_all {
                break;
            }
            (total, reads) = (total + count, reads + 1);
            if total >= TURN_BYTES || reads >= TURN_READS {
                // (by TLS, there may be more of which the system knows nothing)
                self.again.push(id);
                break;
            }
        }
        self.watch(id);
    }

    /// Sends this on a line, behind what is to be written already.
    pub fn send(&mut self, id: u64, chunk: Chunk) {
        if let Some(held) = self.held.get_mut(&id) {
            held.says(chunk);
            self.write(id);
        }
    }

    /// Writes what can be written now.
    pub fn write(&mut self, id: u64) {
        if let Some(held) = self.held.get_mut(&id).filter(|it| it.has_output()) {
            self.written.extend(held.write().map(|done| (id, done)));
            self.watch(id);
        }
    }

    /// What came of writing: the lines on which all is written, or why one is over.
    pub fn written(&mut self) -> Vec<(u64, io::Result<()>)> {
        std::mem::take(&mut self.written)
    }

    /// Closes a line.
    pub fn close(&mut self, id: u64) {
        self.held.remove(&id);
    }

    /// All lines are new ones from now on.
    pub fn begin_anew(&mut self) {
        (self.held, self.expires) = (BTreeMap::new(), i64::MAX);
        self.unsure.clear();
        self.again.clear();
        // (a descriptor that is made now may have the number of one that ends now)
        self.watched.forget_all();
        self.caller = Caller::new(self.wake.clone());
    }

    // ---- Certificates, and what a fault of the memory may change

    /// The lines that are to be left now, and why: one of whose ends has a certificate that has
    /// expired, or is of no authority any more. Of these some are looked at in a turn.
    pub fn left(&mut self) -> Vec<(u64, String)> {
        let (time, mut left) = (unix_now(), Vec::new());
        if self.expires <= time {
            let over = self.held.iter().filter(|(_, it)| it.line.expires() <= time);
            let why = "a certificate, of it or of this agent, has expired";
            left.extend(over.map(|(id, _)| (*id, why.into())));
            // (of the others it is known at the next look)
            self.expires = i64::MAX;
        }
        let later = self.unsure.len().saturating_sub(LOOKS);
        for id in self.unsure.split_off(later) {
            let holds = self.held.get(&id).map_or(Ok(()), |it| it.line.holds(&self.maker));
            left.extend(holds.err().map(|why| (id, why)));
        }
        left
    }

    /// Looks at all lines again: those that the machine does not know are closed, and what it has
    /// to know of the others comes out.
    pub fn look_again(&mut self, machine: &Machine) -> Vec<Input<'static>> {
        // (into a spoiled one nothing could be read)
        if (self.space.len(), self.space.as_ptr() as usize) != (READ_BYTES, !self.not_at) {
            self.make_space();
        }
        self.expires = i64::MAX;
        self.held.retain(|id, _| machine.peers.has_line(*id));
        let mut inputs = Vec::new();
        for id in machine.peers.lines() {
            match self.held.get(&id) {
                None => inputs.push(Input::Over(id, "it is not there")),
                Some(held) if !held.has_output() && machine.peers.sends(id) => {
                    inputs.push(Input::Sent(id));
                }
                Some(_) => (),
            }
        }
        for id in self.held.keys().copied().collect::<Vec<_>>() {
            self.watch(id);
        }
        inputs
    }

    /// What cannot be, if something cannot.
    pub fn fault(&self) -> Option<&'static str> {
        (self.made >= NUMBERS).then_some("it had too many connections")
    }

    /// Makes lines by another configuration from now on; those that there are may not hold by it.
    pub fn reload(&mut self, maker: Maker) {
        self.maker = maker.with_handshakes(&self.handshakes).with_own(self.maker.own());
        self.unsure = self.held.keys().copied().collect();
    }

    /// These descriptors are made anew: the system tells nothing of the old ones any more, and what
    /// has their numbers then is waited for.
    pub fn forget(&mut self, old: &[RawFd]) {
        self.watched.forget(old);
    }

    // ---- Calls

    /// Makes a connection: what came of it, if that is known already.
    pub fn call(&mut self, call: Call<Address>) -> Option<Input<'static>> {
        let called = self.caller.call(call, &self.maker)?;
        Some(self.led_to(called))
    }

    /// What came of connections whose names were looked up.
    pub fn called(&mut self) -> Vec<Input<'static>> {
        let found: Vec<_> = std::iter::from_fn(|| self.caller.found(&self.maker)).collect();
        found.into_iter().map(|it| self.led_to(it)).collect()
    }

    fn led_to(&mut self, (call, line): (Call<Address>, io::Result<Line>)) -> Input<'static> {
        let made = line.map(|line| self.add(line)).map_err(|why| why.to_string());
        Input::Called(call, made)
    }

    /// Whether a name is looked up for a connection, or was, and nobody took up what came of it.
    pub fn looks_up(&self) -> bool {
        self.caller.looks_up()
    }
}

/// How long another machine may be silent before it counts as gone.
pub fn silence(config: &Config) -> Duration {
    (config.agent.peers.ack_timeout * 5).max(Duration::from_secs(5))
}

/// What makes lines by a configuration.
pub fn maker(config: &Config) -> Result<Maker, ErrorAt> {
    let (name, tls) = (&config.agent.peers.name, config.tls.as_ref());
    let maker = Maker::new(tls, silence(config)).map_err(at("tls"))?;
    if maker.names().is_some_and(|all| !all.contains(name)) {
        crate::fact!("certificate", "no DNS name of its SAN is `{name}`: others refuse this agent");
    }
    Ok(maker)
}

#[cfg(test)]
mod tests {
    use super::*;
    use rignolda_machine::net::Whom;
    use std::os::unix::net::UnixListener;

    /// After a fault of the memory; else they are counted from 1.
    #[test]
    fn no_line_has_a_number_that_another_one_has_or_that_is_none() {
        let config =
            Config::parse("name = \"a\"\nlisten = [\"127.0.0.1:7464\"]\nparents = [\"b\"]");
        let config = config.unwrap();
        let path = std::env::temp_dir().join(format!("rignoldad-numbers-{}", std::process::id()));
        let _ = std::fs::remove_file(&path);
        let listener = UnixListener::bind(&path).unwrap();
        let address = Address::Unix(path.display().to_string());
        let mut lines = Lines::new(&config, &Own::default()).unwrap();
        let add = |lines: &mut Lines| {
            let call = Call { whom: Whom::Parent, address: address.clone(), failed: 0 };
            assert!(matches!(lines.call(call), Some(Input::Called(_, Ok(_)))));
        };
        (0..9).for_each(|_| add(&mut lines));
        for spoiled in [0, 1, 2, 8] {
            lines.made = spoiled;
            let (before, last) = (lines.held.len(), lines.held.keys().last().copied());
            add(&mut lines);
            assert_eq!(lines.held.len(), before + 1, "one took the place of another");
            assert!(lines.held.keys().last().copied() > last && lines.fault().is_none());
        }
        for bit in [48, 62, 63] {
            lines.made |= 1 << bit;
            assert!(lines.fault().is_some(), "{bit}");
        }
        drop(listener);
        std::fs::remove_file(path).unwrap();
    }
}

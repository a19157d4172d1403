//! The shell of an agent in a trial: it reads and writes lines, and does what comes out.
use super::Told;
use rignolda_machine::net::{
    Body, Call, ChildError, Chunk, End, Fault, Output, Peers, Setup, Turn,
};
use rignolda_machine::Time;
use std::collections::{BTreeMap, VecDeque};
use std::io::{self, ErrorKind, Read, Write};
use std::sync::Arc;

/// How often one line is read before the others have their turn.
const READS: usize = 128;

/// A line of a trial: what is known of the other end, and whether a read that does not fill its
/// room has taken all.
pub trait Line: Read + Write {
    fn end(&self) -> End {
        End { place: "somewhere".into(), ..End::default() }
    }

    fn is_socket(&self) -> bool {
        false
    }
}

/// A line, and what is to be written on it.
pub struct Held<L> {
    pub line: L,
    end: End,
    chunks: VecDeque<Chunk>,
    done: usize,
    /// Whether the other end has closed it, behind what can be read.
    pub ends: bool,
}

impl<L: Line> Held<L> {
    /// Whether something is to be written.
    pub fn has_output(&self) -> bool {
        !self.chunks.is_empty()
    }

    /// Writes what can be written: nothing if more is to be written later.
    fn write(&mut self) -> Option<io::Result<()>> {
        while let Some(chunk) = self.chunks.front() {
            let [first, second] = chunk.from(self.done);
            let left = if first.is_empty() { second } else { first };
            match if left.is_empty() { Ok(0) } else { self.line.write(left) } {
                Ok(0) => {
                    self.chunks.pop_front();
                    self.done = 0;
                }
                Ok(count) => self.done += count,
                Err(why) if why.kind() == ErrorKind::WouldBlock => return None,
                Err(why) => return Some(Err(why)),
            }
        }
        Some(Ok(()))
    }
}

/// An agent with its lines, and who is told what came.
pub struct Shell<L, T> {
    pub peers: Peers<String>,
    pub said: T,
    pub lines: BTreeMap<u64, Held<L>>,
    made: u64,
    /// The lines of which there is more to be read.
    pub again: Vec<u64>,
}

impl<L: Line, T: Told> Shell<L, T> {
    pub fn new(peers: Peers<String>, said: T) -> Shell<L, T> {
        Shell { peers, said, lines: BTreeMap::new(), made: 0, again: Vec::new() }
    }

    fn add(&mut self, line: L) -> (u64, End) {
        self.made += 1;
        let end = line.end();
        let held = Held { line, end: end.clone(), chunks: VecDeque::new(), done: 0, ends: false };
        self.lines.insert(self.made, held);
        (self.made, end)
    }

    /// Does what comes out, and what follows from that.
    pub fn acts(&mut self, now: Time) {
        while let Some(output) = self.peers.output() {
            match output {
                Output::Item(body) => {
                    let is_table = self.said.item(&body);
                    self.peers.takes(is_table, now);
                }
                Output::Send(id, chunk) => {
                    if let Some(held) = self.lines.get_mut(&id) {
                        held.chunks.push_back(chunk);
                        self.write_one(id, now);
                    }
                }
                Output::Close(id) => drop(self.lines.remove(&id)),
                output => self.said.told(output),
            }
        }
    }

    fn write_one(&mut self, id: u64, now: Time) {
        let held = self.lines.get_mut(&id).filter(|it| it.has_output());
        match held.and_then(Held::write) {
            Some(Ok(())) => self.peers.sent(id, now),
            Some(Err(why)) => self.peers.over(id, &why.to_string(), now),
            None => (),
        }
    }

    pub fn accept(&mut self, line: L, now: Time) {
        let (id, end) = self.add(line);
        self.peers.accept(id, end, now);
        self.acts(now);
    }

    pub fn called(&mut self, call: Call<String>, line: io::Result<L>, now: Time) {
        let made = line.map(|line| self.add(line)).map_err(|why| why.to_string());
        self.peers.called(call, made, now);
        self.acts(now);
    }

    /// Reads these lines, and those of which there was more; and writes them.
    pub fn read(&mut self, ids: impl IntoIterator<Item = u64>, now: Time) {
        let mut all: Vec<u64> = std::mem::take(&mut self.again);
        all.extend(ids);
        for id in all {
            self.read_one(id, now);
            self.write_one(id, now);
            self.acts(now);
        }
    }

    fn read_one(&mut self, id: u64, now: Time) {
        let mut space = [0; 16 << 10];
        for _ in 0..READS {
            let Some(held) = self.lines.get_mut(&id) else { return };
            let read = held.line.read(&mut space);
            let end = held.line.end();
            if end != held.end {
                held.end = end.clone();
                self.peers.shows(id, end);
            }
            match read {
                Ok(0) => return self.peers.over(id, "the other end closed it", now),
                Ok(count) => {
                    let is_all = count < space.len() && !held.ends && held.line.is_socket();
                    self.peers.bytes(id, &space[..count], now);
                    self.acts(now);
                    if is_all {
                        return;
                    }
                }
                Err(why) if why.kind() == ErrorKind::WouldBlock => return,
                Err(why) => return self.peers.over(id, &why.to_string(), now),
            }
        }
        self.again.push(id);
    }

    pub fn read_all(&mut self, now: Time) {
        let ids: Vec<u64> = self.lines.keys().copied().collect();
        self.read(ids, now);
    }

    pub fn tick(&mut self, now: Time) {
        self.peers.tick(now);
        self.acts(now);
    }

    pub fn next_call(&mut self, now: Time) -> Option<Call<String>> {
        let call = self.peers.next_call(now);
        self.acts(now);
        call
    }

    pub fn turns(&mut self, now: Time) -> Vec<(String, Turn)> {
        let turns = self.peers.turns(now);
        self.acts(now);
        turns
    }

    pub fn turned(&mut self, store: &str, got: Result<Vec<Vec<u8>>, String>, now: Time) {
        self.peers.turned(&store.into(), got, now);
        self.acts(now);
    }

    pub fn publish(&mut self, body: &Arc<Body>, now: Time) {
        self.peers.publish(body, now);
        self.acts(now);
    }

    pub fn close(&mut self, id: u64, why: &str, now: Time) {
        self.peers.close(id, why, now);
        self.acts(now);
    }

    pub fn set_up(&mut self, setup: Setup<String>, now: Time) {
        self.peers.set_up(setup, now);
        self.acts(now);
    }

    pub fn remove(&mut self, name: &str, now: Time) -> Result<(), ChildError> {
        let removed = self.peers.remove(name, now);
        self.acts(now);
        removed
    }

    pub fn report(&mut self, report: &[u8], now: Time) -> bool {
        let is_taken = self.peers.report(report);
        self.acts(now);
        is_taken
    }

    pub fn request_report(&mut self, child: &str, now: Time) {
        self.peers.request_report(child);
        self.acts(now);
    }

    pub fn check(&mut self, looks_up: bool, now: Time) -> Result<(), Fault> {
        let checked = self.peers.check(looks_up, now);
        self.acts(now);
        checked
    }

    /// When there is something to do although nothing comes.
    pub fn deadline(&self, now: Time) -> Option<Time> {
        if self.again.is_empty() {
            self.peers.deadline()
        } else {
            Some(now)
        }
    }
}

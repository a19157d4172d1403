//! Lines in memory. What is written comes in drawn pieces after drawn times; a line fills up, falls
//! silent, or breaks and loses what is under way.
use crate::random::Random;
use rignolda_machine::net::wire::OLD;
use rignolda_machine::net::Chunk;
use std::cell::{Cell, RefCell};
use std::collections::VecDeque;
use std::io::{self, ErrorKind, Read, Write};
use std::rc::Rc;

/// How a look begins.
const LOOK: &[u8] = b"RGNL";
/// How many bytes a line takes before somebody reads, by how it was drawn; and the least that one
/// takes which is slow, so that it carries what a line has to carry.
const ROOMS: [usize; 4] = [100, 1_000, 16_000, 200_000];
const SLOW_ROOM: usize = 16_000;
/// The most that one read brings of a line that is no socket.
const PIECE: u64 = 2_000;

/// The clock of all, in milliseconds; and which agents are to be woken when.
#[derive(Debug, Default)]
pub struct Clock {
    now: Cell<u64>,
    wakes: RefCell<Vec<(u64, usize)>>,
}

impl Clock {
    pub fn now(&self) -> u64 {
        self.now.get()
    }

    /// It is this time from now on.
    pub fn set(&self, now: u64) {
        self.now.set(now);
    }

    /// An agent is to be woken then.
    pub fn wake(&self, at: u64, agent: usize) {
        self.wakes.borrow_mut().push((at, agent));
    }

    /// What was to be woken since this was asked last.
    pub fn wakes(&self) -> Vec<(u64, usize)> {
        self.wakes.take()
    }
}

/// A part of what was written: when it comes, and its bytes that were not read.
type Piece = (u64, VecDeque<u8>);

/// One direction of a line.
struct Pipe {
    pieces: VecDeque<Piece>,
    /// How many bytes are under way, and how many may be.
    length: usize,
    room: usize,
    /// How long a piece takes, and how much longer some take.
    delay: u64,
    jitter: u64,
    /// When its reader comes to its end; and whether nobody reads it any more.
    end: Option<u64>,
    is_left: bool,
    /// Whether nothing comes any more, and nobody is told.
    is_silent: bool,
    /// Whether its writer waits until it has room; and whether it has, which nobody told it yet.
    is_full: bool,
    has_room: bool,
    reader: usize,
    writer: usize,
    random: Random,
}

impl Pipe {
    /// When what is written now comes.
    fn comes(&mut self, now: u64) -> u64 {
        let last = self.pieces.back().map_or(0, |it| it.0);
        last.max(now + self.delay + self.random.below(self.jitter + 1))
    }

    fn has_come(&self, now: u64) -> bool {
        let first = self.pieces.front().map(|it| it.0);
        first.or(self.end).is_some_and(|at| at <= now)
    }

    /// It breaks: so many pieces of what is under way are still to be read.
    fn breaks(&mut self, keeps: usize, now: u64) {
        self.pieces.truncate(keeps);
        self.pieces.iter_mut().for_each(|it| it.0 = now);
        self.length = self.pieces.iter().map(|it| it.1.len()).sum();
        (self.end, self.is_left) = (Some(now), true);
    }
}

/// An end of a line.
pub struct End {
    is_socket: bool,
    clock: Rc<Clock>,
    from: Rc<RefCell<Pipe>>,
    to: Rc<RefCell<Pipe>>,
}

/// A line between these agents, as it is drawn: slow by so many milliseconds at most.
pub fn line(clock: &Rc<Clock>, ends: [usize; 2], slow: u64, mut random: Random) -> [End; 2] {
    let mut pipe = |reader: usize, writer: usize| {
        let least = if slow == 0 { 0 } else { SLOW_ROOM };
        let (delay, room) = (random.below(slow + 1), random.of(&ROOMS).max(least));
        let jitter = random.of(&[0, 0, slow / 2, slow]);
        let stream = Random::new(random.number(), "pipe", 0);
        Rc::new(RefCell::new(Pipe {
            pieces: VecDeque::new(),
            length: 0,
            room,
            delay,
            jitter,
            end: None,
            is_left: false,
            is_silent: false,
            is_full: false,
            has_room: false,
            reader,
            writer,
            random: stream,
        }))
    };
    let [one, two] = ends;
    let (to_one, to_two) = (pipe(one, two), pipe(two, one));
    let mut end = |from: &Rc<_>, to: &Rc<_>| End {
        is_socket: random.once_in(2),
        clock: clock.clone(),
        from: Rc::clone(from),
        to: Rc::clone(to),
    };
    [end(&to_one, &to_two), end(&to_two, &to_one)]
}

impl End {
    /// Which agent is at the other end.
    pub fn from(&self) -> usize {
        self.from.borrow().writer
    }

    /// Whether it can be read, or there is room again to write to it.
    pub fn is_ready(&self) -> bool {
        let (now, mut to) = (self.clock.now(), self.to.borrow_mut());
        std::mem::take(&mut to.has_room) || to.is_left || self.from.borrow().has_come(now)
    }

    /// Whether the other end has closed it.
    pub fn is_over(&self) -> bool {
        self.from.borrow().end.is_some_and(|at| at <= self.clock.now())
    }

    /// It breaks, with so many pieces of each direction still to be read.
    pub fn breaks(&self, keeps: [usize; 2]) {
        let now = self.clock.now();
        for (pipe, keeps) in [&self.from, &self.to].into_iter().zip(keeps) {
            let mut pipe = pipe.borrow_mut();
            pipe.breaks(keeps, now);
            self.clock.wake(now, pipe.reader);
            self.clock.wake(now, pipe.writer);
        }
    }

    /// The other end leaves without a word, whatever it is told.
    fn is_left(&self) {
        self.falls_silent(true);
        for pipe in [&self.from, &self.to] {
            let mut pipe = pipe.borrow_mut();
            let at = self.clock.now() + pipe.delay;
            pipe.end = Some(at);
            self.clock.wake(at, pipe.reader);
        }
    }

    /// Nothing comes by it any more; and nothing goes either, if both directions are meant.
    pub fn falls_silent(&self, both: bool) {
        self.from.borrow_mut().is_silent = true;
        self.to.borrow_mut().is_silent |= both;
    }

    /// Nothing that this end says comes any more, as when its machine has no power.
    pub fn is_cut_off(&self) {
        self.to.borrow_mut().is_silent = true;
    }

    /// What comes takes so long from now on.
    pub fn slows(&self, delay: u64) {
        self.from.borrow_mut().delay = delay;
    }

    /// It is as it was drawn at most from now on: no slower than this.
    pub fn recovers(&self, most: u64) {
        let mut from = self.from.borrow_mut();
        (from.delay, from.jitter) = (from.delay.min(most), from.jitter.min(most));
    }
}

impl Read for End {
    fn read(&mut self, to: &mut [u8]) -> io::Result<usize> {
        let (mut from, now) = (self.from.borrow_mut(), self.clock.now());
        let most = if self.is_socket { u64::MAX } else { 1 + from.random.below(PIECE) };
        let most = to.len().min(usize::try_from(most).unwrap_or(usize::MAX));
        let mut count = 0;
        while count < most {
            let Some((_, bytes)) = from.pieces.front_mut().filter(|it| it.0 <= now) else {
                break;
            };
            count += bytes.read(&mut to[count..most])?;
            if bytes.is_empty() {
                from.pieces.pop_front();
            }
        }
        if count == 0 && from.end.is_none_or(|at| at > now) {
            return Err(ErrorKind::WouldBlock.into());
        }
        from.length -= count;
        if count > 0 && std::mem::take(&mut from.is_full) {
            from.has_room = true;
            self.clock.wake(now + from.delay.max(1), from.writer);
        }
        if count > 0 && from.has_come(now) {
            self.clock.wake(now, from.reader);
        }
        Ok(count)
    }
}

impl Write for End {
    fn write(&mut self, bytes: &[u8]) -> io::Result<usize> {
        let (mut to, now) = (self.to.borrow_mut(), self.clock.now());
        if to.is_left {
            return Err(ErrorKind::BrokenPipe.into());
        }
        let count = bytes.len().min(to.room.saturating_sub(to.length));
        if count == 0 {
            to.is_full = true;
            return Err(ErrorKind::WouldBlock.into());
        }
        to.length += count;
        let mut left = if to.is_silent { &[][..] } else { &bytes[..count] };
        while !left.is_empty() {
            let whole = !to.random.once_in(4);
            let length = if whole { left.len() } else { 1 + to.random.at(left.len()) };
            let (piece, rest) = left.split_at(length);
            let at = to.comes(now);
            to.pieces.push_back((at, piece.iter().copied().collect()));
            self.clock.wake(at, to.reader);
            left = rest;
        }
        Ok(count)
    }

    fn flush(&mut self) -> io::Result<()> {
        Ok(())
    }
}

impl Drop for End {
    fn drop(&mut self) {
        let (now, mut to) = (self.clock.now(), self.to.borrow_mut());
        if !to.is_silent {
            let at = to.pieces.back().map_or(0, |it| it.0).max(now + to.delay);
            to.end = to.end.or(Some(at));
            self.clock.wake(at, to.reader);
        }
        let mut from = self.from.borrow_mut();
        from.is_left = true;
        self.clock.wake(now + 1, from.writer);
    }
}

/// A line of an agent, and what is to be written on it.
pub struct Held {
    pub end: End,
    /// Whether its agent was told that the other end has closed it.
    pub is_told: bool,
    /// Which version of the protocol an end speaks at most, until it has said its hello.
    speaks: Option<u8>,
    chunks: VecDeque<Chunk>,
    done: usize,
}

impl Held {
    pub fn new(end: End, speaks: u8) -> Held {
        let chunks = VecDeque::new();
        Held { end, is_told: false, speaks: Some(speaks), chunks, done: 0 }
    }

    /// This is to be written behind what is to be written already.
    pub fn says(&mut self, mut chunk: Chunk) {
        if let (Some(version), Chunk::Bytes(bytes)) = (self.speaks.take(), &mut chunk) {
            if version == OLD && (bytes.starts_with(LOOK) || bytes.get(4) != Some(&OLD)) {
                // (such an end leaves without a word who says anything newer)
                self.end.is_left();
                bytes.clear();
            }
            says_at_most(version, bytes);
        }
        self.chunks.push_back(chunk);
    }

    /// Whether something is to be written.
    pub fn has_output(&self) -> bool {
        !self.chunks.is_empty()
    }

    /// Writes what it can: nothing if more is to be written later, and an error if it is over.
    pub fn write(&mut self) -> Option<io::Result<()>> {
        while let Some(chunk) = self.chunks.front() {
            let [first, second] = chunk.from(self.done);
            let left = if first.is_empty() { second } else { first };
            match if left.is_empty() { Ok(0) } else { self.end.write(left) } {
                Ok(0) => {
                    self.chunks.pop_front();
                    self.done = 0;
                }
                Ok(count) => self.done += count,
                Err(why) if why.kind() == ErrorKind::WouldBlock => return None,
                Err(why) => return Some(Err(why)),
            }
        }
        Some(Ok(()))
    }
}

/// A hello or a look as an end says it that speaks this version of the protocol at most: it names
/// it, and no newer one in its range. (Of version 2, none has a range.)
fn says_at_most(version: u8, hello: &mut [u8]) {
    if let [_, _, _, _, own, _, _, _, _, _, _, _, _, oldest, newest, ..] = hello {
        *own = version.min(*own);
        if *oldest > 0 {
            *newest = version.min(*newest);
            (*oldest, *newest) = if version > 2 { (*oldest, *newest) } else { (0, 0) };
        }
    }
}

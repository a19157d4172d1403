//! One line, and what is to be written on it.
use rignolda_machine::net::{Chunk, End, Shown};
use rignolda_tls::Line;
use std::collections::VecDeque;
use std::io::{ErrorKind, IoSlice, Read, Write};
use std::os::unix::io::{AsRawFd, RawFd};
use std::{io, mem};

/// Up to this length a body goes with its head if a line takes one of them alone.
const JOINED: usize = 16 << 10;

/// What a read brought.
pub enum Piece {
    Nothing,
    /// So many bytes; and whether these are all that there were.
    Bytes(usize, bool),
    /// Nothing comes any more: why.
    Over(String),
}

pub struct Held {
    pub line: Line,
    /// How much the other end had shown when that was told.
    shown: Shown,
    /// What is to be written, and how much of the first part is.
    chunks: VecDeque<Chunk>,
    done: usize,
    /// Of what the system tells: the descriptor, and whether it is waited for until that can be
    /// written too.
    pub watched: Option<(RawFd, bool)>,
    /// Whether the other end has closed it, behind what can be read.
    pub ends: bool,
}

impl Held {
    /// One on which nothing is to be written.
    pub fn new(line: Line, shown: Shown) -> Held {
        Held { line, shown, chunks: VecDeque::new(), done: 0, watched: None, ends: false }
    }

    /// The descriptor, and whether the line is waited for until that can be written too.
    pub fn waits_for(&self) -> (RawFd, bool) {
        (self.line.as_raw_fd(), self.line.wants_write(self.has_output()))
    }

    /// What is known of the other end, if it has shown something else.
    pub fn shows(&mut self) -> Option<End> {
        let shown = self.line.shown();
        (mem::replace(&mut self.shown, shown) != shown).then(|| self.line.end())
    }

    /// Reads once.
    pub fn read(&mut self, space: &mut [u8]) -> Piece {
        loop {
            match self.line.read(space) {
                Ok(0) => return Piece::Over("the other end closed it".into()),
                Ok(count) => {
                    let is_all = count < space.len() && !self.ends && self.line.is_socket();
                    return Piece::Bytes(count, is_all);
                }
                Err(e) if e.kind() == ErrorKind::WouldBlock => return Piece::Nothing,
                Err(e) if e.kind() == ErrorKind::Interrupted => (),
                Err(e) => return Piece::Over(e.to_string()),
            }
        }
    }

    /// Whether something is to be written.
    pub fn has_output(&self) -> bool {
        !self.chunks.is_empty()
    }

    /// This is to be written behind what is to be written already.
    pub fn says(&mut self, chunk: Chunk) {
        self.chunks.push_back(match chunk {
            Chunk::Frame(head, body) if !self.line.is_socket() && body.bytes.len() <= JOINED => {
                Chunk::Bytes([&head, &*body.bytes].concat())
            }
            chunk => chunk,
        });
    }

    /// Writes what can be written now: nothing if more is to be written later, and an error if the
    /// line is over.
    pub fn write(&mut self) -> Option<io::Result<()>> {
        while let Some(chunk) = self.chunks.front() {
            let done = match chunk.from(self.done) {
                [&[], &[]] => {
                    self.chunks.pop_front();
                    self.done = 0;
                    continue;
                }
                [&[], left] | [left, &[]] => self.line.write(left),
                both => self.line.write_vectored(&both.map(IoSlice::new)),
            };
            match done {
                Ok(0) => return Some(Err(io::Error::other("it takes nothing"))),
                Ok(count) => self.done += count,
                Err(e) if e.kind() == ErrorKind::WouldBlock => return None,
                Err(e) if e.kind() == ErrorKind::Interrupted => (),
                Err(e) => return Some(Err(e)),
            }
        }
        Some(Ok(()))
    }
}

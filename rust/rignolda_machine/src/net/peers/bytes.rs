//! What comes by lines, and what is sent on them.
use super::connection::{Chunk, Conn, End, State};
use super::{Output, Peers, Result};
use crate::net::wire::{self, Expect};
use crate::net::Origin;
use crate::prelude::*;
use crate::Time;
use alloc::sync::Arc;
use core::{fmt, mem};

/// How many messages wait at most on a connection that brings more.
const UNREAD: usize = 16;

impl<A: Clone + PartialEq + fmt::Display> Peers<A> {
    pub(super) fn send(&mut self, id: u64, bytes: Vec<u8>) {
        self.says(id, Chunk::Bytes(bytes));
    }

    /// This is to be sent behind all that is to be sent already.
    pub(super) fn says(&mut self, id: u64, chunk: Chunk) {
        if let Some(conn) = self.conns.get_mut(&id) {
            conn.says(chunk);
            self.sends_next(id);
        }
    }

    fn sends_next(&mut self, id: u64) {
        let chunk = self.conns.get_mut(&id).and_then(Conn::next_chunk);
        self.outputs.extend(chunk.map(|it| Output::Send(id, it)));
    }

    /// This is to be sent behind all that is to be sent already, at the end of a connection.
    pub(super) fn sends_last(&mut self, id: u64, bytes: Vec<u8>) {
        self.send(id, bytes);
        self.sends_all(id);
    }

    /// All that is to be sent is sent at once, since the connection ends.
    pub(super) fn sends_all(&mut self, id: u64) {
        let chunks = self.conns.get_mut(&id).map(Conn::last_chunks).unwrap_or_default();
        self.outputs.extend(chunks.into_iter().map(|it| Output::Send(id, it)));
    }

    /// Says the own way on each connection of which this holds.
    pub(super) fn say_ways(&mut self, to: impl Fn(&Conn) -> bool) {
        let all = self.all_that(to);
        if !all.is_empty() {
            let way: Arc<[u8]> = wire::way(self.parents.says()).into();
            all.into_iter().for_each(|id| self.says(id, Chunk::Way(way.clone())));
        }
    }

    /// What is known of the other end of this line is this from now on.
    pub fn shows(&mut self, id: u64, end: End) {
        self.conn_with(id, |conn| conn.end = end);
    }

    /// The system has all that was to be [sent](Output::Send) last on this line.
    pub fn sent(&mut self, id: u64, now: Time) {
        if self.comes_of(id, now) {
            self.conn_with(id, Conn::sent);
            self.sends_next(id);
        }
    }

    /// These bytes came by this line: each whole message is handled. How they were cut into pieces
    /// makes no difference.
    pub fn bytes(&mut self, id: u64, bytes: &[u8], now: Time) {
        if self.comes_of(id, now) && !bytes.is_empty() {
            self.conn_with(id, |conn| conn.came(bytes));
            self.handles(id);
            self.tell();
        }
    }

    /// The other end has closed this line, or it broke: why. All that came by it was told before.
    pub fn over(&mut self, id: u64, why: &str, now: Time) {
        if self.comes_of(id, now) {
            self.is_over(id, why);
            self.tell();
        }
    }

    fn is_over(&mut self, id: u64, why: &str) {
        self.conn_with(id, Conn::was_closed);
        let refusal = self.conns.get(&id).and_then(Conn::refused);
        match refusal {
            Some(it) => self.leave_line(id, &it.to_string()),
            None => self.leave_line(id, why),
        }
    }

    /// Handles what a connection brought, up to an item that is to be taken first.
    pub(super) fn handles(&mut self, id: u64) {
        if let Err(why) = self.messages(id) {
            self.is_over(id, &why);
        }
    }

    /// Handles each whole message that a connection brought.
    fn messages(&mut self, id: u64) -> Result {
        while let Some(conn) = self.conns.get_mut(&id) {
            // (an item is to be taken before another one)
            if self.brings && self.above == Some(id) {
                break;
            }
            if conn.unsent() >= UNREAD {
                return Err("it reads nothing".into());
            }
            if !mem::replace(&mut conn.has_said, true) && conn.end.origin != Origin::Own {
                self.fails = None;
                self.answers += u64::from(matches!(conn.state, State::Looks(..)));
            }
            let expect = conn.expects();
            let message = conn.next(expect).map_err(|why| why.to_string())?;
            match (expect, &message) {
                (Expect::Frames, Some(_)) => conn.is_alive(self.now),
                (Expect::Frames, None) => conn.waits_for_rest(self.now),
                _ => (),
            }
            match message {
                Some(message) => self.message(id, message)?,
                None => break,
            }
        }
        Ok(())
    }
}

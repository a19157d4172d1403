//! One connection: what it is for, what comes and what is to be sent.
use super::{Result, Whom};
use crate::net::parents::SILENCE;
use crate::net::wire::{self, Expect, Hello, Message, WireError, FIRST, FRAME_HEAD, OLD};
use crate::net::{Body, Origin, Refusal, Shown};
use crate::prelude::*;
use crate::Time;
use alloc::collections::VecDeque;
use alloc::sync::Arc;
use core::time::Duration;
use rignolda::Connection;

/// The slowest line on which a body counts as under way, in bytes a second.
const SLOWEST: u64 = 64 << 10;
/// A body that is longer than this goes to its place as it comes.
const LONG: usize = 16 << 10;
/// Up to this length a body is copied behind its head.
const JOINED: usize = 64;

/// What is known of the other end of a line.
#[derive(Clone, Debug, Default, PartialEq, Eq)]
pub struct End {
    /// Where it is, and who, as far as that is known: for the journal.
    pub place: String,
    /// Where it is: of those whose hello has not come, each origin drives out its own.
    pub origin: Origin,
    /// How much it has shown of who it is.
    pub shown: Shown,
    /// The names that it may have, by its certificate: none before that was verified. Without
    /// certificates nothing is here, and it may have any.
    pub names: Option<Vec<String>>,
}

impl End {
    /// Whether it may have this name.
    pub fn may_be(&self, name: &str) -> bool {
        self.names.as_ref().is_none_or(|all| all.iter().any(|it| it == name))
    }
}

/// What a connection is for.
#[derive(Clone)]
pub(super) enum State {
    /// It was accepted, and nobody knows whose it is.
    Accepted,
    /// It was accepted, and a look was answered. The other end goes on with a hello, or closes it.
    Answered,
    /// The parent at this place has made it, and its way is to come.
    Comes(usize, Hello),
    /// By it the parent at this place is looked at for this call; and the rank that its hello told,
    /// once it has come.
    Looks(Whom, usize, Option<u64>),
    /// It is one of the link with this end, whose hello came then or is to come.
    Link(Whom, Connection, Option<Time>),
}

pub(super) struct Conn {
    pub(super) end: End,
    pub(super) since: Time,
    pub(super) state: State,
    pub(super) input: Vec<u8>,
    /// The body that comes.
    pub(super) part: Option<Part>,
    /// What is to be sent after what is sent now, and whether that answers the other end.
    output: VecDeque<Chunk>,
    sends: Option<bool>,
    /// When it is closed, unless what it waits for comes; and whether that is for the length of a
    /// frame that is under way.
    pub(super) until: Option<Time>,
    pub(super) is_timed: bool,
    /// Which version is spoken, as far as is known; whether the frame to a child that is under way
    /// only refers to its body; whether the other end has said anything; and whether it left
    /// without a word.
    pub(super) version: u8,
    pub(super) refers: bool,
    pub(super) has_said: bool,
    pub(super) is_mute: bool,
    /// The name that its hello had, right or not, in words.
    pub(super) says: String,
    /// Why this end refuses the other one, or the other one this.
    pub(super) refusal: Option<Refusal>,
}

impl Conn {
    /// One on which nothing has travelled.
    pub(super) fn new(end: End, state: State, now: Time, until: Time) -> Conn {
        Conn {
            end,
            since: now,
            state,
            input: Vec::new(),
            part: None,
            output: VecDeque::new(),
            sends: None,
            until: Some(until),
            is_timed: false,
            version: FIRST,
            refers: false,
            has_said: false,
            is_mute: false,
            says: String::new(),
            refusal: None,
        }
    }

    /// Whether the other end knows no ways.
    pub(super) fn is_old(&self) -> bool {
        self.version == OLD
    }

    /// Whether it was accepted, and nobody knows whose it is.
    pub(super) fn is_greeting(&self) -> bool {
        !matches!(self.state, State::Looks(..) | State::Link(..))
    }

    /// The other end, where it is one of a link.
    pub(super) fn link(&self) -> Option<(Whom, Connection)> {
        match &self.state {
            State::Link(whom, number, _) => Some((whom.clone(), *number)),
            _ => None,
        }
    }

    /// Since when it is one of a link whose hello has come.
    pub(super) fn greeted(&self) -> Option<Time> {
        match self.state {
            State::Link(_, _, since) => since,
            _ => None,
        }
    }

    // ---- What is to be sent

    /// Whether something is to be sent, or is not with the system yet.
    pub(super) fn has_output(&self) -> bool {
        self.sends.is_some() || !self.output.is_empty()
    }

    /// How much is to be sent besides what is sent now.
    pub(super) fn unsent(&self) -> usize {
        self.output.len()
    }

    /// Whether a frame, or more of one, waits to be sent, or what else answers the other end.
    pub(super) fn waits_for_frame(&self) -> bool {
        self.sends == Some(true) || self.output.iter().any(Chunk::is_answer)
    }

    /// This is to be sent behind all that is to be sent already.
    pub(super) fn says(&mut self, chunk: Chunk) {
        // (a way that is not sent yet is told no more)
        let is_way = |it: &Chunk| matches!(it, Chunk::Way(_));
        if is_way(&chunk) && self.output.back().is_some_and(is_way) {
            self.output.pop_back();
        }
        self.output.push_back(chunk);
    }

    /// What is to be sent next, if nothing is sent now.
    pub(super) fn next_chunk(&mut self) -> Option<Chunk> {
        let chunk = if self.sends.is_none() { self.output.pop_front() } else { None }?;
        self.sends = Some(chunk.is_answer());
        Some(chunk)
    }

    /// All that is to be sent, at the end of the connection.
    pub(super) fn last_chunks(&mut self) -> VecDeque<Chunk> {
        core::mem::take(&mut self.output)
    }

    /// What was sent is with the system.
    pub(super) fn sent(&mut self) {
        self.sends = None;
    }

    // ---- What comes

    pub(super) fn expects(&self) -> Expect {
        match &self.state {
            State::Link(Whom::Child(_), _, Some(_)) => Expect::Acks,
            State::Link(_, _, Some(_)) => Expect::Frames,
            State::Looks(_, _, Some(_)) | State::Comes(..) => Expect::Way,
            _ => Expect::Hello,
        }
    }

    /// These bytes came. Those of a long body go to its place.
    pub(super) fn came(&mut self, mut bytes: &[u8]) {
        if let Some(part) = &mut self.part {
            let (of_body, rest) = bytes.split_at(part.lacks().min(bytes.len()));
            part.body.bytes.extend_from_slice(of_body);
            bytes = rest;
        }
        self.input.extend_from_slice(bytes);
    }

    /// The other end has closed it: now it is known whether it said anything, and whether why.
    pub(super) fn was_closed(&mut self) {
        self.is_mute = !self.has_said && !self.has_output();
        if !self.is_greeting() && self.part.is_none() {
            self.refusal = wire::refused(&self.input, self.expects());
        }
    }

    /// Why the other end refuses this one, if it does.
    pub(super) fn refused(&self) -> Option<Refusal> {
        self.refusal.filter(|_| !self.is_greeting())
    }

    /// Of a parent, something whole came.
    pub(super) fn is_alive(&mut self, now: Time) {
        self.until = (!self.is_old()).then(|| now + SILENCE);
        self.is_timed = false;
    }

    /// What is under way from a parent has its time by its length, however its bytes come.
    pub(super) fn waits_for_rest(&mut self, now: Time) {
        let part = self.part.as_ref().map(|part| part.length);
        let length = part.or_else(|| wire::head(&self.input).map(|head| head.2));
        let length = length.filter(|_| !self.is_timed);
        self.is_timed |= length.is_some();
        if length.is_some() || (self.until.is_none() && !self.input.is_empty()) {
            let length = length.unwrap_or(0);
            self.until = Some(now + SILENCE + travels(length));
        }
    }

    /// The next whole message of what came.
    pub(super) fn next(&mut self, expect: Expect) -> Result<Option<Message>, WireError> {
        if self.part.is_none() {
            let message = wire::take(&mut self.input, expect)?;
            if message.is_some() || expect != Expect::Frames {
                return Ok(message);
            }
            self.begin_part();
        }
        let is_whole = self.part.as_ref().is_some_and(|it| it.lacks() == 0);
        let part = if is_whole { self.part.take() } else { None };
        Ok(part.map(|it| Message::Frame(it.label, Arc::new(it.body))))
    }

    /// What has come of a long body goes to its place, and the rest as it comes.
    fn begin_part(&mut self) {
        let head = wire::head(&self.input).filter(|(.., length)| *length > LONG);
        if let Some((label, item, length)) = head {
            let mut bytes = Vec::with_capacity(length);
            bytes.extend_from_slice(&self.input[FRAME_HEAD..]);
            self.input.clear();
            self.part = Some(Part { label, body: Body { item, bytes }, length });
        }
    }
}

/// A long body of which the first bytes have come.
pub(super) struct Part {
    label: u16,
    body: Body,
    length: usize,
}

impl Part {
    /// How many bytes are to come.
    fn lacks(&self) -> usize {
        self.length.saturating_sub(self.body.bytes.len())
    }
}

/// How long a body of this length may be under way.
pub(super) fn travels(length: usize) -> Duration {
    Duration::from_secs(length as u64 / SLOWEST)
}

/// What is sent on a line by one call, if it takes so much.
#[derive(Clone, Debug, PartialEq, Eq)]
pub enum Chunk {
    /// These bytes.
    Bytes(Vec<u8>),
    /// The way of this agent. (All who are told it at once share its bytes.)
    Way(Arc<[u8]>),
    /// A question for a whole report.
    ReportRequest,
    /// A frame: what is before its body, and that.
    Frame([u8; FRAME_HEAD], Arc<Body>),
}

impl Chunk {
    /// A frame with this body.
    pub(super) fn frame(label: u16, body: Arc<Body>) -> Chunk {
        match body.bytes.len() > JOINED {
            true => Chunk::Frame(wire::frame_head(label, &body), body),
            false => Chunk::Bytes([&wire::frame_head(label, &body), &*body.bytes].concat()),
        }
    }

    /// Whether it answers the other end.
    fn is_answer(&self) -> bool {
        !matches!(self, Chunk::Way(_) | Chunk::ReportRequest)
    }

    /// Its bytes from this place on, in two parts.
    pub fn from(&self, place: usize) -> [&[u8]; 2] {
        let whole: &[u8] = match self {
            Chunk::Bytes(bytes) => bytes,
            Chunk::Way(bytes) => bytes,
            Chunk::ReportRequest => wire::REPORT_REQUEST,
            Chunk::Frame(head, body) => {
                return [
                    head.get(place..).unwrap_or_default(),
                    body.bytes.get(place.saturating_sub(FRAME_HEAD)..).unwrap_or_default(),
                ];
            }
        };
        [&[], whole.get(place..).unwrap_or_default()]
    }
}

rignolda::spoils! { Conn {
    end, since, state, input, part, output, sends, until, is_timed, version, refers, has_said,
    is_mute, says, refusal
} }
rignolda::spoils! { End { place, origin, shown, names } }
rignolda::spoils! { Part { label, body, length } }
rignolda::spoils_one_of! { State {
Accepted, Answered } Comes(at, hello), Looks(whom, at, id), Link(whom, by, at) }
rignolda::spoils_one_of! { Chunk { ReportRequest } Bytes(bytes), Frame(head, body) }

//! What is to be seen of connections.
use super::connection::Conn;
use super::{Parent, Peers, Whom};
use crate::net::{Origin, Parents, Refusal, Relay, Way};
use crate::prelude::*;
use crate::Time;
use core::fmt;

impl<A: Clone + PartialEq + fmt::Display> Peers<A> {
    /// The links, to be read.
    pub fn relay(&self) -> &Relay {
        &self.relay
    }

    /// The same, so that a trial may set what an agent remembers to anything.
    #[doc(hidden)]
    pub fn relay_mut(&mut self) -> &mut Relay {
        &mut self.relay
    }

    /// The parents that there may be, for such a trial.
    #[doc(hidden)]
    pub fn parents_mut(&mut self) -> &mut Parents {
        &mut self.parents
    }

    /// The parent that it is connected to, and since when.
    pub fn parent(&self) -> Option<(&Parent<A>, Time)> {
        let since = match self.above {
            Some(id) => self.conns.get(&id)?.greeted(),
            None => self.words.get(&Whom::Parent)?.since,
        };
        Some((self.candidate(self.parents.at())?, since?))
    }

    /// The way from a root to the agent, as it says it itself.
    pub fn way(&self) -> &Way {
        self.parents.says()
    }

    /// The agent's own name.
    pub fn name(&self) -> &str {
        &self.setup.name
    }

    /// The number that the process drew when it began.
    pub fn life(&self) -> u64 {
        self.life
    }

    /// How often it was connected to a parent.
    pub fn reconnects(&self) -> u64 {
        self.reconnects
    }

    /// How many connections were refused.
    pub fn refused(&self) -> u64 {
        self.refused
    }

    /// Who was refused last, and why; empty where nobody was.
    pub fn last_refused(&self) -> &str {
        &self.last_refused
    }

    /// Why no parent could be connected to last; empty where that is not known.
    pub fn no_parent(&self) -> &str {
        self.dials.get(&Whom::Parent).map_or("", |dial| &*dial.why)
    }

    /// The parents that refuse this agent, and why.
    pub fn refusals(&self) -> impl Iterator<Item = (&Parent<A>, Refusal)> {
        let all = self.refusals.iter();
        all.filter_map(|(at, (why, _))| Some((self.candidate(*at)?, *why)))
    }

    /// Since when connections have ended before the other end's hello came, where it has come by
    /// none since then.
    pub fn fails_since(&self) -> Option<Time> {
        self.fails
    }

    /// How often an end that was called as a parent has said its hello.
    pub fn looks_answered(&self) -> u64 {
        self.answers
    }

    /// Whether a child or a parent connected from there last that proved its name by a certificate.
    pub fn knows(&self, origin: &Origin) -> bool {
        self.known.has(origin)
    }

    /// How often something came of a line that is none, and was ignored.
    pub fn strange(&self) -> u64 {
        self.strange
    }

    /// The numbers of all lines.
    pub fn lines(&self) -> impl Iterator<Item = u64> + '_ {
        self.conns.keys().copied()
    }

    /// Whether there is a line of this number.
    pub fn has_line(&self, id: u64) -> bool {
        self.conns.contains_key(&id)
    }

    /// Whether something is sent on this line that the system does not have yet.
    pub fn sends(&self, id: u64) -> bool {
        self.conns.get(&id).is_some_and(Conn::has_output)
    }

    /// Whether nobody knows yet whose this line is. (Others come first.)
    pub fn is_greeting(&self, id: u64) -> bool {
        self.conns.get(&id).is_some_and(Conn::is_greeting)
    }

    /// The numbers of all connections of which this holds.
    pub(super) fn all_that(&self, holds: impl Fn(&Conn) -> bool) -> Vec<u64> {
        let all = self.conns.iter().filter(|(_, conn)| holds(conn));
        all.map(|(id, _)| *id).collect()
    }

    /// When there may be something to do although nothing comes.
    pub fn deadline(&self) -> Option<Time> {
        let beat = (!self.children.is_empty()).then_some(self.beat);
        let evicts = self.relay.evicts_at(self.setup.evict);
        let dials = self.dials.iter();
        let dials = dials.filter(|(whom, dial)| self.is_idle(whom, dial));
        let conns = self.conns.values().filter_map(|conn| conn.until);
        let all = conns.chain(dials.map(|(_, dial)| dial.next.unwrap_or(self.now)));
        all.chain(beat).chain(evicts).chain(self.turn_due()).min()
    }
}

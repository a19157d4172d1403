//! Lines that come and end: which are let in, and what follows for whom they lead to.
use super::connection::{Conn, End, State};
use super::{Children, Output, Peers, Whom, LATER, SHORT};
use crate::net::origin::one_too_many;
use crate::net::Origin;
use crate::prelude::*;
use crate::{Fact, Time};
use core::fmt;

/// How many connections there are at most whose hello has not come, besides one for each child that
/// is away: these may come all at once, and must not drive each other out.
const GREETING: usize = 64;

impl<A: Clone + PartialEq + fmt::Display> Peers<A> {
    /// At most so many connections wait for a hello from now on, as few descriptors are there, say.
    pub fn bound_waiting(&mut self, most: usize) {
        (self.waiting, self.not_waiting) = (most, !most);
    }

    /// Takes a line that was accepted. Of those whose hello has not come, one too many drives out
    /// the oldest of those of one [origin](End::origin) of which there are the most; and if there
    /// are as many of others, of those that are not [known](Peers::knows).
    pub fn accept(&mut self, id: u64, end: End, now: Time) {
        self.now = now;
        let until = self.greets_until();
        self.open(id, end, State::Accepted, until);
        let greeting = self.all_that(Conn::is_greeting);
        let children = || self.relay.children().map(|(_, link)| link);
        let away = || children().filter(|link| !link.is_connected()).count();
        let most = self.waiting.min(GREETING);
        if greeting.len() > most && greeting.len() > self.waiting.min(GREETING + away()) {
            let all = greeting.iter().filter_map(|id| Some((*id, self.conns.get(id)?)));
            let shown = |it: &Conn| (self.knows(&it.end.origin), it.end.shown, it.has_said);
            let all = all.map(|(id, it)| (id, it.end.origin, shown(it)));
            if let Some(id) = one_too_many(all) {
                self.leave_line(id, "too many say no hello");
            }
        }
    }

    /// Until when an end that connects itself may say its hello.
    pub(super) fn greets_until(&self) -> Time {
        self.now + self.setup.ack_timeout.saturating_mul(1 << self.late)
    }

    /// There is this line from now on. (That of a number which another one has is none.)
    pub(super) fn open(&mut self, id: u64, end: End, state: State, until: Time) {
        self.made = self.made.wrapping_add(1);
        let conn = Conn::new(end, state, self.now, until);
        self.conns.entry(id).or_insert(conn);
    }

    /// Something comes of this line: whether there is one.
    pub(super) fn comes_of(&mut self, id: u64, now: Time) -> bool {
        self.now = now;
        let is_there = self.has_line(id);
        self.strange = self.strange.wrapping_add(u64::from(!is_there));
        is_there
    }

    pub(super) fn conn_with(&mut self, id: u64, change: impl FnOnce(&mut Conn)) {
        if let Some(conn) = self.conns.get_mut(&id) {
            change(conn);
        }
    }

    /// Closes a connection: its end of the link leaves it.
    pub fn close(&mut self, id: u64, why: &str, now: Time) {
        if self.comes_of(id, now) {
            self.leave_line(id, why);
        }
    }

    pub(super) fn leave_line(&mut self, id: u64, why: &str) {
        let conn = match self.conns.remove(&id) {
            Some(conn) => conn,
            None => return,
        };
        self.outputs.push_back(Output::Close(id));
        let place = conn.end.place.clone();
        let is_own = conn.end.origin == Origin::Own;
        if !conn.has_said && !is_own {
            self.fails.get_or_insert(self.now);
        }
        match &conn.state {
            State::Answered => (),
            State::Accepted | State::Comes(..) if is_own => (),
            State::Accepted | State::Comes(..) => {
                self.refused += 1;
                self.last_refused = format!("{place}{}: {why}", conn.says);
                // (whoever can connect must not fill the journal)
                if self.said_refused.is_none_or(|at| self.now >= at + SHORT) {
                    self.said_refused = Some(self.now);
                    self.tells(Fact::Refused(self.last_refused.clone(), self.refused));
                }
            }
            State::Looks(whom, at, _) => {
                self.was_refused(*at, conn.refused());
                // (who answered was not late: the next look gets its time by how long this one
                // took)
                if conn.has_said && *whom != Whom::Parent {
                    let took = self.now - conn.since;
                    self.dial_with(whom, |dial| (dial.failed, dial.took) = (0, took));
                }
                self.look_ended(whom, conn.is_mute, why);
            }
            State::Link(whom, number, greeted) => {
                if greeted.is_some() {
                    let place = Some(place.to_string());
                    self.tells(Fact::Closed { whom: whom.to_string(), why: why.into(), place });
                }
                if let Whom::Child(name) = whom {
                    self.relay.child_ended(name, *number, self.now);
                    if self.children.get(name) == Some(&id) {
                        self.children.remove(name);
                    }
                } else {
                    if greeted.is_none() {
                        self.was_refused(self.parents.at(), conn.refused());
                    }
                    self.relay.ended(*number);
                    // (else another one is taken already)
                    if self.above != Some(id) {
                        return;
                    }
                    self.above = None;
                    self.parents.tries(self.parents.at());
                }
                // (a parent's hello of version 2 was not heard, or it was tried to speak version 1)
                let is_mute = conn.is_mute && !conn.is_old() && matches!(whom, Whom::Child(_));
                let mute = self.dials.get(whom).map_or(0, |dial| dial.mute);
                let mute = if is_mute { mute.saturating_add(1) } else { 0 };
                self.redial(whom, *greeted, why);
                self.dial_with(whom, |dial| dial.mute = mute);
            }
        }
    }

    /// Closes what waited too long, and drops the backlog of who is away too long.
    pub fn tick(&mut self, now: Time) {
        self.now = now;
        for id in self.all_that(|conn| conn.until.is_some_and(|at| now >= at)) {
            match self.conns.get(&id).map(|conn| &conn.state) {
                Some(State::Link(Whom::Child(name), _, Some(_))) => self.relay.was_late(name),
                Some(State::Link(..) | State::Looks(..)) | None => (),
                Some(_) => self.late = (self.late + 1).min(LATER),
            }
            self.leave_line(id, "nothing came in time");
        }
        for name in self.relay.evict(self.setup.evict, now) {
            self.tells(Fact::Evicted(name.clone()));
            self.forget_any(&name);
        }
        self.tell();
    }

    /// Where any child may connect, one that is gone is a child no longer.
    pub(super) fn forget_any(&mut self, name: &str) {
        if self.setup.children == Children::Any {
            self.relay.remove(name);
            self.outputs.push_back(Output::Gone(name.into()));
        }
    }
}

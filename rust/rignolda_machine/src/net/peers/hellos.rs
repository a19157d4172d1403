//! What each end says first, and of its way: who it is, and whether it is taken.
use super::connection::{Chunk, Conn, State};
use super::{Children, Parent, Peers, Result, Whom, BEAT, NONE};
use crate::net::wire::{self, Expect, Hello, FIRST, OLD, VERSION};
use crate::net::{Origin, Refusal, Relay, Shown};
use crate::prelude::*;
use crate::Fact;
use core::fmt;
use rignolda::Connection;

/// How many children there are at most where any may connect.
const ANY: usize = 10_000;

/// The name that a hello has, in words.
pub(super) fn calls_itself(name: &str) -> String {
    format!(", which calls itself {name}")
}

impl<A: Clone + PartialEq + fmt::Display> Peers<A> {
    /// Says a hello where it is one of a link; else it looks at a candidate, or answers that: by
    /// that no life is told, but the rank of a root, and no label.
    pub(super) fn say(&mut self, id: u64, to: String) {
        if let Some(conn) = self.conns.get(&id) {
            let whom = conn.link().map(|(whom, _)| whom);
            let version = whom.as_ref().map_or(FIRST, |_| conn.version);
            let hello = self.hello(version, whom.as_ref(), to);
            let bytes = match whom {
                None => hello.look(),
                Some(_) => hello.bytes(),
            };
            self.send(id, bytes);
        }
    }

    pub(super) fn hello(&mut self, version: u8, whom: Option<&Whom>, to: String) -> Hello {
        let (life, label) = match whom {
            Some(Whom::Parent) => (self.told(), self.relay.label()),
            Some(_) if version == OLD => (self.life, self.relay.label()),
            Some(_) => (self.life, Hello::range(OLD..=VERSION)),
            None => (self.setup.rank.unwrap_or(0), Hello::range(OLD..=VERSION)),
        };
        Hello { version, life, label, from: self.setup.name.clone(), to }
    }

    /// Says the own way, if the other end knows what that is.
    pub(super) fn say_way(&mut self, id: u64) {
        if self.conns.get(&id).is_some_and(|conn| !conn.is_old()) {
            let way = wire::way(self.parents.says()).into();
            self.says(id, Chunk::Way(way));
        }
    }

    /// Tells all children the way where it is another one, or they were told long ago. (Who has
    /// something else to read knows that this agent is there.)
    pub(super) fn tell(&mut self) {
        let (has_news, is_beat) = (self.parents.has_news(), self.now >= self.beat);
        if is_beat {
            self.beat = self.now + BEAT;
        }
        if has_news || is_beat {
            let waits = |it: &Conn| !has_news && it.has_output();
            let is_told = |it: &Conn| it.expects() == Expect::Acks && !it.is_old();
            self.say_ways(|it| is_told(it) && !waits(it));
        }
        if has_news && self.parents.says().cost >= NONE {
            for (whom, dial) in &mut self.dials {
                if let Whom::Candidate(at) = whom {
                    let soon = self.now + self.parents.pause(*at);
                    dial.next = dial.next.map(|next| next.min(soon));
                }
            }
        }
    }

    /// The life that a parent is told. It is another one than what another parent was told before,
    /// so that the parent begins a new count: what the receiver remembers may be that parent's, and
    /// even look as if it had come from this one.
    pub(super) fn told(&mut self) -> u64 {
        let parent = self.candidate(self.parents.at()).map(Parent::to_string);
        let is_other = self.told.0.is_some() && self.told.0 != parent;
        self.told = (parent, self.told.1 + u64::from(is_other));
        self.life.wrapping_add(self.told.1)
    }

    /// Who says this hello, or look, and of a parent, which one.
    fn who(&mut self, id: u64, hello: &Hello, is_look: bool) -> Result<(Whom, usize)> {
        let Hello { from, to, .. } = hello;
        let says = calls_itself(from);
        self.conn_with(id, |conn| conn.says = says);
        let conn = self.conns.get(&id).ok_or("it is gone")?;
        let is_meant = *to == self.setup.name;
        let (whom, at) = match &conn.state {
            State::Looks(whom, at, _) => (whom.clone(), *at),
            State::Link(whom, ..) => (whom.clone(), self.parents.at()),
            // (a child that was told no name of its parent says none)
            _ if !is_meant && !to.is_empty() => {
                return Err(self.refuses(id, from, Refusal::OtherName));
            }
            state => {
                let is_child = is_look || matches!(state, State::Answered);
                match self.caller(from, is_child) {
                    Ok(caller) => caller,
                    Err(why) => return Err(self.refuses(id, from, why)),
                }
            }
        };
        let name = self.name_of(&whom, at);
        let is_other = name.is_some_and(|name| name != from);
        if is_other || !(is_meant || conn.is_greeting()) {
            return Err("its hello has other names".into());
        } else if !conn.end.may_be(from) {
            return Err(self.refuses(id, from, Refusal::Certificate));
        }
        Ok((whom, at))
    }

    /// An end of this name is refused: why, in words of the own journal. What it is told does not
    /// go beyond the name that it has proved: of others it learns nothing.
    fn refuses(&mut self, id: u64, from: &str, why: Refusal) -> String {
        self.conn_with(id, |conn| {
            let told = match conn.end.shown {
                Shown::Certificate if conn.end.may_be(from) => why,
                Shown::Certificate => Refusal::Certificate,
                _ => Refusal::NotSaid,
            };
            conn.refusal = Some(told).filter(|_| conn.is_greeting());
        });
        why.own_words().into()
    }

    /// Tells an end why it is refused; or this, where it is refused for something else.
    pub(super) fn says_why(&mut self, id: u64, other: Option<Refusal>) {
        let refusal = self.conns.get(&id).and_then(|conn| conn.refusal);
        if let Some(why) = refusal.or(other) {
            self.sends_last(id, wire::refusal(why));
        }
    }

    /// Whether the agent itself looks at this end, to see from outside that it can be reached.
    fn is_its_own(&self, id: u64, Hello { from, to, .. }: &Hello) -> bool {
        let is_own = |conn: &Conn| {
            let is_new = matches!(conn.state, State::Accepted);
            is_new && conn.end.origin == Origin::Own && conn.end.may_be(from)
        };
        let name = &self.setup.name;
        [from, to] == [name, name] && self.conns.get(&id).is_some_and(is_own)
    }

    /// An end says a hello, or looks at this one, or is a candidate that answers.
    pub(super) fn greets(&mut self, id: u64, hello: Hello, is_look: bool) -> Result {
        if is_look && self.is_its_own(id, &hello) {
            self.common(id, &hello, true)?;
            self.say(id, hello.from);
            self.say_way(id);
            self.answered(id);
            return Ok(());
        }
        let (whom, at) = self.who(id, &hello, is_look)?;
        let version = self.common(id, &hello, is_look || whom == Whom::Parent)?;
        let is_old = version == OLD;
        let conn = self.conns.get_mut(&id).ok_or("it is gone")?;
        conn.version = version;
        match (&mut conn.state, whom) {
            (State::Looks(_, at, rank), _) if is_look => {
                *rank = Some(hello.life);
                self.refusals.remove(at);
            }
            (State::Link(Whom::Child(_), ..), _) if is_look => {
                return Err("it has another parent".into());
            }
            (State::Accepted, Whom::Child(name)) if is_look => {
                self.say(id, name);
                self.say_way(id);
                self.answered(id);
            }
            (State::Accepted, _) if is_look => return Err("its name is none of a child".into()),
            (state, _) if is_look || matches!(state, State::Looks(..)) => {
                return Err("it is no hello".into());
            }
            (_, Whom::Child(_)) => self.child_greets(id, &hello)?,
            (State::Link(..), _) => {
                if is_old {
                    self.parents.took(at, self.parents.old(at));
                }
                self.parent_greets(id, &hello)?;
            }
            (state, _) => {
                // (nothing has changed yet: first its way is to come, or it is of version 1)
                *state = State::Comes(at, hello);
                if is_old {
                    self.way_came(id, self.parents.old(at))?;
                }
            }
        }
        Ok(())
    }

    /// The highest version that both ends speak. A range is said where a connection `may_begin`;
    /// what answers that has the version that is spoken.
    fn common(&mut self, id: u64, hello: &Hello, may_begin: bool) -> Result<u8> {
        let conn = self.conns.get(&id).ok_or("it is gone")?;
        let is_answer = matches!(conn.state, State::Link(..)) || !may_begin;
        let theirs = if is_answer { hello.version..=hello.version } else { hello.versions() };
        let newest = VERSION.min(*theirs.end());
        if newest >= OLD.max(*theirs.start()) {
            return Ok(newest);
        }
        if conn.link().is_none() {
            // (so that the other end can name both ranges too)
            self.say(id, hello.from.clone());
            self.sends_all(id);
        }
        let (oldest, newest) = theirs.into_inner();
        Err(format!(
            "it speaks versions {oldest} to {newest} of the protocol, and this agent {OLD} to \
             {VERSION}"
        ))
    }

    pub(super) fn answered(&mut self, id: u64) {
        let until = Some(self.greets_until());
        self.conn_with(id, |it| (it.state, it.until) = (State::Answered, until));
    }

    /// Who an agent of this name is, where it connects itself; of a parent, which one. It may be
    /// known that it looks for a parent.
    fn caller(&self, from: &str, is_child: bool) -> Result<(Whom, usize), Refusal> {
        let is = |it: &Parent<A>| it.address.is_none() && it.name.as_deref() == Some(from);
        let place = self.setup.parents.iter().position(is);
        // (two may be each other's parents, and one of them make all connections)
        let comes = match &self.setup.children {
            Children::Named(children) => is_child && children.get(from) == Some(&None),
            Children::Any => false,
        };
        if let (Some(at), false) = (place, comes) {
            return Ok((Whom::Parent, at));
        }
        let mut parents = self.setup.parents.iter();
        let calls = parents.any(|it| it.name.as_deref() == Some(from));
        match &self.setup.children {
            Children::Named(children) => match children.get(from) {
                Some(None) => Ok((Whom::Child(from.into()), 0)),
                Some(Some(_)) => Err(Refusal::Calls),
                None if is_child => Err(Refusal::NoChild),
                None if calls => Err(Refusal::Calls),
                None => Err(Refusal::NoParent),
            },
            Children::Any if from == self.setup.name => Err(Refusal::NoChild),
            Children::Any => {
                let is_known = self.relay.child(from).is_some();
                let may = is_known || self.relay.children().count() < ANY;
                let child = || (Whom::Child(from.into()), 0);
                may.then(child).ok_or(Refusal::Full)
            }
        }
    }

    /// The number under which this end has made a connection of a link.
    pub(super) fn number(&self, id: u64) -> Option<Connection> {
        Some(self.conns.get(&id)?.link()?.1)
    }

    pub(super) fn parent_greets(&mut self, id: u64, hello: &Hello) -> Result {
        let made = self.number(id);
        let number = made.or_else(|| self.relay.accepted());
        let number = number.ok_or("no number is left")?;
        self.above = Some(id);
        self.begins(id, Whom::Parent, number);
        self.parent_is_there(hello);
        if made.is_none() {
            // (the end that accepted has the first turn)
            self.say(id, hello.from.clone());
            self.acknowledge(id);
        }
        Ok(())
    }

    pub(super) fn parent_is_there(&mut self, Hello { life, from, .. }: &Hello) {
        self.still.takes(self.parents.at(), self.now);
        let anew = self.above_life.replace(*life) != Some(*life);
        self.reconnects += 1;
        self.tells(Fact::Connected { whom: format!("the parent {from}"), anew });
    }

    fn child_greets(&mut self, id: u64, hello: &Hello) -> Result {
        let (made, name) = (self.number(id), &*hello.from);
        if let Some(old) = self.children.remove(name) {
            self.parts_from(old, hello);
        }
        self.relay.add(name, self.now);
        let clashes = |relay: &Relay| relay.child(name).map_or(0, |link| link.clashes);
        let before = clashes(&self.relay);
        let Hello { life, label, .. } = *hello;
        let greeted = self.relay.greeted(name, life, label, made, self.now);
        let (number, anew) = greeted.ok_or("no number is left")?;
        self.tells(Fact::Connected { whom: name.into(), anew });
        if before == 0 && clashes(&self.relay) > 0 {
            self.tells(Fact::Clash(name.into()));
        }
        self.children.insert(name.into(), id);
        self.begins(id, Whom::Child(name.into()), number);
        match made {
            // (a child that accepted has the first turn)
            Some(_) => {
                let until = self.now + self.patience(name);
                self.conn_with(id, |conn| conn.until = Some(until));
            }
            None => self.say(id, name.into()),
        }
        self.say_way(id);
        self.poll(name);
        Ok(())
    }

    /// A child connected anew, which had this connection. Where another process has its name now,
    /// the one before learns that.
    fn parts_from(&mut self, old: u64, hello: &Hello) {
        let link = self.relay.child(&hello.from);
        let is_twin = link.is_some_and(|link| !link.is_of(hello.life));
        let knows = self.conns.get(&old).is_some_and(|conn| !conn.is_old());
        if is_twin && knows {
            self.sends_last(old, wire::last_refusal(Refusal::Twin));
        }
        self.leave_line(old, Refusal::Twin.own_words());
    }

    pub(super) fn begins(&mut self, id: u64, whom: Whom, number: Connection) {
        let now = self.now;
        if let Some(conn) = self.conns.get_mut(&id) {
            let at = self.parents.at();
            let name = match &whom {
                Whom::Child(name) => Some(name),
                _ => self.setup.parents.get(at).and_then(|it| it.name.as_ref()),
            };
            let has_proved = conn.is_greeting() && conn.end.shown == Shown::Certificate;
            if let Some(name) = name.filter(|_| has_proved) {
                self.known.insert(name, conn.end.origin);
            }
            if let (false, Some(dial)) = (conn.is_greeting(), self.dials.get_mut(&whom)) {
                dial.took = now - conn.since;
            }
            conn.until = None;
            if whom == Whom::Parent {
                conn.is_alive(now);
            }
            conn.state = State::Link(whom, number, Some(now));
        }
    }
}

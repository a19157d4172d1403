//! What holds of an agent's state whatever comes over its connections, and what is done where it
//! does not hold, as after a fault of the machine's memory.
//!
//! What has a bound is brought back to it. A link on which nothing is taken begins anew, so nobody
//! has to know what is wrong with its records. What two places have to say alike, and do not,
//! nothing mends but a new process.
use super::hellos::calls_itself;
use super::{travels, Children, Conn, Parent, Peers, Setup, State, Whom, BEAT, LATER, SILENCE};
use crate::net::{Link, BODY_BYTES};
use crate::prelude::*;
use crate::{first_of, Fact, Time};
use alloc::collections::BTreeSet;
use core::error::Error;
use core::fmt;
use core::time::Duration;

/// How long the look-up of an address takes at most.
const LOOK_UP: Duration = Duration::from_secs(300);
/// After how long at most somebody other than a candidate is called again, unless it is to connect.
const PAUSE: Duration = Duration::from_secs(3);
/// How many times its patience a child may lack an item and take none, and how many seconds more;
/// the same where no item is on its way to it; and where its link lies in a store, which may be
/// slow to answer.
const TAKES: (u32, u64) = (2, 1);
const SENT_NOTHING: (u32, u64) = (0, 2);
const TAKES_IN_STORE: (u32, u64) = (10, 10);

/// What cannot be in the state of an agent: at no time is it so in a sound process.
#[derive(Clone, Copy, Debug, PartialEq, Eq)]
pub struct Fault(&'static str);

impl Fault {
    /// What it is, in words.
    pub fn what(&self) -> &'static str {
        self.0
    }
}

impl fmt::Display for Fault {
    fn fmt(&self, to: &mut fmt::Formatter<'_>) -> fmt::Result {
        to.write_str(self.0)
    }
}

impl Error for Fault {}

impl<A: Clone + PartialEq + fmt::Display> Peers<A> {
    /// Looks at the state, which is to be done once a second. `looks_up`: whether the caller looks
    /// an address up for a [call](Peers::next_call).
    ///
    /// # Errors
    ///
    /// What cannot be, where something cannot: then the process is to end.
    pub fn check(&mut self, looks_up: bool, now: Time) -> Result<(), Fault> {
        self.now = now;
        self.mend(looks_up);
        self.leave_who_takes_nothing();
        self.looks_at_tables();
        self.fault().map_or(Ok(()), Err)
    }

    /// What it is set up with.
    pub fn setup(&self) -> &Setup<A> {
        &self.setup
    }

    fn mend(&mut self, looks_up: bool) {
        let now = self.now;
        self.dial_all();
        // (between two steps nothing is to be taken)
        self.brings = false;
        let late = self.setup.ack_timeout.saturating_mul(1 << LATER);
        let most = now + late + SILENCE + travels(BODY_BYTES);
        let mut called = BTreeSet::new();
        for conn in self.conns.values_mut() {
            let waits = conn.greeted().is_none().then_some(most);
            conn.until = conn.until.or(waits).map(|at| at.min(most));
            match &conn.state {
                State::Link(it, ..) | State::Looks(it, ..) if self.dials.contains_key(it) => {
                    called.insert(it);
                }
                _ => (),
            }
        }
        for (whom, dial) in &mut self.dials {
            let pause = match whom {
                Whom::Candidate(at) => self.parents.pause(*at) * 2,
                _ => self.setup.ack_timeout.max(PAUSE),
            };
            dial.next = dial.next.map(|at| at.min(now + pause));
            let may_look_up = dial.next.is_none_or(|at| now < at + LOOK_UP);
            let is_there = called.contains(whom) || self.words.contains_key(whom);
            dial.under_way &= is_there || (looks_up && may_look_up);
        }
        let is_parent = |conn: &Conn| matches!(conn.state, State::Link(Whom::Parent, ..));
        self.above = self.all_that(is_parent).first().copied();
        self.beat = self.beat.min(now + BEAT);
        self.late = self.late.min(LATER);
        self.fails = self.fails.map(|at| at.min(now));
        let parents = self.setup.parents.len();
        self.refusals.retain(|at, _| *at < parents);
        let (relay, setup) = (&self.relay, &self.setup);
        let is = |it: &Parent<A>, name: &str| it.name.as_deref() == Some(name);
        let is_parent = |name: &str| setup.parents.iter().any(|it| is(it, name));
        let is_child = |name: &str| relay.child(name).is_some();
        self.known.keep(|name| is_child(name) || is_parent(name));
        self.parents.say();
        self.relay.mend(now);
    }

    /// Of those that are connected, leaves whoever lacks an item and has taken none for long. (Who
    /// is silent is left before that, and goes on when it is back.)
    fn leave_who_takes_nothing(&mut self) {
        let children = &self.children;
        self.relay.count_idle(|name| children.contains_key(name));
        let is_stale = |(name, link): &(&String, &Link)| {
            let id = children.get(*name);
            let (times, more) = match id.and_then(|id| self.conns.get(id)) {
                Some(conn) if conn.until.is_none() => SENT_NOTHING,
                Some(_) => TAKES,
                None => TAKES_IN_STORE,
            };
            let most = self.patience(name).saturating_add(travels(link.held_bytes()));
            let most = most.saturating_mul(times);
            link.idle() > most.as_secs() + more
        };
        let idle = self.relay.children().filter(|it| it.1.idle() > 0);
        let stale = idle.filter(is_stale);
        for name in stale.map(|(name, _)| name.clone()).collect::<Vec<_>>() {
            let why = "it takes nothing";
            self.tells(Fact::LeftBehind(name.clone(), Some(why)));
            self.leave_links(&name, why);
            self.relay.begin_anew(&name, self.now);
        }
    }

    /// Where the parent begins to stand still, others are looked at, and it is said.
    fn looks_at_tables(&mut self) {
        let (has_root, is_root) = (self.parents.has_root(), self.setup.is_root());
        if self.still.passes(has_root && !is_root, self.now) {
            let idle = self.still.idle().as_secs();
            let parent = self.parent().map(|it| it.0.to_string());
            parent.into_iter().for_each(|it| self.tells(Fact::Idle(it, idle)));
        }
    }

    /// What cannot be, where something cannot: at no time is it so in a sound process.
    pub fn fault(&self) -> Option<Fault> {
        self.contradiction().map(Fault)
    }

    fn contradiction(&self) -> Option<&'static str> {
        let Setup { name, parents, children, .. } = &self.setup;
        let has_address = |it: &&Option<A>| it.is_some();
        let is_root = self.setup.is_root();
        let mut calls = usize::from(!is_root);
        calls += parents.iter().filter(|it| it.address.is_some()).count();
        let mut is_set_up = true;
        if let Children::Named(children) = children {
            calls += children.values().filter(has_address).count();
            is_set_up = children.keys().eq(self.relay.children().map(|it| it.0));
        }
        let is_called = |whom: &Whom| *whom == Whom::Parent || self.address(whom).is_some();
        let mut connected = 0;
        let is_known = |(id, conn): (&u64, &Conn)| match &conn.state {
            State::Link(Whom::Parent, ..) => self.above == Some(*id),
            State::Link(Whom::Child(_), _, Some(_)) => {
                connected += 1;
                true
            }
            _ => true,
        };
        let are_known = self.conns.iter().all(is_known) && connected == self.children.len();
        // (then these are all, where each child has one: both lists have the same order)
        let mut links = self.relay.children();
        let has_one = |(name, id): (&String, &u64)| match self.conns.get(id).map(|it| &it.state) {
            Some(State::Link(Whom::Child(it), number, Some(_))) if it == name => {
                let link = links.find(|it| it.0 == name);
                link.is_some_and(|(_, link)| link.has(*number))
            }
            _ => false,
        };
        let are_theirs = self.children.iter().all(has_one);
        let has_above = self.above.is_none_or(|id| self.conns.contains_key(&id));
        let calls_others = self.dials.len() != calls || !self.dials.keys().all(is_called);
        let is_found = are_known && are_theirs && has_above;
        let has_others = !self.parents.are(name, self.setup.prices());
        let why = first_of([
            (is_root != self.relay.is_root(), "it is the root, and is not"),
            (!is_set_up, "its children are other ones"),
            (self.waiting != !self.not_waiting, "other ones may wait"),
            (has_others, "its parents are other ones"),
            (calls_others, "it calls other ones"),
            (!is_found, "a connection is not found"),
            (self.lies_elsewhere(), "another link lies in a store"),
            (!self.is_of_its_place(), "its parent is another one"),
        ]);
        why.or_else(|| self.relay.fault())
    }

    /// Whether the parent that there is has the name of its place in the list.
    fn is_of_its_place(&self) -> bool {
        let conn = self.above.and_then(|id| self.conns.get(&id));
        let Some(conn) = conn.filter(|it| it.greeted().is_some()) else { return true };
        let is = |it: &Parent<A>| it.name.as_ref().is_none_or(|it| conn.says == calls_itself(it));
        self.candidate(self.parents.at()).is_some_and(is)
    }
}

#[cfg(test)]
mod tests {
    use super::*;
    use crate::net::End;

    /// As where it was forgotten for a moment, and another one was about to be called.
    #[test]
    fn a_parent_of_another_place_than_its_own_is_seen() {
        let now = Time::default();
        let parent = |name: &str| Parent {
            name: Some(name.into()),
            address: Some(name.into()),
            price: None,
        };
        let setup = Setup {
            name: "own".into(),
            parents: ["one", "two"].map(parent).into(),
            rank: None,
            children: Children::Named(BTreeMap::new()),
            ack_timeout: Duration::from_millis(500),
            evict: Duration::from_secs(60),
            poll: Duration::from_millis(50),
        };
        let mut peers = Peers::<String>::new(setup, 1, 64, now);
        let number = peers.relay.made().unwrap();
        let state = State::Link(Whom::Parent, number, Some(now));
        let mut conn = Conn::new(End::default(), state, now, now);
        conn.says = calls_itself("one");
        (peers.above, peers.made) = (Some(1), 1);
        peers.conns.insert(1, conn);
        assert_eq!(peers.fault(), None);
        peers.parents.tries(1);
        assert_eq!(peers.fault().map(|it| it.what()), Some("its parent is another one"));
    }
}

//! The connections of an agent: who connects to whom, what is said first, and who is waited for.
use super::origin::Known;
use super::parents::{Parents, Way, BEAT, NONE, SILENCE};
use super::{Body, Refusal, Relay};
use crate::prelude::*;
use crate::{Sha256, Time};
use alloc::collections::{BTreeMap, BTreeSet, VecDeque};
use alloc::sync::Arc;
use budget::Budget;
use connection::{travels, Conn, State};
use core::time::Duration;
use core::{fmt, mem};
use dials::Dial;
use still::Still;

mod budget;
mod bytes;
mod connection;
mod dials;
mod fault;
mod hellos;
mod lines;
mod messages;
mod output;
mod seen;
mod setup;
mod shown;
mod still;
mod ways;
mod words;

pub use connection::{Chunk, End};
pub use fault::Fault;
pub use output::Output;
pub use setup::{Call, ChildError, Children, Parent, ReportKind, Setup, Whom};

/// What is done, or why a connection is left for it, in words of a journal.
type Result<T = (), E = String> = core::result::Result<T, E>;

/// How often at most somebody is given twice the time, since it was late.
const LATER: u32 = 5;
/// How long a connection has to stand to count as one that did, and how often a refusal is said.
const SHORT: Duration = Duration::from_secs(1);

/// The connections of an agent, to addresses `A`.
///
/// Its caller makes and accepts lines, to which it gives numbers, none of them twice. It says what
/// comes by them, and does what [comes out](Peers::output) before it says anything else; and it is
/// back at [`Peers::deadline`]. A connection may be made by either end: the end that makes it says
/// its hello first, and on the link the other end has the first turn.
///
/// ```
/// use rignolda_machine::net::{Body, Children, End, Output, Parent, Peers, Setup};
/// use rignolda_machine::Time;
/// use std::sync::Arc;
/// use std::time::Duration;
///
/// let setup = |name: &str, parents: Vec<Parent<&'static str>>, children: &[&str]| Setup {
///     name: name.into(),
///     parents,
///     rank: None,
///     children: Children::Named(children.iter().map(|it| (it.to_string(), None)).collect()),
///     ack_timeout: Duration::from_secs(5),
///     evict: Duration::from_secs(600),
///     poll: Duration::from_secs(1),
/// };
/// let parent = Parent { name: Some("root".into()), address: Some("an address"), price: None };
/// let now = Time::default();
/// let mut root = Peers::new(setup("root", vec![], &["leaf"]), 1, 16, now);
/// let mut leaf = Peers::new(setup("leaf", vec![parent], &[]), 2, 16, now);
/// root.publish(&Arc::new(Body::of(b"a whole table".to_vec())), now);
/// // (the leaf wants a line, which has the number 7 at one end and 1 at the other)
/// let call = leaf.next_call(now).expect("it has no parent");
/// root.accept(7, End::default(), now);
/// leaf.called(call, Ok((1, End::default())), now);
/// let mut items = Vec::new();
/// let mut does = |it: &mut Peers<&str>, line: u64, other: &mut Peers<&str>| {
///     while let Some(output) = it.output() {
///         match output {
///             Output::Send(own, chunk) => {
///                 other.bytes(line, &chunk.from(0).concat(), now);
///                 it.sent(own, now);
///             }
///             Output::Item(body) => {
///                 items.push(body.bytes.clone());
///                 it.takes(true, now);
///             }
///             _ => (),
///         }
///     }
/// };
/// for _ in 0..9 {
///     does(&mut leaf, 7, &mut root);
///     does(&mut root, 1, &mut leaf);
/// }
/// assert_eq!(items, [b"a whole table"; 2], "at the root, and at the leaf");
/// ```
pub struct Peers<A> {
    setup: Setup<A>,
    life: u64,
    relay: Relay,
    conns: BTreeMap<u64, Conn>,
    /// When it is; what comes out; and whether that has an item which is to be taken first.
    now: Time,
    outputs: VecDeque<Output>,
    brings: bool,
    /// How many lines there were: by that each pause is another one. And how often something came
    /// of a line that is none.
    made: u64,
    strange: u64,
    dials: BTreeMap<Whom, Dial>,
    children: BTreeMap<String, u64>,
    /// The stores in which links lie, and these links.
    stores: Vec<words::Place<A>>,
    words: BTreeMap<Whom, words::Words>,
    /// Which parent is tried or connected, its connection, and its life.
    parents: Parents,
    above: Option<u64>,
    above_life: Option<u64>,
    /// Which parent was told a life last, and how often it was another one than before.
    told: (Option<String>, u64),
    /// Whether the parent brings tables.
    still: Still,
    reconnects: u64,
    refused: u64,
    said_refused: Option<Time>,
    last_refused: String,
    /// Which parents refuse this agent, by their places; why, and whether that was said.
    refusals: BTreeMap<usize, (Refusal, bool)>,
    /// Where those were last who proved their names as they connected.
    known: Known,
    /// How often a hello was late on a connection that was accepted: nobody knows whose.
    late: u32,
    /// Since when connections end before a hello has come by one, where none had any since; and how
    /// often a parent has answered anything.
    fails: Option<Time>,
    answers: u64,
    /// How many connections may wait without a hello, whatever else allows more; and the same with
    /// each bit turned, since nobody else knows it.
    waiting: usize,
    not_waiting: usize,
    /// When the children are told the way again, and whether those in stores are.
    beat: Time,
    says_again: bool,
    /// How digests are made, if they are; and that of the last whole table, once it was asked for.
    sha256: Option<Sha256>,
    digest: Option<(Arc<Body>, [u8; 32])>,
    /// How much may be done now to make what a parent refers to.
    makes: Budget,
}

/// What it is set up with, and how many connections there are.
impl<A: fmt::Debug> fmt::Debug for Peers<A> {
    fn fmt(&self, to: &mut fmt::Formatter<'_>) -> fmt::Result {
        let mut shown = to.debug_struct("Peers");
        shown.field("setup", &self.setup);
        shown.field("relay", &self.relay);
        shown.field("parents", &self.parents);
        shown.field("connections", &self.conns.len());
        shown.finish_non_exhaustive()
    }
}

impl<A: Clone + PartialEq + fmt::Display> Peers<A> {
    /// An agent without connections. `life`: a number that the process drew when it began; `room`:
    /// how many items its list has room for.
    pub fn new(setup: Setup<A>, life: u64, room: u64, now: Time) -> Peers<A> {
        let relay = match setup.is_root() {
            true => Relay::root(room),
            false => Relay::below(room),
        };
        let mut peers = Peers {
            // (an agent without children makes tables of what it keeps)
            relay: relay.keeping(),
            parents: Parents::new(&setup.name, setup.prices()),
            setup,
            life,
            conns: BTreeMap::new(),
            now,
            outputs: VecDeque::new(),
            brings: false,
            made: 0,
            strange: 0,
            dials: BTreeMap::new(),
            children: BTreeMap::new(),
            stores: Vec::new(),
            words: BTreeMap::new(),
            above: None,
            above_life: None,
            told: (None, 0),
            still: Still::new(now),
            reconnects: 0,
            refused: 0,
            said_refused: None,
            last_refused: String::new(),
            refusals: BTreeMap::new(),
            known: Known::default(),
            late: 0,
            fails: None,
            answers: 0,
            waiting: usize::MAX,
            not_waiting: 0,
            beat: now + BEAT,
            says_again: false,
            sha256: None,
            digest: None,
            makes: Budget::new(now),
        };
        peers.dial_all();
        peers
    }

    /// The same, which has this function for digests: so a whole table goes to those children that
    /// can make it by a [`Reference`](crate::net::wire::Reference) alone.
    #[must_use]
    pub fn with_digests(mut self, sha256: Sha256) -> Peers<A> {
        self.sha256 = Some(sha256);
        self
    }

    /// What comes out next: it is done, or told, in this order.
    #[must_use = "what comes out is to be done"]
    pub fn output(&mut self) -> Option<Output> {
        self.outputs.pop_front()
    }

    /// Whether anything comes out.
    pub fn has_output(&self) -> bool {
        !self.outputs.is_empty()
    }

    /// Takes another set-up: those that are no longer in it are left. The name stays.
    pub fn set_up(&mut self, setup: Setup<A>, now: Time) {
        self.now = now;
        let old = mem::replace(&mut self.setup, setup);
        (self.setup.name, self.setup.rank) = (old.name, old.rank);
        if let Children::Named(children) = &self.setup.children {
            let all = self.relay.children().map(|(name, _)| name);
            let gone = all.filter(|name| !children.contains_key(*name));
            let gone: Vec<String> = gone.cloned().collect();
            gone.iter().for_each(|name| self.leave_child(name));
        }
        let parents = &self.setup.parents;
        if old.parents != *parents {
            let who = |it: &Parent<A>| (it.name.clone(), it.address.clone());
            let here = old.parents.get(self.parents.at()).map(who);
            let at = parents.iter().position(|it| Some(who(it)) == here);
            self.refusals.clear();
            self.parents.set(self.setup.prices(), at);
            self.still.begins_anew(self.parents.at());
            // (a look is at a place of the list)
            let is_look = |conn: &Conn| matches!(conn.state, State::Looks(..) | State::Comes(..));
            for id in self.all_that(is_look) {
                self.conns.remove(&id);
                self.outputs.push_back(Output::Close(id));
            }
            let is_look = |whom: &Whom| matches!(whom, Whom::Candidate(_));
            self.dials.retain(|whom, _| !is_look(whom));
            if let (None, Some(id)) = (at, self.above) {
                self.leave_line(id, "the parents changed");
                self.parents.tries(0);
            }
            if self.above.is_none() && !self.words.contains_key(&Whom::Parent) {
                self.dials.remove(&Whom::Parent);
            }
        }
        self.keep_stores();
        self.dial_all();
        self.tell();
    }

    /// Each child of the set-up is one, and all are called who have an address.
    fn dial_all(&mut self) {
        let mut whoms = BTreeSet::new();
        for (at, parent) in self.setup.parents.iter().enumerate() {
            whoms.extend((!self.setup.is_root()).then_some(Whom::Parent));
            whoms.extend(parent.address.as_ref().map(|_| Whom::Candidate(at)));
        }
        if let Children::Named(children) = &self.setup.children {
            let are_there = children.keys().eq(self.relay.children().map(|it| it.0));
            for (name, address) in children {
                (!are_there).then(|| self.relay.add(name, self.now));
                whoms.extend(address.as_ref().map(|_| Whom::Child(name.clone())));
            }
        }
        let is_leaf = matches!(&self.setup.children, Children::Named(all) if all.is_empty());
        self.parents.set_children(!is_leaf);
        self.dials.retain(|whom, _| whoms.contains(whom));
        for whom in whoms {
            self.dials.entry(whom).or_default();
        }
    }

    /// Adds a child to the set-up.
    ///
    /// # Errors
    ///
    /// Why it is none, and nothing is changed.
    pub fn add(&mut self, name: &str, address: Option<A>, now: Time) -> Result<(), ChildError> {
        if !super::is_name(name) || name == self.setup.name {
            return Err(ChildError::NoName);
        }
        match &mut self.setup.children {
            Children::Any => return Err(ChildError::Any),
            Children::Named(names) if names.contains_key(name) => {
                return Err(ChildError::Known);
            }
            Children::Named(names) => names.insert(name.into(), address),
        };
        self.now = now;
        self.dial_all();
        Ok(())
    }

    /// Removes a child from the set-up, and closes its connection.
    ///
    /// # Errors
    ///
    /// Where there is none of this name.
    pub fn remove(&mut self, name: &str, now: Time) -> Result<(), ChildError> {
        self.now = now;
        self.relay.child(name).ok_or(ChildError::Unknown)?;
        self.leave_child(name);
        Ok(())
    }

    fn leave_child(&mut self, name: &str) {
        if let Children::Named(names) = &mut self.setup.children {
            names.remove(name);
        }
        self.dials.remove(&Whom::Child(name.into()));
        self.leave_links(name, "it was removed");
        self.relay.remove(name);
        self.outputs.push_back(Output::Gone(name.into()));
    }

    /// Leaves all connections of a child, and what lies in a store for it.
    fn leave_links(&mut self, name: &str, why: &str) {
        let child = Whom::Child(name.into());
        let is_its = |conn: &Conn| matches!(&conn.state, State::Link(it, ..) if *it == child);
        for id in self.all_that(is_its) {
            self.leave_line(id, why);
        }
        self.leave_words(&child);
    }
}

rignolda::spoils! { Peers<A> {
    setup, life, relay, conns, now, brings, made, strange, dials, children, stores, words, parents,
    above, above_life, told, still, reconnects, refused, said_refused, last_refused, refusals,
    known, late, fails, answers, waiting, not_waiting, beat, says_again, digest, makes
} }

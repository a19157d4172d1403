//! Whom an agent may have connections with.
use crate::net::error::error;
use crate::prelude::*;
use alloc::collections::BTreeMap;
use core::fmt;
use core::time::Duration;

/// Whom an agent may have connections with. `A`: an address, that is where one connects to.
#[derive(Clone, Debug, PartialEq, Eq)]
pub struct Setup<A> {
    /// The agent's own name.
    pub name: String,
    /// In the order in which they are tried. [`Parents`](crate::net::Parents) says by what rule one
    /// of several is chosen. Who has none is the root.
    pub parents: Vec<Parent<A>>,
    /// The rank of a root that has parents all the same: it takes none, but looks at each now and
    /// then, since another root may be above it. Whoever looks at it is told the rank, by which two
    /// roots that find each other know which of them goes on. None stays none in a
    /// [new set-up](super::Peers::set_up), and a root one.
    pub rank: Option<u64>,
    /// Those below.
    pub children: Children<A>,
    /// How long the answer to a frame, or a hello, may take before the connection is left. Who was
    /// late is given twice the time at each try, and twice what slow answers took of late, but at
    /// most 32 times this: so one that is slow is served slowly, and not again and again in vain.
    /// Where nobody knows who was late, whoever connects is given more from then on.
    pub ack_timeout: Duration,
    /// How long a child may be away before its backlog is dropped.
    pub evict: Duration,
    /// How often a [store](crate::net::Turn) is looked at where nothing changes there.
    pub poll: Duration,
}

impl<A> Setup<A> {
    /// Whether nobody is above it.
    pub fn is_root(&self) -> bool {
        self.parents.is_empty() || self.rank.is_some()
    }

    /// What the ways over the parents cost besides 1. A root takes none of them.
    pub(super) fn prices(&self) -> impl Iterator<Item = Option<u16>> + '_ {
        let taken = self.parents.iter().filter(move |_| !self.is_root());
        taken.map(|it| it.price)
    }
}

/// A parent. It has a name, an address or both.
#[derive(Clone, Debug, PartialEq, Eq)]
pub struct Parent<A> {
    /// Where there is one, the parent's hello has to have it.
    pub name: Option<String>,
    /// Where there is none, the parent connects to the agent.
    pub address: Option<A>,
    /// What the way over it costs besides 1; where nothing is said, 8 for each place in the list.
    pub price: Option<u16>,
}

/// Its name; where it has none, its address.
impl<A: fmt::Display> fmt::Display for Parent<A> {
    fn fmt(&self, to: &mut fmt::Formatter<'_>) -> fmt::Result {
        match (&self.name, &self.address) {
            (Some(name), _) => to.write_str(name),
            (None, Some(address)) => address.fmt(to),
            (None, None) => Ok(()),
        }
    }
}

/// Which agents may be children.
#[derive(Clone, Debug, PartialEq, Eq)]
pub enum Children<A> {
    /// These. A child that has no address connects to the agent, and the agent to the others.
    Named(BTreeMap<String, Option<A>>),
    /// Each one that can connect, and whose line may have its name.
    Any,
}

error! {
    /// Why an agent is not made a child, or is none that could be removed.
    ChildError {
        /// Its name is [none](crate::net::is_name), or that of the agent itself.
        NoName = "it is no name of a child",
        /// [Any](Children::Any) child may connect.
        Any = "any child may connect already",
        /// It is a child.
        Known = "it is a child already",
        /// It is no child.
        Unknown = "it is no child",
    }
}

/// The other end of a connection.
#[derive(Clone, Debug, PartialEq, Eq, PartialOrd, Ord)]
#[non_exhaustive]
pub enum Whom {
    /// The parent.
    Parent,
    /// The child of this name.
    Child(String),
    /// The parent at this place of the list, which is looked at while another one is connected.
    Candidate(usize),
}

impl fmt::Display for Whom {
    fn fmt(&self, to: &mut fmt::Formatter<'_>) -> fmt::Result {
        to.write_str(match self {
            Whom::Parent => "the parent",
            Whom::Child(name) => name,
            Whom::Candidate(_) => "a candidate",
        })
    }
}

/// A connection that is to be made.
#[derive(Clone, Debug, PartialEq, Eq)]
pub struct Call<A> {
    /// To whom.
    pub whom: Whom,
    /// Where to.
    pub address: A,
    /// How often in turn it failed: of several places that an address has, another one is to be
    /// tried each time.
    pub failed: usize,
}

/// What a report that is sent to the parent now may be.
#[derive(Clone, Copy, Debug, PartialEq, Eq)]
pub enum ReportKind {
    /// All there is to report.
    Whole,
    /// That, or what changed since the last report by this connection: each one has another number.
    Changes(u64),
}

rignolda::spoils! { Setup<A> { name, parents, rank, children, ack_timeout, evict, poll } }
rignolda::spoils! { Parent<A> { name, address, price } }
rignolda::spoils_one_of! { Whom { Parent } Child(name), Candidate(at) }

#[cfg(feature = "trial")]
impl<A: rignolda::trial::Spoil> rignolda::trial::Spoil for Children<A> {
    fn spoil(&mut self, by: &mut rignolda::trial::Spoils<'_>) {
        match self {
            Children::Named(all) if !by.once_in(9) => all.spoil(by),
            _ => *self = Children::Any,
        }
    }
}

//! What comes out of connections: what is to be done, and what follows from what came.
use super::connection::Chunk;
use super::Peers;
use crate::net::{Body, Way};
use crate::prelude::*;
use crate::Fact;
use alloc::sync::Arc;

/// What is to be done about lines, and what an agent is told.
#[derive(Clone, Debug, PartialEq, Eq)]
#[non_exhaustive]
pub enum Output {
    /// An item came from the parent, or was published, and is the last of the list now. Before
    /// anything else [`Peers::takes`](super::Peers::takes) is to be told what it is.
    Item(Arc<Body>),
    /// This is to be sent on this line, behind what was to be sent before. Once the system has all
    /// of it, [`Peers::sent`](super::Peers::sent) is to be told so, before anything else that comes
    /// by this line.
    Send(u64, Chunk),
    /// This line is to be closed, once what was to be sent was written as far as it could be at
    /// once.
    Close(u64),
    /// A child reports this: what there is to watch, and the numbers above which a root goes on.
    /// What makes no sense may be counted: its connection stays, since no step of a link depends on
    /// a report. So nothing that is done about one may cost much, or send much.
    Report(String, Vec<u8>),
    /// The parent lacks what the last report of changes was made from: the next one is to be whole.
    ReportRequest,
    /// A child is one no longer: what it said may be forgotten.
    Gone(String),
    /// A root that [has parents](super::Setup::rank) has looked at the one at this place, which
    /// says this way, and, if it is a root itself, its rank; or nothing if it could not be looked
    /// at.
    Looked(usize, Option<(Way, u64)>),
    /// A fact for a journal.
    Fact(Fact),
}

impl<A> Peers<A> {
    pub(super) fn tells(&mut self, fact: Fact) {
        self.outputs.push_back(Output::Fact(fact));
    }
}

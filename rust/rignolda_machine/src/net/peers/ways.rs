//! Ways to a root: those that parents say, and what follows from them.
use super::connection::State;
use super::{Output, Peers, Result, Whom};
use crate::net::wire::OLD;
use crate::net::Way;
use crate::prelude::*;
use core::fmt;

impl<A: Clone + PartialEq + fmt::Display> Peers<A> {
    /// A candidate says its way. It becomes the parent, or not.
    pub(super) fn way_came(&mut self, id: u64, way: Way) -> Result {
        let conn = self.conns.get(&id).ok_or("it is gone")?;
        let since = conn.since;
        match conn.state.clone() {
            State::Looks(whom, at, Some(rank)) if self.setup.is_root() => {
                self.outputs.push_back(Output::Looked(at, Some((way, rank))));
                self.has_looked(id, &whom);
            }
            State::Looks(whom, at, Some(_)) => {
                self.looked(at, &way)?;
                self.leave(at);
                if whom != Whom::Parent {
                    self.look_ended(&whom, false, "");
                }
                self.parents.took(at, way);
                let number = self.relay.made().ok_or("no number is left")?;
                // (the hello takes as long as the look did)
                let mut took = self.now - since;
                self.dial_with(&Whom::Parent, |dial| {
                    dial.under_way = true;
                    took = took.max(dial.took);
                });
                let until = Some(self.now + self.later(took, 0));
                let state = State::Link(Whom::Parent, number, None);
                self.conn_with(id, |conn| (conn.state, conn.until) = (state, until));
                self.above = Some(id);
                let name = self.name_of(&Whom::Parent, at).cloned();
                self.say(id, name.unwrap_or_default());
            }
            State::Comes(at, hello) => match self.looked(at, &way) {
                Ok(()) => {
                    self.leave(at);
                    self.parents.took(at, way);
                    self.parent_greets(id, &hello)?;
                }
                Err(why) if hello.version == OLD => return Err(why),
                Err(_) => {
                    // (it is to connect again later, and no other life is told)
                    self.say(id, hello.from);
                    self.answered(id);
                }
            },
            _ => return Err("it is no message".into()),
        }
        Ok(())
    }

    /// Whether a candidate that says this is to be taken now; else why not.
    pub(super) fn looked(&mut self, at: usize, way: &Way) -> Result {
        let is_other = self.parents.has_root() && at != self.parents.at();
        if is_other && self.still.is_barred(at) {
            return Err("it brought no table for long".into());
        }
        let looked = match is_other && self.still.is() {
            true => self.parents.replaces(at, way),
            false => self.parents.looked(at, way),
        };
        looked.map_err(|why| why.to_string())
    }
}

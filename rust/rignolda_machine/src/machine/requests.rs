//! What operators ask an agent for.
use super::{refused, Machine, Now};
use crate::control::{Request, Response};
use crate::prelude::*;
use crate::root::Root;
use crate::settings::furthest;
use crate::standby::{Lacks, Standby};
use crate::{Refused, Ticket, Time};

/// The answer to a request; nothing where it comes later.
type Answer = Result<Option<Response>, Refused>;

/// It is done; or is answered once it is done, as a change is once it is published.
const DONE: Answer = Ok(Some(Response::Done));
const LATER: Answer = Ok(None);

/// The same, unless it is refused.
fn later(asked: Result<(), Refused>) -> Answer {
    asked.map(|()| None)
}

impl Machine {
    /// Does what an operator asks for.
    pub(super) fn request(
        &mut self,
        ticket: Ticket,
        request: Request,
        now: Now,
    ) -> Option<Response> {
        self.asked(ticket, request, now).unwrap_or_else(|why| Some(refused(why)))
    }

    fn asked(&mut self, ticket: Ticket, request: Request, now: Now) -> Answer {
        let at = now.at;
        match request {
            Request::Ping => DONE,
            Request::Status => Ok(Some(Response::Status(Box::new(self.full_status(at))))),
            Request::Tree => Ok(Some(Response::Tree(self.tree(&self.status(at), at)))),
            Request::ChildAdd { name } => self.add(&name, at),
            Request::ChildRemove { name } => self.remove(&name, at),
            Request::Forget { name } => self.leave_out(&name, at),
            Request::Promote { as_is } => self.promote(as_is, ticket, now),
            Request::Demote => later(self.standby()?.demote(ticket)),
            Request::Key { key } => Ok(Some(Response::Key(self.root()?.published.key(&key)))),
            Request::Publish { key, value } => later(self.root()?.ask(&key, Some(value), ticket)),
            Request::Unset { key } => later(self.root()?.ask(&key, None, ticket)),
            Request::PromoteValue { key } => later(self.root()?.promote(&key, ticket)),
            Request::Confirm { digest } => later(self.root()?.confirm(&digest, at, ticket)),
            Request::Round => later(self.root()?.ask_round(at, ticket)),
            Request::Diff => {
                self.root()?.ask_diff(at, ticket);
                LATER
            }
            Request::Look => {
                self.root()?.look_again(at, ticket);
                LATER
            }
            Request::Drain => {
                self.root()?.drain(at);
                DONE
            }
            Request::Resume => {
                let root = self.root()?;
                root.resume();
                root.begin_round(at);
                DONE
            }
        }
    }

    fn root(&mut self) -> Result<&mut Root<Ticket>, Refused> {
        self.came.root.as_mut().ok_or(Refused::NotRoot)
    }

    fn standby(&mut self) -> Result<&mut Standby<Ticket>, Refused> {
        self.came.standby.as_mut().ok_or(Refused::NoStandby)
    }

    fn add(&mut self, child: &str, now: Time) -> Answer {
        if !self.config.listens {
            return Err("nobody can connect: there is no `listen`".into());
        }
        self.peers.add(child, None, now).map_err(|why| why.to_string())?;
        self.config.peers = self.peers.setup().clone();
        self.came.changed = true;
        DONE
    }

    fn remove(&mut self, child: &str, now: Time) -> Answer {
        self.peers.remove(child, now).map_err(|why| why.to_string())?;
        self.config.peers = self.peers.setup().clone();
        DONE
    }

    /// Leaves an agent out of what is known below, until it is connected.
    fn leave_out(&mut self, name: &str, now: Time) -> Answer {
        let list = self.came.below.tree(&self.status(now), now);
        match list.iter().skip(1).find(|seen| seen.name == name) {
            None => return Err(format!("no agent `{name}` is known below it").into()),
            Some(seen) if seen.connected => return Err(format!("`{name}` is connected").into()),
            Some(_) => self.came.below.leave_out(name),
        }
        self.came.changed = true;
        DONE
    }

    fn promote(&mut self, as_is: bool, ticket: Ticket, now: Now) -> Answer {
        let (digest, taker) = (self.came.whole(), &self.came.table.taker);
        let numbers = self.came.numbers().into_iter().chain([self.came.seen]);
        let seen = furthest(taker.number, numbers);
        let own = furthest(taker.floor, [taker.number]);
        let newer = self.came.below.newer(own);
        let lacks = newer.map(|(who, change)| Lacks { who, change, own });
        later(self.standby()?.promote(!as_is, lacks, (seen, now.micros()), digest, ticket))
    }
}

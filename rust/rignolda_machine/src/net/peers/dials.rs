//! Whom an agent calls, and when again.
use super::connection::{End, State};
use super::{Call, Children, Output, Parent, Peers, Whom, BEAT, SHORT};
use crate::net::wire::{self, FIRST, OLD};
use crate::net::Refusal;
use crate::prelude::*;
use crate::{Fact, Time};
use core::time::Duration;
use core::{fmt, mem};

/// When somebody is called next.
#[derive(Default)]
pub(super) struct Dial {
    /// Nothing: at once.
    pub(super) next: Option<Time>,
    pub(super) failed: u32,
    pub(super) under_way: bool,
    /// How long the hello took that came last.
    pub(super) took: Duration,
    /// How often in turn the other end left without a word: then version 1 is tried. A child is to
    /// do so twice, since nobody would find out later that it speaks more.
    pub(super) mute: u8,
    /// Why it failed last.
    pub(super) why: String,
}

impl<A: Clone + PartialEq + fmt::Display> Peers<A> {
    pub(super) fn is_idle(&self, whom: &Whom, dial: &Dial) -> bool {
        let is_connected = match whom {
            Whom::Parent => self.above.is_some(),
            Whom::Child(name) => self.children.contains_key(name),
            Whom::Candidate(_) if self.setup.is_root() => false,
            Whom::Candidate(at) => {
                let above = self.above.and_then(|id| self.conns.get(&id));
                let is_old = above.is_some_and(|it| it.is_old() && it.greeted().is_some());
                let is_left = self.parents.has_root() && self.still.is_barred(*at);
                is_left || !(self.parents.looks_at(*at, is_old) || self.seeks(*at))
            }
        };
        !dial.under_way && !is_connected
    }

    /// Whether this candidate is looked at since the parent stands still.
    fn seeks(&self, at: usize) -> bool {
        let is_other = self.parents.has_root() && at != self.parents.at();
        is_other && self.still.is()
    }

    pub(super) fn address(&self, whom: &Whom) -> Option<&A> {
        match (whom, &self.setup.children) {
            (Whom::Child(name), Children::Named(children)) => children.get(name)?.as_ref(),
            (Whom::Child(_), Children::Any) => None,
            _ => self.candidate(self.place_of(whom))?.address.as_ref(),
        }
    }

    pub(super) fn candidate(&self, at: usize) -> Option<&Parent<A>> {
        self.setup.parents.get(at)
    }

    /// The place of a parent in the list.
    pub(super) fn place_of(&self, whom: &Whom) -> usize {
        match whom {
            Whom::Candidate(at) => *at,
            _ => self.parents.at(),
        }
    }

    /// The name of this end, if it is known; a parent has this place.
    pub(super) fn name_of<'a>(&'a self, whom: &'a Whom, at: usize) -> Option<&'a String> {
        match whom {
            Whom::Child(name) => Some(name),
            _ => self.candidate(at)?.name.as_ref(),
        }
    }

    /// How many are tried in turn.
    pub(super) fn all(&self, whom: &Whom) -> u32 {
        match whom {
            Whom::Parent => self.setup.parents.len().max(1) as u32,
            Whom::Child(_) | Whom::Candidate(_) => 1,
        }
    }

    /// A connection that is to be made now. What became of it is to be told to [`Peers::called`].
    #[must_use = "what becomes of it is to be told"]
    pub fn next_call(&mut self, now: Time) -> Option<Call<A>> {
        self.now = now;
        let is_due = |dial: &Dial| dial.next.is_none_or(|at| now >= at);
        let is = |(whom, dial): &(&Whom, &Dial)| is_due(dial) && self.is_idle(whom, dial);
        let (whom, _) = self.dials.iter().find(is)?;
        let (whom, all) = (whom.clone(), self.all(whom));
        let address = self.address(&whom).cloned();
        if address.is_none() {
            // (it has a while to connect itself, before the next one is tried)
            self.fails(&whom, "it has not connected");
            // (at no time it is due again at once, whatever the timeout is)
            let pause = self.setup.ack_timeout.max(Duration::from_millis(1));
            self.dials.get_mut(&whom)?.next = Some(now + pause);
            return self.next_call(now);
        }
        let dial = self.dials.get_mut(&whom)?;
        dial.under_way = true;
        let failed = (dial.failed / all) as usize;
        address.map(|address| Call { whom, address, failed })
    }

    /// A call has ended: whether it is wanted still.
    pub(super) fn is_wanted(&mut self, call: &Call<A>) -> bool {
        let is_same = self.address(&call.whom) == Some(&call.address);
        let dial = self.dials.get_mut(&call.whom);
        let was_under_way = dial.is_some_and(|dial| mem::take(&mut dial.under_way));
        was_under_way && is_same && self.is_idle(&call.whom, &self.dials[&call.whom])
    }

    /// A call led to a line of this number, or failed: why. It is closed if it is not wanted any
    /// more.
    pub fn called(&mut self, call: Call<A>, made: Result<(u64, End), String>, now: Time) {
        self.now = now;
        let is_wanted = self.is_wanted(&call);
        match made {
            Ok((id, _)) if !is_wanted || self.has_line(id) => {
                self.outputs.push_back(Output::Close(id));
            }
            Ok((id, end)) => self.begins_call(&call, id, end),
            Err(why) if is_wanted => self.fails(&call.whom, &why),
            Err(_) => (),
        }
    }

    fn begins_call(&mut self, call: &Call<A>, id: u64, end: End) {
        let (whom, at) = (&call.whom, self.place_of(&call.whom));
        let Dial { mute, took, .. } = self.dials[whom];
        let is_child = matches!(whom, Whom::Child(_));
        let is_old = mute > u8::from(is_child);
        let looks = !is_old && !is_child;
        let number = match whom {
            _ if looks => None,
            Whom::Child(name) => self.relay.made_to(name),
            _ => self.relay.made(),
        };
        let state = match number {
            _ if looks => State::Looks(whom.clone(), at, None),
            Some(number) => State::Link(whom.clone(), number, None),
            None => {
                self.outputs.push_back(Output::Close(id));
                return self.fails(whom, "no number is left");
            }
        };
        self.dial_with(whom, |dial| dial.under_way = true);
        let until = self.now + self.later(took, call.failed as u32);
        self.open(id, end, state, until);
        self.conn_with(id, |conn| conn.version = if is_old { OLD } else { FIRST });
        let name = self.name_of(whom, at).cloned().unwrap_or_default();
        self.say(id, name);
        match whom {
            Whom::Child(_) => self.say_way(id),
            _ if looks => (),
            _ => self.above = Some(id),
        }
    }

    pub(super) fn dial_with(&mut self, whom: &Whom, change: impl FnOnce(&mut Dial)) {
        if let Some(dial) = self.dials.get_mut(whom) {
            change(dial);
        }
    }

    /// Somebody cannot be connected to now: the next one is tried after a while.
    fn fails(&mut self, whom: &Whom, why: &str) {
        let (all, tried, place) = (self.all(whom), self.parents.at(), self.place_of(whom));
        let dial = match self.dials.get_mut(whom) {
            Some(dial) => dial,
            None => return,
        };
        // (of several, what each says would be said for ever; that one refuses it, is said once)
        let is_news = dial.failed == 0 || (all == 1 && dial.why != why);
        dial.why = why.into();
        let refusal = match self.refusals.get_mut(&place) {
            Some((it, was_said)) if it.to_string() == why => Some(mem::replace(was_said, true)),
            _ => None,
        };
        let no_parent = |it: &Parent<A>| Some(Fact::NoParent(at(it).to_string(), why.into()));
        let fact = match (whom, self.setup.parents.get(place), refusal) {
            (Whom::Child(name), ..) if is_news => Some(Fact::NoChild(name.clone(), why.into())),
            (Whom::Parent, Some(it), None) if is_news => no_parent(it),
            (Whom::Parent | Whom::Candidate(_), Some(it), Some(false)) => no_parent(it),
            _ => None,
        };
        self.outputs.extend(fact.map(Output::Fact));
        if refusal.is_none() && !matches!(whom, Whom::Child(_)) {
            self.refusals.remove(&place);
        }
        let rounds = (dial.failed / all).min(5);
        (dial.mute, dial.failed) = (0, dial.failed.saturating_add(1));
        let pause = match whom {
            Whom::Candidate(at) if self.setup.is_root() => {
                self.outputs.push_back(Output::Looked(*at, None));
                BEAT / 2
            }
            Whom::Candidate(at) => self.parents.pause(*at),
            _ => Duration::from_millis(50 << rounds),
        };
        let next = Some(self.after(pause));
        self.dial_with(whom, |dial| dial.next = next);
        if *whom == Whom::Parent && self.above.is_none() {
            self.parents.tries((tried + 1) % all as usize);
        }
    }

    /// When about so long went by: each agent has its own time, so that a parent that is back is
    /// not run over.
    fn after(&self, pause: Duration) -> Time {
        let drawn = (self.life ^ self.made.wrapping_mul(0x9e37_79b9_7f4a_7c15)) % 1_000;
        self.now + pause * (500 + drawn as u32) / 1_000
    }

    /// A root has looked at the candidate to which this connection leads: it does so again after a
    /// while.
    pub(super) fn has_looked(&mut self, id: u64, whom: &Whom) {
        let took = self.conns.remove(&id).map_or(Duration::ZERO, |conn| self.now - conn.since);
        self.outputs.push_back(Output::Close(id));
        self.refusals.remove(&self.place_of(whom));
        let next = Some(self.after(BEAT));
        self.dial_with(whom, |dial| *dial = Dial { next, took, ..Dial::default() });
    }

    /// The parent at this place refuses this agent, or does not.
    pub(super) fn was_refused(&mut self, at: usize, why: Option<Refusal>) {
        if let Some(why) = why {
            let was_said = self.refusals.get(&at) == Some(&(why, true));
            self.refusals.insert(at, (why, was_said));
        }
    }

    /// A look is over. Who left without a word may speak version 1 alone: then it is called so.
    pub(super) fn look_ended(&mut self, whom: &Whom, is_mute: bool, why: &str) {
        let at = self.parents.at();
        self.dial_with(whom, |dial| dial.under_way = false);
        match whom {
            Whom::Parent if self.above.is_some() => (),
            Whom::Parent if is_mute && self.parents.looked(at, &self.parents.old(at)).is_ok() => {
                self.dial_with(whom, |dial| (dial.mute, dial.next) = (1, None));
            }
            _ => self.fails(whom, why),
        }
    }

    /// Leaves the parent for the one at this place, and says so.
    pub(super) fn leave(&mut self, at: usize) {
        let is_same = at == self.parents.at();
        self.still.takes(at, self.now);
        self.dial_with(&Whom::Parent, |dial| dial.under_way = false);
        if let Some(id) = self.above.take() {
            let conn = self.conns.get(&id).filter(|it| it.greeted().is_some());
            if conn.is_some_and(|it| !it.is_old() && !is_same) {
                self.sends_last(id, wire::GOODBYE.into());
            }
            let why = match is_same {
                true => "it connected anew",
                false => "another parent is taken",
            };
            self.leave_line(id, why);
        }
        self.leave_words(&Whom::Parent);
    }

    /// Who was left is called again after a while, or the next one is.
    pub(super) fn redial(&mut self, whom: &Whom, greeted: Option<Time>, why: &str) {
        let all = self.all(whom);
        let dial = match self.dials.get_mut(whom) {
            Some(dial) => dial,
            None => return,
        };
        // (no call is under way while there is a link that the other end has made)
        dial.under_way = false;
        if greeted.is_some_and(|since| self.now >= since + SHORT) {
            dial.failed = 0;
            dial.why = why.into();
            dial.next = Some(self.now + Duration::from_millis(self.life % 50));
            if *whom == Whom::Parent {
                self.parents.tries(0);
            }
        } else {
            // (after a short one it waits too, but never long)
            if greeted.is_some() {
                dial.failed = dial.failed.min(all);
            }
            self.fails(whom, why);
        }
    }
}

/// Where a parent is, in words.
fn at<A: fmt::Display>(parent: &Parent<A>) -> &dyn fmt::Display {
    match &parent.address {
        Some(address) => address,
        None => parent,
    }
}

rignolda::spoils! { Dial { next, failed, under_way, took, mute, why } }

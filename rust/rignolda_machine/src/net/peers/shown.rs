//! What the words of links in a store show, and what follows from it.
use super::words::Words;
use super::{Output, Peers, Whom};
use crate::net::wire::{self, Expect, Hello, Message};
use crate::prelude::*;
use crate::{Fact, Time};
use core::time::Duration;
use core::{fmt, mem};

/// The first pause between two looks after something changed. It doubles until nothing does.
pub(super) const FIRST: Duration = Duration::from_millis(2);

/// Whether something changed; nothing where there is no such word.
type Moved = Option<bool>;

/// The hello of a word that comes from this agent and means that one, and what is behind it.
fn word_of<'a>(bytes: &'a [u8], from: &str, to: &str) -> Option<(Hello, &'a [u8])> {
    wire::word(bytes).filter(|(hello, _)| hello.from == from && hello.to == to)
}

impl<A: Clone + PartialEq + fmt::Display> Peers<A> {
    /// What came of a turn.
    pub fn turned(&mut self, store: &A, got: Result<Vec<Vec<u8>>, String>, now: Time) {
        self.now = now;
        if let Some(at) = self.stores.iter().position(|it| it.address == *store) {
            let asked = self.stores[at].asked.take().unwrap_or_default();
            match got {
                Ok(got) => {
                    let mut moved = false;
                    for ((whom, what), bytes) in asked.into_iter().zip(got) {
                        moved |= self.shown(&whom, what, bytes);
                    }
                    let mut its = self.words.values().filter(|words| words.place == at);
                    let (is_more, place) = (its.any(|words| words.more), &mut self.stores[at]);
                    let slower = place.pause.saturating_mul(2).min(self.setup.poll);
                    place.pause = if moved { FIRST } else { slower };
                    place.due = if is_more { now } else { now + place.pause };
                }
                Err(why) => {
                    for whom in self.all_in(at, |_| true) {
                        let words = self.leave_words(&whom);
                        self.lost(&whom, words.and_then(|words| words.since), &why);
                    }
                }
            }
        }
        self.tell();
    }

    /// A link that was there since then, or is not there yet, is to be called again.
    fn lost(&mut self, whom: &Whom, since: Option<Time>, why: &str) {
        if since.is_some() {
            self.tells(Fact::Closed { whom: whom.to_string(), why: why.into(), place: None });
        }
        self.redial(whom, since, why);
    }

    /// The way of a parent that is looked at, or is there.
    fn way_shown(&mut self, whom: &Whom, words: &mut Words, bytes: &[u8]) -> bool {
        let way = match wire::message(bytes, Expect::Way) {
            Ok(Some((Message::Way(way), []))) => Some(way),
            _ => None,
        };
        let (at, is_parent) = (self.place_of(whom), *whom == Whom::Parent);
        if !words.looks {
            let is_new = way.is_some() && way != words.way;
            if let (true, Some(way)) = (is_new, way) {
                words.way = Some(way.clone());
                let heard = words.since.map_or(Ok(()), |_| self.parents.hears(way));
                heard.unwrap_or_else(|why| {
                    self.lost(whom, words.since.take(), &why.to_string());
                });
            }
            return is_new;
        }
        // (of one that speaks version 1 there is no such word)
        let old = is_parent.then(|| self.parents.old(at));
        let said = way.clone().or(old).ok_or_else(|| "its word is not there".to_string());
        match said.and_then(|said| self.looked(at, &said).map(|()| said)) {
            Err(why) => self.look_ended(whom, false, &why),
            Ok(_) if is_parent => (words.looks, words.way) = (false, way),
            Ok(said) => {
                self.look_ended(whom, false, "");
                self.leave(at);
                // (else another one that is looked at now would be better than none)
                self.parents.took(at, said);
                self.dial_with(&Whom::Parent, |dial| (dial.next, dial.failed) = (None, 0));
            }
        }
        true
    }

    /// A key shows this. Whether something changed.
    fn shown(&mut self, whom: &Whom, key: &str, bytes: Vec<u8>) -> bool {
        let moved = self.words_with(whom, |peers, words| match (key, whom) {
            ("down", Whom::Parent) => peers.parent_shown(words, &bytes),
            ("up", Whom::Child(_)) => peers.child_shown(words, &bytes),
            ("report", Whom::Child(name)) => {
                words.more = false;
                if !bytes.is_empty() {
                    peers.outputs.push_back(Output::Report(name.clone(), bytes));
                }
                None
            }
            ("way", _) => Some(peers.way_shown(whom, words, &bytes)),
            _ => {
                // (the own word: somebody deleted or spoiled it, or it is of a backup)
                let kept = peers.relay.kept().1;
                let differs = words.own.as_ref().is_some_and(|own| *own != bytes)
                    && (*whom == Whom::Parent || words.may_begin(kept, peers.now));
                if differs {
                    words.own = None;
                }
                Some(differs)
            }
        });
        moved.flatten() == Some(true)
    }

    fn parent_shown(&mut self, words: &mut Words, bytes: &[u8]) -> Moved {
        let was_look = !mem::take(&mut words.more);
        let (hello, rest) = word_of(bytes, &words.other, &self.setup.name)?;
        if words.since.is_none() {
            let at = self.parents.at();
            let way = words.way.clone().unwrap_or_else(|| self.parents.old(at));
            if let Err(why) = self.looked(at, &way) {
                self.lost(&Whom::Parent, None, &why);
                return None;
            }
            self.parents.took(at, way);
        }
        if words.since.is_none() || self.above_life != Some(hello.life) {
            (words.since, words.until) = (words.since.or(Some(self.now)), None);
            self.parent_is_there(&hello);
        }
        if wire::head(rest)?.0 == self.relay.label() {
            return None;
        }
        match wire::message(rest, Expect::Frames) {
            Ok(Some((Message::Frame(label, body), []))) => {
                let came = self.relay.on_frame(None, label, &body);
                self.came(came, &body);
                Some(true)
            }
            Ok(None) => {
                words.more = was_look;
                Some(was_look)
            }
            _ => None,
        }
    }

    fn child_shown(&mut self, words: &mut Words, bytes: &[u8]) -> Moved {
        let name = &*words.other.clone();
        let (Hello { life, label, .. }, rest) = word_of(bytes, name, &self.setup.name)?;
        let reports = wire::reports(rest)?;
        let is_other = words.last.is_some_and(|(old, _)| old != life);
        if is_other && !words.may_begin(self.relay.kept().1, self.now) {
            return None;
        }
        let before = words.last.replace((life, label));
        let changed = before != words.last;
        let is_new = before.is_none_or(|(old, _)| old != life);
        words.more |= is_new || words.reports != reports;
        let is_alive = changed || mem::replace(&mut words.reports, reports) != reports;
        // (who was left behind begins anew once nothing lies there for it, or it shows a life)
        let left = self.relay.is_left_behind(name);
        if left && words.waits.is_some() && !is_alive {
            return None;
        }
        if left || is_new || (is_alive && words.since.is_none()) {
            let anew = self.relay.word_seen(name, life, label, self.now)?;
            words.since = Some(self.now);
            words.waits = words.waits.filter(|_| !anew);
            self.tells(Fact::Connected { whom: name.into(), anew });
        }
        // (a look that would change nothing is none)
        if words.waits != Some(label) && !changed {
            return None;
        }
        let taken = self.relay.on_ack(name, None, label, self.now);
        if taken {
            (words.waits, words.until) = (None, None);
        }
        Some(taken || changed)
    }

    /// What was waited for has not come: a frame is set again, and another parent is tried.
    pub(super) fn late(&mut self, whom: &Whom, words: &mut Words) {
        words.until = None;
        if let Whom::Child(name) = whom {
            if !self.relay.is_left_behind(name) {
                words.own = None;
            }
            self.relay.word_away(name, self.now);
            self.relay.was_late(name);
            if words.since.take().is_some() {
                let (whom, why) = (whom.to_string(), "nothing came in time".into());
                self.tells(Fact::Closed { whom, why, place: None });
            }
        } else {
            self.lost(whom, None, "its word is not there");
        }
    }
}

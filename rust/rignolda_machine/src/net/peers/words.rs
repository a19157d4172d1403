//! Links that lie in a store in place of a connection, for agents that reach no other agent.
//!
//! Of each link the parent alone sets `PARENT:CHILD:down`, a hello and behind it the frame of its
//! sender; the child alone sets `PARENT:CHILD:up`, a hello with the label that its receiver
//! remembers, the acknowledgement, and how often it has set `PARENT:CHILD:report`, its
//! report. What is no such word, of these two names, counts as nothing there. Beside them
//! the parent sets `PARENT:CHILD:way`, at which a child looks before it sets anything.
//!
//! # Which law holds, and from when
//!
//! The two words are the registers of [`word`](rignolda::word), with bodies: a get shows what was
//! set last, however often. So it is no session: the link is a line of capacity 1, and counts 1 to
//! C and 3 to M as each other link of such a tree. Its count begins with its ends, whatever the
//! words show then. A word that is deleted or spoiled, and a store that is away or back empty, lose
//! messages, and no count ends. A word that shows again what it showed before, as out of a backup,
//! or that others have written, is a fault: count from then.
//!
//! A set that was given up may be done later, and would be such a fault at any time. So
//! [a turn](crate::net::Turn) has to see to it that none of before is done any more; and the
//! first turn of an end sets its own word, and kills what was left of an earlier process of it.
//! An end asks for nothing while a turn is under way, and what it got it gives to its half before
//! it says what to set next. Of a word that shows an old frame it takes nothing: that is a look,
//! and no step.
use super::shown::FIRST;
use super::{travels, Call, Peers, Way, Whom};
use crate::net::wire::{self, FRAME_HEAD, OLD, REPORT_BYTES, WAY_BYTES};
use crate::net::{Turn, BODY_BYTES};
use crate::prelude::*;
use crate::Time;
use core::time::Duration;
use core::{fmt, mem};

/// How much of a frame is got before it is known to be fresh.
const LOOK: usize = 1_024;
/// A link that begins anew costs a whole table, and so does a frame that others spoiled and that is
/// set again: so many bytes of that in a second at most.
const ANEW: u64 = 1 << 20;

/// A store in which links of an agent lie.
pub(super) struct Place<A> {
    pub(super) address: A,
    /// Of the turn under way, which keys are got, and whose.
    pub(super) asked: Option<Vec<(Whom, &'static str)>>,
    pub(super) due: Time,
    pub(super) pause: Duration,
}

/// A link, at one of its ends.
#[derive(Default)]
pub(super) struct Words {
    /// Which of the stores it lies in.
    pub(super) place: usize,
    pub(super) other: String,
    keys: String,
    /// What the own word shows, without a body; where that is not known it is to be set.
    pub(super) own: Option<Vec<u8>>,
    /// Since when the other end's word is there.
    pub(super) since: Option<Time>,
    /// When it is too late for what is waited for.
    pub(super) until: Option<Time>,
    /// The life and the label that the other end's word showed last.
    pub(super) last: Option<(u64, u16)>,
    /// The label of the frame that waits for its acknowledgement.
    pub(super) waits: Option<u16>,
    /// Whether more is to be got: of a fresh frame all, of a child its report.
    pub(super) more: bool,
    pub(super) reports: u32,
    pub(super) report: Option<Vec<u8>>,
    /// From when it may begin anew again; nothing where it never did.
    calm: Option<Time>,
    /// Whether a parent is only looked at so far.
    pub(super) looks: bool,
    /// The way that the parent's word showed last, or that was set for the child.
    pub(super) way: Option<Way>,
}

impl Words {
    /// Whether it may begin anew now, or set again what others spoiled, where so many bytes are
    /// kept for it; then it begins.
    pub(super) fn may_begin(&mut self, kept: usize, now: Time) -> bool {
        let may = self.calm.is_none_or(|calm| now >= calm);
        if may {
            self.calm = Some(now + Duration::from_millis(kept as u64 * 1_000 / ANEW));
        }
        may
    }

    fn key(&self, of: &str) -> String {
        format!("{}:{of}", self.keys)
    }
}

impl<A: Clone + PartialEq + fmt::Display> Peers<A> {
    /// A call leads to a store: the link lies there from now on.
    pub fn in_store(&mut self, call: Call<A>, now: Time) {
        self.now = now;
        if !self.is_wanted(&call) {
            return;
        }
        self.dial_with(&call.whom, |dial| dial.under_way = true);
        let name = self.name_of(&call.whom, self.place_of(&call.whom));
        let other = name.cloned().unwrap_or_default();
        let keys = self.keys(&call.whom, &other);
        let is_one_of_many = call.whom == Whom::Parent && self.all(&call.whom) > 1;
        let place = self.stores.iter().position(|it| it.address == call.address);
        let words = Words {
            place: place.unwrap_or(self.stores.len()),
            other,
            keys,
            until: is_one_of_many.then(|| now + self.setup.ack_timeout),
            // (else the first turn sets the own word)
            looks: is_one_of_many || matches!(call.whom, Whom::Candidate(_)),
            ..Words::default()
        };
        self.words.insert(call.whom, words);
        if place.is_none() {
            self.stores.push(Place { address: call.address, asked: None, due: now, pause: FIRST });
        }
    }

    /// What the keys of a link begin with.
    fn keys(&self, whom: &Whom, other: &str) -> String {
        let own = &self.setup.name;
        match whom {
            Whom::Child(_) => format!("{own}:{other}"),
            _ => format!("{other}:{own}"),
        }
    }

    /// Whether a link lies where none is to, or is one with somebody else.
    pub(super) fn lies_elsewhere(&self) -> bool {
        let is_right = |(whom, words): (&Whom, &Words)| {
            let name = self.name_of(whom, self.place_of(whom)).map_or("", |it| it);
            let address = self.stores.get(words.place).map(|it| &it.address);
            let is_there = address.is_some() && address == self.address(whom);
            is_there && name == words.other && words.keys == self.keys(whom, name)
        };
        !self.words.iter().all(is_right)
    }

    /// When there is something to do at a store although nothing comes.
    pub(super) fn turn_due(&self) -> Option<Time> {
        let due = |words: &Words| {
            let Place { asked, due, .. } = self.stores.get(words.place)?;
            let due = words.until.map_or(*due, |until| until.min(*due));
            asked.is_none().then_some(due)
        };
        self.words.values().filter_map(due).min()
    }

    /// Those with whom a link lies in this store of which this holds.
    pub(super) fn all_in(&self, place: usize, holds: impl Fn(&Words) -> bool) -> Vec<Whom> {
        let all = self.words.iter();
        let all = all.filter(|(_, words)| words.place == place && holds(words));
        all.map(|(whom, _)| whom.clone()).collect()
    }

    /// Does this with a link, if it is there. It is not there any more once its call is over.
    pub(super) fn words_with<T>(
        &mut self,
        whom: &Whom,
        step: impl FnOnce(&mut Self, &mut Words) -> T,
    ) -> Option<T> {
        let mut words = self.words.remove(whom)?;
        let done = step(self, &mut words);
        if self.dials.get(whom).is_some_and(|dial| dial.under_way) {
            self.words.insert(whom.clone(), words);
        }
        Some(done)
    }

    /// After a change of the set-up: links that do not lie there any more are left.
    pub(super) fn keep_stores(&mut self) {
        let all: Vec<Whom> = self.words.keys().cloned().collect();
        for whom in all {
            let (words, name) = (&self.words[&whom], self.name_of(&whom, self.parents.at()));
            let is_other = whom == Whom::Parent && name != Some(&words.other);
            let address = self.stores.get(words.place).map(|it| &it.address);
            if is_other || self.address(&whom) != address {
                self.leave_words(&whom);
            }
        }
    }

    /// What lies in a store for somebody is left.
    pub(super) fn leave_words(&mut self, whom: &Whom) -> Option<Words> {
        let words = self.words.remove(whom)?;
        if let Whom::Child(name) = whom {
            self.relay.word_away(name, self.now);
        }
        self.dial_with(whom, |dial| dial.under_way = false);
        Some(words)
    }

    /// Whether a turn at this store is under way.
    pub fn asks(&self, store: &A) -> bool {
        let mut places = self.stores.iter();
        places.any(|place| place.address == *store && place.asked.is_some())
    }

    /// The turns that are to be begun now, and at which stores. What came of each is to be told to
    /// [`Peers::turned`].
    #[must_use = "what becomes of them is to be told"]
    pub fn turns(&mut self, now: Time) -> Vec<(A, Turn)> {
        self.now = now;
        let mut turns = Vec::new();
        for at in 0..self.stores.len() {
            if self.stores[at].asked.is_some() {
                continue;
            }
            for whom in self.all_in(at, |it| it.until.is_some_and(|until| now >= until)) {
                self.words_with(&whom, |peers, words| peers.late(&whom, words));
            }
            let (mut turn, mut all) = (Turn::default(), mem::take(&mut self.words));
            for (whom, words) in all.iter_mut().filter(|(_, words)| words.place == at) {
                words.way = words.way.take().filter(|_| !self.says_again);
                self.set(whom, words, &mut turn, now);
            }
            self.words = all;
            let (is_idle, place) = (turn.sets.is_empty(), &mut self.stores[at]);
            if is_idle && now < place.due {
                continue;
            }
            if !is_idle {
                place.pause = FIRST;
            }
            let mut asked = Vec::new();
            for (whom, words) in self.words.iter().filter(|(_, it)| it.place == at) {
                let mut get = |key, most| {
                    turn.gets.push((words.key(key), most));
                    asked.push((whom.clone(), key));
                };
                let own = words.own.as_ref().map_or(0, Vec::len);
                match whom {
                    Whom::Parent | Whom::Candidate(_) => {
                        get("way", WAY_BYTES + 5);
                        if words.looks {
                            continue;
                        }
                        get("up", own + 1);
                        let all = if words.more { BODY_BYTES + 1 } else { LOOK };
                        get("down", own + FRAME_HEAD + all);
                    }
                    Whom::Child(_) => {
                        get("up", own.max(LOOK));
                        if words.waits.is_some() {
                            get("down", own);
                        }
                        if words.more {
                            get("report", REPORT_BYTES + 1);
                        }
                    }
                }
            }
            if !asked.is_empty() {
                place.asked = Some(asked);
                turns.push((place.address.clone(), turn));
            }
        }
        self.says_again = false;
        turns
    }

    /// What the own word of a link is to show, where it does not.
    fn set(&mut self, whom: &Whom, words: &mut Words, turn: &mut Turn, now: Time) {
        if words.looks {
            return;
        }
        let sets = &mut turn.sets;
        let mut hello = self.hello(OLD, Some(whom), words.other.clone());
        if let Whom::Child(_) = whom {
            // (what the own receiver remembers changes, and is not for a child)
            hello.label = 0;
        }
        let (show, mut own, frame) = match whom {
            Whom::Child(name) => {
                let way = self.parents.says();
                if words.way.as_ref() != Some(way) {
                    sets.push((words.key("way"), wire::way(way)));
                    words.way = Some(way.clone());
                }
                let (mut own, frame) = (hello.bytes(), self.relay.poll(name, now));
                if let Some((label, body)) = &frame {
                    own.extend(wire::frame(*label, body));
                } else if words.own.is_some() {
                    return;
                }
                ("down", own, frame)
            }
            _ => {
                sets.extend(words.report.take().map(|it| (words.key("report"), it)));
                ("up", wire::up(&hello, words.reports), None)
            }
        };
        if words.own.as_ref() == Some(&own) {
            return;
        }
        words.own = Some(own.clone());
        words.waits = frame.as_ref().map(|(label, _)| *label);
        if let Some((_, body)) = frame {
            let takes = self.patience(&words.other).saturating_add(travels(body.bytes.len()));
            words.until = Some(now + takes);
            own.extend_from_slice(&body.bytes);
        }
        sets.push((words.key(show), own));
    }
}

rignolda::spoils! { Place<A> { address, asked, due, pause } }
rignolda::spoils! { Words {
    place, other, keys, own, since, until, last, waits, more, reports, report, calm, looks, way
} }

#[cfg(test)]
mod tests {
    use super::*;
    use crate::net::{Children, Parent, Setup};

    const STORE: &str = "store";

    /// An agent whose links lie in a store, and nothing has come yet.
    fn peers(now: Time) -> Peers<String> {
        let parent = |name: &str| Parent {
            name: Some(name.into()),
            address: Some(STORE.into()),
            price: None,
        };
        let child = ("child".into(), Some(STORE.into()));
        let setup = Setup {
            name: "own".into(),
            parents: [parent("one"), parent("two")].into(),
            rank: None,
            children: Children::Named([child].into()),
            ack_timeout: Duration::from_millis(500),
            evict: Duration::from_secs(60),
            poll: Duration::from_millis(50),
        };
        let mut peers = Peers::new(setup, 1, 64, now);
        while let Some(call) = peers.next_call(now) {
            peers.in_store(call, now);
        }
        peers
    }

    #[test]
    fn a_link_that_is_spoiled_to_be_another_one_is_seen() {
        type Spoils = fn(&mut Peers<String>, Whom);
        let spoils: [Spoils; 4] = [
            |peers, whom| peers.words.get_mut(&whom).unwrap().place = 7,
            |peers, whom| peers.words.get_mut(&whom).unwrap().other = "another".into(),
            |peers, whom| peers.words.get_mut(&whom).unwrap().keys = "one:another".into(),
            |peers, _| peers.stores[0].address = "elsewhere".into(),
        ];
        let now = Time::default();
        for (at, spoils) in spoils.into_iter().enumerate() {
            for whom in [Whom::Parent, Whom::Child("child".into())] {
                let mut peers = peers(now);
                assert_eq!((peers.words.len(), peers.fault()), (2, None));
                spoils(&mut peers, whom.clone());
                let _ = peers.deadline();
                assert!(peers.fault().is_some(), "{at} {whom:?}");
            }
        }
        // (and the parent at another place of the list is another one)
        let mut peers = peers(now);
        peers.parents.tries(1);
        assert!(peers.fault().is_some());
    }
}

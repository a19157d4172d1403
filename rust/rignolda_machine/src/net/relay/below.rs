//! The links of a node to its children.
use super::{Link, List, Polled, Relay, LABELS, LIVES};
use crate::net::Body;
use crate::prelude::*;
use crate::Time;
use alloc::collections::{BTreeMap, VecDeque};
use alloc::sync::Arc;
use core::time::Duration;
use rignolda::{Connection, Session};

impl Relay {
    /// The children, by their names.
    pub fn children(&self) -> impl Iterator<Item = (&String, &Link)> {
        self.children.iter()
    }

    /// The link to a child.
    pub fn child(&self, name: &str) -> Option<&Link> {
        self.children.get(name)
    }

    /// Nothing came of a child in time.
    pub fn was_late(&mut self, name: &str) {
        if let Some(link) = self.children.get_mut(name) {
            link.timeouts += 1;
            link.late = link.late.saturating_add(1);
            link.idle = 0;
        }
    }

    /// A child that may connect. Until it does, it holds nothing back.
    pub fn add(&mut self, name: &str, now: Time) {
        self.keeps = true;
        if !self.children.contains_key(name) {
            let session = Session::new(self.above.node().child(self.params, 0, 0));
            let link = Link {
                session,
                connection: None,
                held: None,
                times: 0,
                lives: VecDeque::new(),
                clashes: 0,
                left: true,
                words: false,
                since: now,
                sent: None,
                connections: 0,
                timeouts: 0,
                late: 0,
                took: Duration::ZERO,
                idle: 0,
                seen: 0,
                acknowledged: 0,
                ignored: 0,
            };
            self.children.insert(name.into(), link);
        }
    }

    /// A child is one no longer.
    pub fn remove(&mut self, name: &str) {
        self.children.remove(name);
        self.quickest.set(None);
        self.forget();
    }

    /// Begins a connection to a child. The one that there was is left.
    #[must_use = "the number belongs to the connection"]
    pub fn made_to(&mut self, name: &str) -> Option<Connection> {
        let link = self.children.get_mut(name)?;
        (link.connection, link.words) = (None, false);
        self.quickest.set(None);
        link.session.made()
    }

    /// A child said this in its hello, on a connection that it made, or that was made to it under a
    /// number. The link goes on where it is the same process, and was not left behind; else it
    /// begins anew at the last whole table. With the connection comes whether it did.
    #[must_use = "the number belongs to the connection"]
    pub fn greeted(
        &mut self,
        name: &str,
        life: u64,
        label: u16,
        made: Option<Connection>,
        now: Time,
    ) -> Option<(Connection, bool)> {
        // (the receiver takes the first frame of a sender with another label as fresh)
        let other = if label < LABELS - 1 { label + 1 } else { 0 };
        let anew = self.begin(name, life, other)?;
        let link = self.children.get_mut(name)?;
        link.words = false;
        link.connection = match made {
            None => link.session.accepted(),
            Some(_) if anew => link.session.made(),
            Some(number) => Some(number).filter(|number| link.session.has(*number)),
        };
        (link.since, link.sent) = (now, None);
        link.connections += u64::from(link.connection.is_some());
        link.connection.map(|number| (number, anew))
    }

    /// The link goes on where the child's process has this life and was not left behind. Else it
    /// begins anew at the last whole table, with this label. Whether it did.
    fn begin(&mut self, name: &str, life: u64, label: u16) -> Option<bool> {
        let since = self.since_table();
        self.quickest.set(None);
        let (link, node) = (self.children.get_mut(name)?, self.above.node());
        let anew = link.lives.front() != Some(&life) || link.left;
        if anew {
            // (numbers of connections go on, so that an old one is never taken for a new one)
            let before = link.session.renew(node.child(self.params, label, since));
            link.acknowledged += before.acknowledged();
            link.ignored += before.ignored();
            (link.held, link.sent, link.left) = (None, None, false);
            (link.idle, link.seen) = (0, link.acknowledged());
            if link.lives.front() != Some(&life) {
                link.clashes += u64::from(link.lives.contains(&life));
                link.lives.push_front(life);
                link.lives.truncate(1 + LIVES);
            }
            self.moved = true;
        }
        Some(anew)
    }

    /// Leaves a connection of a child.
    pub fn child_ended(&mut self, name: &str, connection: Connection, now: Time) {
        if let Some(link) = self.children.get_mut(name) {
            link.session.ended(connection);
            if link.connection == Some(connection) {
                (link.connection, link.sent, link.since) = (None, None, now);
                self.quickest.set(None);
            }
        }
    }

    /// The frame to write to a child now, and its body; or, where it has no connection and was not
    /// left behind, to set for it in a store.
    #[must_use = "the turn is given away by it"]
    pub fn poll(&mut self, name: &str, now: Time) -> Option<(u16, Arc<Body>)> {
        let polled = self.polled(name, now)?;
        Some((polled.label, polled.body))
    }

    /// The same, with what is known of the child's answers.
    pub(in crate::net) fn polled(&mut self, name: &str, now: Time) -> Option<Polled> {
        let (children, mut list) = self.parts();
        list.poll(children.get_mut(name)?, now)
    }

    /// The same of each of these children, which have connections, with what is beside its name.
    /// (Mostly few of them have answered.)
    pub(in crate::net) fn polled_all<T: Copy>(
        &mut self,
        all: &BTreeMap<String, T>,
        now: Time,
    ) -> Vec<(T, Polled)> {
        let (children, mut list) = self.parts();
        let mut links = children.iter_mut();
        let polled = all.iter().filter_map(|(name, it)| {
            let (_, link) = links.find(|(of, _)| *of == name)?;
            let may_send = link.session.is_in_turn();
            Some((*it, may_send.then(|| list.poll(link, now))??))
        });
        polled.collect()
    }

    /// The links to the children, and what their steps need.
    fn parts(&mut self) -> (&mut BTreeMap<String, Link>, List<'_>) {
        let list = List {
            node: self.above.node(),
            bodies: &self.bodies,
            moved: &mut self.moved,
            front: &mut self.front,
            quickest: &self.quickest,
        };
        (&mut self.children, list)
    }

    /// Takes an acknowledgement of a child that came by this connection, or, by none, that its word
    /// in a store shows: whether it is that of the sender's item.
    pub fn on_ack(&mut self, name: &str, by: Option<Connection>, label: u16, now: Time) -> bool {
        let (children, mut list) = self.parts();
        let link = match children.get_mut(name) {
            Some(link) => link,
            None => return false,
        };
        let taken = list.on_ack(link, by, label, now);
        if self.moved {
            self.forget();
        }
        taken
    }

    /// The same, and then what is to be sent to the child.
    pub(in crate::net) fn acknowledged(
        &mut self,
        name: &str,
        by: Connection,
        label: u16,
        now: Time,
    ) -> Option<Polled> {
        let (children, mut list) = self.parts();
        let link = children.get_mut(name)?;
        list.on_ack(link, Some(by), label, now);
        if *list.moved {
            self.forget();
            return self.polled(name, now);
        }
        list.poll(link, now)
    }

    // ---- Links below that lie in a store

    /// The word of a child shows this life and label, and was not seen before, or not for a while,
    /// or the child was left behind: as [`Relay::greeted`]. Whether the link began anew.
    pub fn word_seen(&mut self, name: &str, life: u64, label: u16, now: Time) -> Option<bool> {
        // (the child may have a frame of an earlier sender in hand: of this one, or of one before
        // it, which had the label after the child's)
        let own = self.children.get(name)?.session.end().label();
        let other = (label.min(LABELS - 1) + 2) % LABELS;
        let other = if other == own { (other + 1) % LABELS } else { other };
        let anew = self.begin(name, life, other)?;
        let link = self.children.get_mut(name)?;
        link.connections += u64::from(!link.words);
        link.words = true;
        link.since = now;
        Some(anew)
    }

    /// The store does not answer, or the child does not.
    pub fn word_away(&mut self, name: &str, now: Time) {
        if let Some(link) = self.children.get_mut(name).filter(|link| link.words) {
            link.words = false;
            link.since = now;
            self.quickest.set(None);
        }
    }

    /// Drops the backlog of a child: it begins anew when it connects again.
    pub fn leave_behind(&mut self, name: &str) {
        if let Some(link) = self.children.get_mut(name) {
            (link.left, link.held) = (true, None);
            self.moved = true;
            self.quickest.set(None);
        }
    }

    /// Drops the backlog of each child that has been away for so long. They are named.
    #[must_use = "who is left behind is to be told"]
    pub fn evict(&mut self, after: Duration, now: Time) -> Vec<String> {
        let is_late = |link: &Link| now >= link.since + after;
        let late = self.away().filter(|(_, link)| is_late(link));
        let names: Vec<String> = late.map(|(name, _)| name.clone()).collect();
        names.iter().for_each(|name| self.leave_behind(name));
        if !names.is_empty() {
            self.forget();
        }
        names
    }

    /// When [`Relay::evict`] may have something to do next.
    pub fn evicts_at(&self, after: Duration) -> Option<Time> {
        self.away().map(|(_, link)| link.since + after).min()
    }

    /// The children that are away, and hold something back.
    fn away(&self) -> impl Iterator<Item = (&String, &Link)> {
        let all = self.children.iter();
        all.filter(|(_, link)| !link.left && !link.is_connected())
    }

    /// Whether what the child needs next was forgotten, so that it begins anew.
    pub fn is_left_behind(&self, name: &str) -> bool {
        self.children.get(name).is_some_and(|link| link.left)
    }

    /// The frame that is sent to a child, and its body, while it is not acknowledged; and how often
    /// [`Relay::poll`] gave it.
    pub fn under_way(&self, name: &str) -> Option<(u16, &Arc<Body>, u64)> {
        let link = self.children.get(name)?;
        Some((link.session.end().label(), link.held.as_ref()?, link.times))
    }

    /// How many items a child has not acknowledged.
    pub fn backlog(&self, link: &Link) -> u64 {
        if link.left {
            return 0;
        }
        self.above.node().backlog(link.session.end())
    }

    /// The backlog of the child that is least behind, of those that are connected.
    pub fn least_backlog(&self) -> Option<u64> {
        let length = self.above.node().length();
        // (for one that was left behind nothing waits, whatever comes)
        let place = |link: &Link| match link.left {
            true => u64::MAX,
            false => length.saturating_sub(self.backlog(link)),
        };
        let links = || self.children.values().filter(|link| link.is_connected());
        let quickest = self.quickest.get();
        debug_assert!(quickest.is_none_or(|it| it == links().map(place).max()));
        let quickest = quickest.unwrap_or_else(|| links().map(place).max());
        self.quickest.set(Some(quickest));
        quickest.map(|place| length.saturating_sub(place))
    }
}

impl List<'_> {
    fn poll(&mut self, link: &mut Link, now: Time) -> Option<Polled> {
        let (session, node) = (&mut link.session, self.node);
        let before = session.offered();
        let frame = session.poll(node);
        let is_word = frame.is_none() && !link.left;
        let frame = frame.or_else(|| session.poll_word(node).filter(|_| is_word))?;
        if session.offered() != before {
            if before == node.forgotten() {
                *self.front = self.front.saturating_sub(1);
                *self.moved |= *self.front == 0;
            }
            let place = (before - node.forgotten()) as usize;
            (link.held, link.sent) = (self.bodies.get(place).cloned(), None);
            link.times = 0;
        }
        link.times = link.times.saturating_add(1);
        link.sent = link.sent.or(Some(now));
        // (the item is that of the proved list, and the body was beside it: else nothing is sent)
        let body = link.held.clone().filter(|body| body.item == frame.item)?;
        Some(Polled {
            label: frame.label,
            body,
            times: link.times,
            took: link.took,
            late: link.late,
        })
    }

    fn on_ack(&mut self, link: &mut Link, by: Option<Connection>, label: u16, now: Time) -> bool {
        let taken = match by {
            Some(connection) => link.session.on_ack(connection, label),
            None => !link.left && link.session.on_word(label),
        };
        if taken {
            link.held = None;
            let backlog = self.node.backlog(link.session.end());
            let place = self.node.length().saturating_sub(backlog);
            let quickest = self.quickest.get().map(|it| it.max(Some(place)));
            self.quickest.set(quickest.filter(|_| link.is_connected()));
        }
        // (the first one on a connection may be no answer, and a word may show an old one)
        if taken || by.is_some() {
            link.answered(now);
        }
        taken
    }
}

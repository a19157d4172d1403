//! What holds of a relay's state whatever it is given, as [`Peers::check`](super::super::Peers)
//! looks at it.
use super::{Above, Link, Params, Relay, LABELS};
use crate::{first_of, Time};
use core::time::Duration;
use rignolda::Connection;

impl Link {
    /// Whether this is its connection.
    pub(crate) fn has(&self, connection: Connection) -> bool {
        self.connection == Some(connection)
    }

    /// At how many looks in turn it lacked an item, and had taken none since the one before.
    pub(crate) fn idle(&self) -> u64 {
        self.idle
    }

    /// How many bytes the body has that is sent.
    pub(crate) fn held_bytes(&self) -> usize {
        self.held.as_ref().map_or(0, |body| body.bytes.len())
    }
}

impl Relay {
    /// Brings back to its bound what has one.
    pub(crate) fn mend(&mut self, now: Time) {
        self.quickest.set(None);
        for link in self.children.values_mut() {
            link.since = link.since.min(now);
            link.sent = link.sent.map(|sent| sent.min(now));
        }
    }

    /// Looks at each child, some of which the caller knows to be connected.
    pub(crate) fn count_idle(&mut self, is_connected: impl Fn(&str) -> bool) {
        let node = self.above.node();
        for (name, link) in &mut self.children {
            let lacks = link.left || node.backlog(link.session.end()) > 0;
            let acknowledged = link.acknowledged();
            let is_idle = lacks && link.seen == acknowledged;
            link.seen = acknowledged;
            link.idle = match is_idle && (link.is_connected() || is_connected(name)) {
                true => link.idle.saturating_add(1),
                false => 0,
            };
        }
    }

    /// Leaves a child behind, whatever is known of it.
    pub(crate) fn begin_anew(&mut self, name: &str, now: Time) {
        self.leave_behind(name);
        if let Some(link) = self.children.get_mut(name) {
            (link.connection, link.words) = (None, false);
            (link.since, link.late, link.took) = (now, 0, Duration::ZERO);
        }
    }

    /// What cannot be, where something cannot.
    pub(crate) fn fault(&self) -> Option<&'static str> {
        let (node, kept) = (self.above.node(), self.bodies.len() as u64);
        let lengths = self.bodies.iter().map(|body| body.bytes.len());
        let mut children = self.children.values();
        let is_spent = node.length() == u64::MAX
            || children.any(|link| link.session.is_spent())
            || matches!(&self.above, Above::Below(session) if session.is_spent());
        let is_listed = node.length().checked_sub(node.forgotten()) == Some(kept);
        let has_others = kept > self.room || lengths.sum::<usize>() != self.bytes;
        first_of([
            (Params::new(1, LABELS) != Ok(self.params), "it counts other labels"),
            (node.room() as u64 != self.room, "its list has other room"),
            (!is_listed, "its list is another one"),
            (has_others, "it keeps other bodies"),
            (node.ack().is_none(), "the link above is closed"),
            (is_spent, "no number is left"),
        ])
    }
}

#[cfg(test)]
mod tests {
    use super::*;
    use crate::net::Body;
    use crate::prelude::*;

    /// Else it would go out with its own item, which fits, and nobody below could tell.
    #[test]
    fn a_body_that_lies_beside_another_item_is_not_sent() {
        let now = Time::default();
        let mut relay = Relay::root(8);
        relay.add("child", now);
        for table in ["one", "two"] {
            relay.publish(&Arc::new(Body::of(table.into())));
            relay.last_is_a_table();
            relay.publish(&Arc::new(Body::of(b"more".to_vec())));
            if table == "one" {
                relay.bodies.swap(0, 1);
            }
            let label = relay.greeted("child", 1, 0, None, now).map(|_| relay.poll("child", now));
            let sent = label.flatten().map(|(_, body)| body.bytes.clone());
            assert_eq!(sent.as_deref(), (table == "two").then_some(&b"two"[..]));
            // (as whoever takes nothing, it begins anew at the next table)
            relay.begin_anew("child", now);
        }
    }
}

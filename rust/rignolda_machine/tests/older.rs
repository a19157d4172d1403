//! What a leaf applies while its parent begins anew, again and again, or while it moves to one that
//! lags: never anything older after something newer.
use rignolda_machine::net::{Body, Relay};
use rignolda_machine::settings::{Meaning, Publisher, Table};
use rignolda_machine::Time;
use std::sync::Arc;

/// An agent, and the values of `colour` that it applied, each with the number of its body.
struct Agent {
    relay: Relay,
    table: Table,
    applied: Vec<(u64, String)>,
}

impl Agent {
    fn new(children: bool) -> Agent {
        let relay = Relay::below(64);
        let relay = if children { relay.keeping() } else { relay };
        Agent { relay, table: Table::default(), applied: Vec::new() }
    }

    /// A parent that begins anew, and has got these.
    fn with(bodies: &[Arc<Body>], now: Time) -> Agent {
        let mut agent = Agent::new(true);
        agent.relay.add("leaf", now);
        let labels = (0..255).cycle();
        bodies.iter().zip(labels).for_each(|(body, label)| agent.takes(label, body));
        agent
    }

    fn takes(&mut self, label: u16, body: &Arc<Body>) {
        let connection = self.relay.made().unwrap();
        let is_fresh = self.relay.on_frame(Some(connection), label, body).is_fresh;
        let _ = self.relay.ack();
        let (number, meaning) = body.meaning().unwrap();
        if !is_fresh || !self.table.takes(number, &meaning) {
            return;
        }
        if matches!(meaning, Meaning::Table(_)) {
            self.relay.last_is_a_table();
        }
        let (Meaning::Table(entries) | Meaning::Changes(entries)) = meaning else {
            return;
        };
        for value in entries.iter().filter(|it| it.0 == "colour").filter_map(|it| it.1) {
            self.applied.push((number, String::from_utf8_lossy(value).into()));
        }
    }

    /// Gets all that a parent has for it, over a connection of its own.
    fn gets_all_of(&mut self, parent: &mut Agent, life: u64, now: Time) {
        let label = self.relay.label();
        let (connection, _) = parent.relay.greeted("leaf", life, label, None, now).unwrap();
        while let Some((label, body)) = parent.relay.poll("leaf", now) {
            self.takes(label, &body);
            parent.relay.on_ack("leaf", Some(connection), self.relay.label(), now);
        }
    }
}

/// A table with red, a round in which it becomes blue, and another round.
fn published() -> Vec<Arc<Body>> {
    let mut publisher = Publisher::new(99);
    let mut bodies = Vec::new();
    let mut publish = |publisher: &mut Publisher, most: usize| {
        bodies.extend((0..most).map_while(|_| publisher.next(1_000)).map(|it| it.body));
    };
    publisher.set("colour", b"red".to_vec());
    publish(&mut publisher, 1);
    publisher.begin_round(7);
    publish(&mut publisher, 2);
    publisher.set("colour", b"blue".to_vec());
    publish(&mut publisher, 9);
    publisher.begin_round(7);
    publish(&mut publisher, 9);
    bodies
}

/// What a leaf applies whose parent has these many bodies when it is asked first, then after it
/// began anew, and so on.
fn applied(parents: &[usize]) -> Vec<(u64, String)> {
    let (bodies, now) = (published(), Time::default());
    let mut leaf = Agent::new(false);
    for (life, count) in (1..).zip(parents) {
        leaf.gets_all_of(&mut Agent::with(&bodies[..*count], now), life, now);
    }
    leaf.applied
}

#[test]
fn it_keeps_blue_while_its_parent_begins_anew_twice_in_a_round() {
    // (100 is the table, 101 and 102 are harmless, 103 makes it blue)
    let expected = [(100, "red".to_string()), (103, "blue".to_string())];
    assert_eq!(applied(&[4, 3, 1]), expected);
    assert_eq!(applied(&[4, 1, 3, 2, 1, 4, 3]), expected);
}

#[test]
fn whatever_its_parents_have_nothing_older_follows() {
    let count = published().len();
    assert_eq!(count, 18);
    let lives = (1..=count).flat_map(|one| (1..=count).map(move |other| (one, other)));
    for (one, other) in lives {
        for last in [1, 4, 12, count] {
            let applied = applied(&[one, other, last, count]);
            let numbers: Vec<_> = applied.iter().map(|it| it.0).collect();
            assert!(numbers.windows(2).all(|two| two[0] < two[1]), "{one} {other} {applied:?}");
            assert_eq!(applied.last().unwrap().1, "blue");
        }
    }
}

//! Faults of what an agent remembers, as somebody would think of them.
use super::Faults;
use crate::drawn;
use crate::world::World;
use rignolda_machine::net::{Body, Way};
use rignolda_machine::settings::Meaning;
use rignoldactl::Seen;
use std::sync::Arc;

impl Faults {
    /// A number, near those that there are or not.
    pub(super) fn number(&mut self, world: &World) -> u64 {
        let root = world.agents[world.root()].machine.as_ref();
        let near = root.map_or(7, |it| it.came.table.taker.number);
        match self.random.below(5) {
            0 => self.random.number(),
            1 => near.wrapping_add(self.random.below(300)),
            2 => near.wrapping_sub(self.random.below(300)),
            3 => near.wrapping_add(self.random.below(1 << 40)),
            _ => self.random.below(9),
        }
    }

    /// A body that nobody published.
    fn body(&mut self, world: &mut World) -> Arc<Body> {
        let values: Vec<String> =
            (0..3).map(|_| format!("forged {}", self.random.below(99))).collect();
        values.iter().for_each(|it| world.judge.forges(it.as_bytes()));
        let all = ["k1", "k2", "k77"].into_iter().zip(&values);
        let all: Vec<_> = all.map(|(key, value)| (key, Some(value.as_bytes()))).collect();
        if self.random.once_in(8) {
            let item = self.random.number() as u32;
            return Arc::new(Body { item, bytes: b"no body".to_vec() });
        }
        let meaning = match self.random.below(3) {
            0 => Meaning::Changes(all),
            1 => Meaning::Table(all),
            _ => Meaning::Harmless,
        };
        Body::new(self.number(world), &meaning)
    }

    /// Some of what an agent remembers is anything.
    pub(super) fn of_memory(
        &mut self,
        world: &mut World,
        it: usize,
        kind: u64,
    ) -> Option<&'static str> {
        world.agents[it].machine.as_ref()?;
        world.judge.spoils(it, false);
        let bodies: Vec<_> = (0..1 + self.random.below(20))
            .map(|_| (self.body(world), self.random.below(255) as u16))
            .collect();
        let (number, other) = (self.number(world), self.number(world));
        let drawn: Vec<u64> = (0..4).map(|_| self.random.number()).collect();
        let count = world.agents.len();
        let names = (0..self.random.below(6)).map(|_| drawn::name(self.random.at(count))).collect();
        let machine = world.agents[it].machine.as_mut()?;
        let is_root = machine.came.root.is_some();
        Some(match kind {
            21 | 22 => {
                let taker = &mut machine.came.table.taker;
                taker.number = number;
                taker.floor = if drawn[0] % 3 == 0 { other } else { taker.floor };
                machine.came.table.changed = drawn[1];
                machine.came.ahead = if drawn[2] % 3 == 0 { other } else { machine.came.ahead };
                "numbers are spoilt"
            }
            23 | 24 => {
                let relay = machine.peers.relay_mut();
                for (body, label) in bodies {
                    match is_root {
                        true => drop(relay.publish(&body)),
                        false => drop(relay.on_frame(None, label, &body)),
                    }
                    if drawn[0] % 3 == 0 {
                        relay.last_is_a_table();
                    }
                }
                "list is spoilt"
            }
            25 => {
                let way = Way { cost: (drawn[0] % 256) as u16, names };
                let _ = machine.peers.parents_mut().hears(way);
                "way is spoilt"
            }
            26 => {
                let child = machine.peers.relay().children().next()?.0.clone();
                let seen = Seen {
                    name: child.clone(),
                    sequence: number,
                    ahead: other,
                    connected: true,
                    ..Seen::default()
                };
                let now = machine.came.now;
                machine.came.below.heard(&child, &rignoldactl::report(&[seen]), now);
                "what is known of below is spoilt"
            }
            27 => {
                machine.came.root.as_mut()?.published =
                    rignolda_machine::published::Published::new(rignoldactl::sha256);
                "digests are forgotten"
            }
            _ => {
                machine.came.root.as_mut()?.hears([number]);
                "the root's numbers are spoilt"
            }
        })
    }
}

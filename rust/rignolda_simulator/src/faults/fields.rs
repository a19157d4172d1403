//! Faults of memory: one field of what an agent remembers, whichever it is, is set to any value.
use super::Faults;
use crate::world::World;
use rignolda_machine::trial::{Spoil, Spoils};
use rignolda_machine::Time;

impl Faults {
    /// One drawn field of an agent is anything.
    pub(super) fn strike_a_field(&mut self, world: &mut World) {
        let it = self.fields.at(world.agents.len());
        let (now, random) = (world.now(it).at, &mut self.fields);
        let Some(machine) = world.agents[it].machine.as_mut() else { return };
        let mut draw = || random.number();
        let (path, forges) = loop {
            let mut spoils = Spoils::new(&mut draw, now - Time::default(), self.forges);
            machine.spoil(&mut spoils);
            if spoils.strikes() {
                break (spoils.path().to_owned(), spoils.forges());
            }
        };
        world.judge.spoils(it, forges);
        world.excuses(it);
        if world.talks {
            eprintln!("{:>9} n{it} FAULT {path}", world.clock.now());
        }
        *self.counts.entry("field is anything").or_default() += 1;
        *self.struck.entry(path).or_default() += 1;
    }
}

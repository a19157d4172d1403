//! What operators do with two roots, and what happens to these.
use super::Faults;
use crate::world::World;
use rignoldactl::Request;

/// How far two promotions are from each other at least, in milliseconds: by that much their ranks
/// are in the order of the clock.
const APART: u64 = 1_000;

impl Faults {
    /// Something is done with them: after how long something is again.
    pub fn of_roots(&mut self, world: &mut World) -> u64 {
        let (root, other) = (world.root(), 1 - world.root());
        // (a promotion that was refused leaves a root that drains)
        world.ask(root, Request::Resume);
        let promote = |as_is| Request::Promote { as_is };
        let what = match self.roots.below(8) {
            0 => {
                world.ask(root, Request::Drain);
                world.ask(other, promote(false));
                "another root is promoted"
            }
            1..=3 => {
                let power = self.roots.once_in(3);
                if world.agents[root].machine.is_some() {
                    world.end(root, power, 5_000 + self.roots.below(60_000));
                }
                world.ask(other, promote(false));
                "a root is lost"
            }
            4 => {
                world.apart.insert([0, 1]);
                world.ask(other, promote(false));
                "roots are apart"
            }
            5 => {
                world.folders[other] = world.folders[root].clone();
                world.changed(other);
                world.ask(other, promote(true));
                "another root is promoted as it is"
            }
            6 => {
                world.ask(other, Request::Demote);
                "who stands by is demoted"
            }
            _ => {
                self.changes(world, other);
                "a folder changes that is no root's"
            }
        };
        *self.counts.entry(what).or_default() += 1;
        if world.talks {
            eprintln!("{:>9} n{root} ROOTS {what}", world.clock.now());
        }
        APART + if self.roots.once_in(3) { 0 } else { self.roots.below(25_000) }
    }
}

//! What goes wrong with a store.
use super::Faults;
use crate::world::World;

impl Faults {
    /// Something goes wrong with one of them: after how long something does again.
    pub fn of_stores(&mut self, world: &mut World) -> u64 {
        let (now, random) = (world.clock.now(), &mut self.stores);
        let at = random.at(world.stores.len());
        let store = &mut world.stores[at];
        let what = match random.below(7) {
            0 => {
                store.away = now + random.below(20_000);
                "store is away"
            }
            1 | 2 => {
                store.fails = now + random.below(10_000);
                "turns of a store fail"
            }
            3 => {
                store.keys.clear();
                "store is back empty"
            }
            4 => store.copies_or_goes_back(),
            kind => {
                let keys: Vec<String> = store.keys.keys().cloned().collect();
                let Some(key) = keys.get(random.at(keys.len().max(1))) else { return 1_000 };
                let value = store.keys.entry(key.clone()).or_default();
                match kind {
                    5 => drop(store.keys.remove(key)),
                    _ if random.once_in(2) => value.truncate(random.at(90)),
                    _ => *value = (0..random.below(90)).map(|_| random.number() as u8).collect(),
                }
                "word is lost or spoilt"
            }
        };
        *self.counts.entry(what).or_default() += 1;
        if world.talks {
            eprintln!("{now:>9} s{at} FAULT {what}");
        }
        random.below(4_000)
    }
}

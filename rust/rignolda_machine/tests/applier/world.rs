//! A folder and its hooks, of which anything fails at any time: what is so all along, and at last.
use crate::script::{folder, with_hook, Script};
use rignolda_machine::apply::{Done, Ended, Hook, Kept, Mark, Outcome, What};
use rignolda_machine::config::Apply;
use rignolda_machine::settings::{Change, Meaning};
use std::collections::{BTreeMap, BTreeSet};
use std::time::Duration;

/// What a folder has, and what hooks were told last of each key.
#[derive(Default)]
struct World {
    files: BTreeMap<String, Vec<u8>>,
    marks: BTreeSet<String>,
    told: BTreeMap<String, Option<Vec<u8>>>,
    seed: u64,
}

impl World {
    /// A number below this one, as it is drawn.
    fn below(&mut self, most: u64) -> u64 {
        self.seed = self.seed.wrapping_mul(6_364_136_223_846_793_005).wrapping_add(1);
        (self.seed >> 33) % most
    }

    /// What comes of a job, some of which fail.
    fn done(&mut self, what: What, fails: bool) -> Done {
        let fails = fails && self.below(4) == 0;
        match what {
            What::Mark(_) if fails => Done::Refused(Outcome::File("no room".into())),
            What::Mark(Mark { mut files, .. }) => {
                files.unset_others(self.files.keys().cloned());
                Done::Marked(files, folder())
            }
            What::Keep(part, is_last) => {
                let kept = part.into_iter().map(|it| self.kept(it, fails)).collect();
                let (grouped, facts) = (Vec::new(), Vec::new());
                let ended = Ended { is: folder(), sum: 7, whole: None, grouped, facts };
                Done::Kept(kept, is_last.then_some(ended))
            }
            What::Rest => Done::Rested(None),
            What::One(_, change, floor) if self.below(8) == 0 => Done::Newer(floor, change),
            What::One(..) | What::Many(..) if fails => Done::Ran(Err("it fails".into())),
            What::One(key, change, _) => {
                self.told.insert(key, change.value.map(|it| it.to_vec()));
                Done::Ran(Ok(()))
            }
            What::Many(..) => Done::Ran(Ok(())),
            What::Settle(keys) => {
                self.marks.retain(|key| !keys.contains(key));
                Done::Settled
            }
        }
    }

    /// Whether each key has a mark whose hook was not told of the value that its file has.
    fn is_marked(&self) -> bool {
        let all = self.files.keys().chain(self.told.keys());
        let is_told =
            |key: &String| self.files.get(key) == self.told.get(key).and_then(Option::as_ref);
        all.into_iter().all(|key| is_told(key) || self.marks.contains(key))
    }

    fn kept(&mut self, (key, change): (String, Change), fails: bool) -> Kept {
        let value = change.value.as_deref().map(<[u8]>::to_vec);
        let differs = self.files.get(&key) != value.as_ref();
        let fails = fails && self.below(3) == 0;
        if differs {
            self.marks.insert(key.clone());
        }
        match value {
            _ if fails || !differs => (),
            Some(value) => drop(self.files.insert(key.clone(), value)),
            None => drop(self.files.remove(&key)),
        }
        let done = if differs && fails { Err("no room".into()) } else { Ok(()) };
        Kept { key, change, put: false, differs, done }
    }
}

#[test]
fn whatever_failed_is_right_after_a_round_that_goes_well() {
    for seed in 0..60 {
        let many = |keys: &str| Hook {
            keys: vec![keys.into()],
            run: keys.into(),
            timeout: Duration::ZERO,
        };
        let hooks = vec![many("*"), many("k1*")];
        let mut it = Script::new(&Apply { hooks, ..with_hook() });
        let mut world = World { seed, ..World::default() };
        let keys: Vec<String> = (10..90).map(|at| format!("k{at}")).collect();
        let (mut number, end) = (0, 40);
        while number < end || !it.out.is_empty() || it.applier.applied(end) < end {
            if number < end && world.below(3) == 0 {
                number += 1;
                let from = world.below(20) as usize;
                let all = keys[from..].iter().map(|key| (&**key, number.to_string()));
                let all: Vec<_> = all.collect();
                let entries = all.iter().map(|(key, value)| (*key, Some(value.as_bytes())));
                match number == end || world.below(4) == 0 {
                    true => it.says(Meaning::Table(entries.collect()), number),
                    false => it.says(Meaning::Changes(entries.take(9).collect()), number),
                }
                it.now += Duration::from_millis(world.below(100));
            }
            it.jobs();
            let own = it.out.values().filter_map(|what| match what {
                What::One(key, ..) => Some(key),
                _ => None,
            });
            let (count, own) = (own.clone().count(), own.collect::<BTreeSet<_>>());
            assert_eq!(own.len(), count, "of one key one runs at once");
            let at = world.below(5) as usize;
            if let Some(what) = it.out.get_mut(&at).map(|it| std::mem::replace(it, What::Rest)) {
                // (the last round goes well, with all that goes on then)
                let done = world.done(what, number < end);
                it.ended(at, done);
                assert!(world.is_marked(), "{seed}: {:?}", world.marks);
            }
        }
        it.jobs();
        let failures = it.applier.failures(3);
        assert!(failures.is_empty() && world.marks.is_empty(), "{seed} {failures:?}");
        let told = world.told.iter().filter_map(|(key, it)| Some((key, it.as_ref()?)));
        assert!(told.eq(world.files.iter()), "{seed}: each hook is told of the last value last");
    }
}

//! An applier whose workers are a script.
use rignolda_machine::apply::{Applied, Applier, Done, Ended, Identity, Kept, Outcome, What};
use rignolda_machine::config::Apply;
use rignolda_machine::net::Body;
use rignolda_machine::settings::{Change, Heard, Meaning};
use rignolda_machine::Time;
use std::collections::{BTreeMap, BTreeSet};
use std::time::Duration;

/// An applier, and the jobs that its workers have.
pub struct Script {
    pub applier: Applier,
    pub out: BTreeMap<usize, What>,
    pub now: Time,
}

/// A folder that there is. (Nothing is done in it.)
pub fn folder() -> Option<Identity> {
    Some(Identity([1, 2, 3, 4]))
}

/// A hook for each change.
pub fn with_hook() -> Apply {
    Apply { hook: Some("/hook".into()), ..Apply::default() }
}

/// What a worker is to do, in short.
pub fn shown(what: &What) -> String {
    let value = |change: &Change| match change.value.as_deref() {
        Some(value) => format!("={}", String::from_utf8_lossy(value)),
        None => "-".into(),
    };
    match what {
        What::Mark(mark) => format!("mark {}", mark.floor),
        What::Keep(part, is_last) => {
            let part = part.iter().map(|(key, change)| format!(" {key}{}", value(change)));
            ["keep", &part.collect::<String>(), if *is_last { " and all" } else { "" }].concat()
        }
        What::Rest => "rest".into(),
        What::One(key, change, floor) => format!("tell {key}{} at {floor}", value(change)),
        What::Many(_, keys, last) => format!("tell {keys:?} {last}"),
        What::Settle(keys) => format!("settle {keys:?}"),
    }
}

impl Script {
    /// Nothing is applied, and nothing is due.
    pub fn new(config: &Apply) -> Script {
        let applier = Applier::new(config, BTreeSet::new());
        Script { applier, out: BTreeMap::new(), now: Time::after(Duration::from_secs(3_600)) }
    }

    /// A body comes, and is applied.
    pub fn says(&mut self, meaning: Meaning<'_>, number: u64) {
        let looks = matches!(meaning, Meaning::Table(_));
        let heard = Heard { takes: true, applies: true, looks, ..Heard::default() };
        assert!(self.applier.take(&Body::new(number, &meaning), &meaning, number, heard));
    }

    /// A key is set.
    pub fn set(&mut self, key: &str, value: &str, number: u64) {
        self.says(Meaning::Changes(vec![(key, Some(value.as_bytes()))]), number);
    }

    /// All that is set is these keys, each to 1.
    pub fn table(&mut self, keys: &[&str], number: u64) {
        let entries = keys.iter().map(|key| (*key, Some(&b"1"[..])));
        self.says(Meaning::Table(entries.collect()), number);
    }

    /// The workers get their jobs: which these are, the one of files last.
    pub fn jobs(&mut self) -> Vec<String> {
        let mut shows = Vec::new();
        for (at, job) in self.applier.jobs(self.now) {
            shows.push(format!("{at} {}", shown(&job.what)));
            assert!(self.out.insert(at, job.what).is_none(), "it has one: {shows:?}");
        }
        let asked = self.applier.asked().into_iter().enumerate();
        let asked = asked.filter(|(_, is_asked)| *is_asked).map(|(at, _)| at);
        assert!(asked.eq(self.out.keys().copied()), "{shows:?}");
        shows
    }

    /// A job is done.
    pub fn ended(&mut self, at: usize, done: Done) {
        assert!(self.out.remove(&at).is_some());
        self.applier.ended(at, done, self.now);
    }

    /// The folder is marked.
    pub fn marked(&mut self) {
        let Some(What::Mark(mark)) = self.out.get_mut(&0) else { panic!("{:?}", self.out) };
        let files = std::mem::take(&mut mark.files);
        self.ended(0, Done::Marked(files, folder()));
    }

    /// Files are kept; of these keys it fails, and the others differed, or did not.
    pub fn kept(&mut self, failing: &[&str], differs: bool) {
        let Some(What::Keep(part, is_last)) = self.out.get_mut(&0) else {
            panic!("{:?}", self.out)
        };
        let (part, is_last) = (std::mem::take(part), *is_last);
        let kept = part.into_iter().map(|(key, change)| {
            let fails = failing.contains(&&*key);
            let done = if fails { Err("no room".into()) } else { Ok(()) };
            Kept { key, change, put: false, differs: differs || fails, done }
        });
        let (grouped, facts) = (Vec::new(), Vec::new());
        let ended = Ended { is: folder(), sum: 7, whole: None, grouped, facts };
        let done = Done::Kept(kept.collect(), is_last.then_some(ended));
        self.ended(0, done);
    }

    /// All files are kept of what waits.
    pub fn keeps(&mut self, failing: &[&str], differs: bool) {
        assert!(self.jobs().last().is_some_and(|it| it.starts_with("0 mark")));
        self.marked();
        while self.jobs().iter().any(|it| it.starts_with("0 keep")) {
            self.kept(failing, differs);
        }
    }

    /// A hook ends well, and its mark goes.
    pub fn well(&mut self, at: usize) {
        self.ended(at, Done::Ran(Ok(())));
        assert!(self.jobs().iter().any(|it| it.starts_with(&format!("{at} settle"))));
        self.ended(at, Done::Settled);
    }

    /// What was done since it was asked last.
    pub fn done(&mut self) -> Vec<(String, u64, Outcome)> {
        let done = self.applier.done().into_iter();
        done.map(|Applied { key, sequence, status }| (key, sequence, status)).collect()
    }
}

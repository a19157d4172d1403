//! Applies settings: a file for each in a folder, and a hook for each change.
//!
//! What is decided about them is here, without a thread or a clock, and of files by what [the
//! system](FileSystem) answers. The loop hands changes over and never waits: one worker [keeps the
//! files](Keeper), others run hooks, each one [job](Applier::jobs) after the other, so that one
//! that hangs holds up its own keys alone; and [what came of it](Applier::ended) is told here. Of
//! changes of one key that wait, the last is applied. The hooks of a key are due from before its
//! file changes until all of them ended well, which an empty file in `.pending` says; so each is
//! run again after it failed, at the next round, and all are after a crash.
//! Nothing in the folder has to be right: what is wrong or lacking is made anew by the next round.
//!
//! Of a key that has values for groups of agents, the file has the one that counts here. `.groups`
//! has all of them as they were published, for a root that begins and knows no more than its
//! folder; to choose one, nothing is read there, since each body has all that are set.
//!
//! The marker of the folder has the number up to which its files are, or are about to be: an agent
//! that starts applies nothing older. It is there before any other file. It is read before files
//! are changed, or a hook is told a value: if it is ahead of what is known here, as where the
//! memory of a machine went back and its disk did not, the agent goes on as one that starts.
//!
//! What no setting names is removed, so a folder has to be [the agent's own](refusal). That it is,
//! is known of one folder alone, and not of what comes to its place: each body is applied in a
//! folder that is held open.
use crate::config::Apply;
use crate::net::Body;
use crate::prelude::*;
use crate::settings::{Heard, Meaning, Waiting, SETTINGS};
use crate::{Fact, Time};
use core::mem::take;
use core::time::Duration;
use files::Turn;
use running::Running;

mod digest;
mod file_system;
mod files;
mod folder;
mod hook;
mod job;
mod keeper;
mod known;
pub mod marker;
mod others;
mod outcome;
mod part;
mod pending;
mod running;

pub use digest::Digest;
pub use file_system::{FileSystem, Look, Place, Step};
pub use folder::Folder;
pub use hook::{Hook, Runs};
pub use job::{Done, Ended, Identity, Job, Kept, Mark, What};
pub use keeper::{beside, found, published, refusal, Keeper};
pub use outcome::{Applied, Found, Outcome};
pub use pending::{due, House};

/// The file that says that a folder is an agent's, and up to which number its files are.
pub const MARKER: &str = ".rignolda";
/// The folder of values as they were published, of keys that have one for some group.
pub const GROUPS: &str = ".groups";
/// The folder of the keys whose hooks are due.
pub const PENDING: &str = ".pending";
/// How the name of a hook's input begins, while it has one.
pub const INPUT: &str = ".input";
/// How soon after a look at all that is in the folder the next one is, unless a table looks: where
/// changes come faster than that, none of them waits for it.
pub const LISTS: Duration = Duration::from_secs(1);
/// How many hooks run at once at most.
pub const HOOKS: usize = 4;

/// Decides what is done to keep the files of a folder as the settings are, and to run their hooks.
#[derive(Debug, Default)]
pub struct Applier {
    config: Arc<Apply>,
    /// What waits for its file, and whether all files are to be looked at.
    files: Waiting,
    looks: bool,
    /// Whether that waits, since the files are from a later body; and the number of the last one
    /// that was to be applied.
    holds: bool,
    floor: u64,
    /// The number of the files, where these are from a later body: then nothing more is taken until
    /// the loop knows. And whether what the worker of files knows of them is to be forgotten.
    later: Option<u64>,
    forgets: bool,
    /// The files that are being kept, whether the worker of files has a job, and when it rests.
    turn: Option<Turn>,
    is_asked: bool,
    rests: Option<Time>,
    /// Whether the digest that the worker has is that of all files; whether it was so when all were
    /// looked at last, with the same mode, and that mode.
    is_known: bool,
    is_again: bool,
    mode: u32,
    /// The digest of the files, once all were looked at; and that by which they may be promoted.
    digest: Option<u64>,
    whole: Option<String>,
    /// Which folder is the agent's own.
    taken: Option<Identity>,
    /// What the hook of each key is to be told; the hooks that have one run for many keys; and what
    /// runs, each by its worker.
    hooks: Waiting,
    runs: BTreeMap<Hook, Runs>,
    running: [Option<Running>; HOOKS],
    /// Keys whose file failed, or of which a hook was due when the agent started; and those whose
    /// own hook failed.
    due: BTreeSet<String>,
    failed: BTreeSet<String>,
    /// Keys whose file or hook failed last, and how.
    failing: BTreeMap<String, Outcome>,
    failures: u64,
    /// How many files somebody else had changed and were put again.
    mended: u64,
    done: Vec<Applied>,
    facts: Vec<Fact>,
}

impl Applier {
    /// Begins, where an earlier life left [these keys](due) of which hooks are due.
    pub fn new(config: &Apply, due: BTreeSet<String>) -> Applier {
        let mut applier = Applier { due, ..Applier::default() };
        applier.set_up(config);
        applier
    }

    /// Takes up which hooks there are. What one that is gone was still to be told, all are told at
    /// the next round.
    fn set_up(&mut self, config: &Apply) {
        let mut old = take(&mut self.runs);
        for hook in &config.hooks {
            self.runs.insert(hook.clone(), old.remove(hook).unwrap_or_default());
        }
        for (hook, runs) in old {
            self.failing.remove(&hook.name());
            let waiting = runs.waiting.in_order().into_iter().chain(runs.changing.in_order());
            let running = self.running.iter().flatten();
            let running = running.filter(|it| it.hook.as_ref() == Some(&hook));
            let running = running.flat_map(|it| it.keys.iter().cloned());
            self.due.extend(waiting.map(|(key, _)| key).chain(running).chain(runs.due));
        }
        self.config = Arc::new(config.clone());
    }

    /// Takes new hooks, a new mode and new groups, which count from the next round on. The folder
    /// stays.
    pub fn reload(&mut self, config: &Apply) {
        if self.config.groups != config.groups {
            // (the files are of the old ones)
            (self.is_known, self.digest) = (false, None);
        }
        self.set_up(config);
    }

    /// Makes the files what this body says, where it `applies`; where it `looks`, whatever was done
    /// to them. One that `fills` a gap may bring older changes, so nothing counts as applied until
    /// it is. Whether there is room: what waits has not many more keys than there may be.
    pub fn take(
        &mut self,
        body: &Arc<Body>,
        meaning: &Meaning<'_>,
        number: u64,
        heard: Heard,
    ) -> bool {
        if self.later.is_some() {
            // (what is to be done with it was said without that)
            return true;
        }
        let runs = self.runs.values().map(|it| it.waiting.count());
        let hooks = runs.fold(self.hooks.count(), usize::max);
        let files = self.files.count();
        let waits = match meaning {
            Meaning::Changes(_) => files.max(hooks),
            // (it takes the place of whatever waits)
            Meaning::Table(_) => hooks,
            Meaning::Harmless => 0,
        };
        let has_room = waits <= 2 * SETTINGS;
        if heard.drops || self.holds && !has_room {
            // (it may be older than the files, and something is missing)
            self.files = Waiting::default();
        }
        self.holds = !heard.applies;
        if heard.applies {
            self.floor = number;
        }
        if has_room {
            self.files.take(body, number, meaning);
            if heard.fills {
                self.files.dates_back();
            }
            self.looks |= heard.looks;
        }
        has_room
    }

    /// The files are from a later body, of this number: what is known here is as at a start, and
    /// what waits is dropped. What hooks were to be told, they are by the next round.
    fn falls_behind(&mut self, number: u64) {
        (self.files, self.later) = (Waiting::default(), Some(number));
        (self.holds, self.looks, self.forgets) = (true, true, true);
        (self.digest, self.whole) = (None, None);
        if let Some(turn) = &mut self.turn {
            turn.left.clear();
        }
        let hooks = take(&mut self.hooks).in_order();
        self.due.extend(hooks.into_iter().map(|(key, _)| key));
    }

    /// What the workers are to do now, each one job at most: those of hooks, which have the numbers
    /// from 1 on, and that of files, which has 0.
    pub fn jobs(&mut self, now: Time) -> Vec<(usize, Job)> {
        let mut jobs = Vec::new();
        // (marks may go where no file is put, so they come first)
        for at in (1..=HOOKS).chain([0]) {
            let what = match at.checked_sub(1) {
                Some(hook) => self.settles(hook).or_else(|| self.runs(hook)),
                None => self.keeps(now),
            };
            let (config, taken) = (&self.config, self.taken);
            jobs.extend(what.map(|what| (at, Job { what, config: config.clone(), taken })));
        }
        jobs
    }

    /// When there may be more to do although nothing comes.
    pub fn until(&self) -> Option<Time> {
        let waits = self.turn.as_ref().map_or(self.rests, |turn| turn.waits);
        waits.filter(|_| !self.is_asked)
    }

    /// Takes up what came of the job of a worker.
    pub fn ended(&mut self, at: usize, done: Done, now: Time) {
        if let Some(hook) = at.checked_sub(1) {
            return self.ran(hook, done);
        }
        self.is_asked = false;
        match (done, self.turn.take()) {
            (Done::Marked(files, is), Some(turn)) => self.marked(turn, files, is),
            (Done::Refused(outcome), Some(turn)) => {
                // (and it is looked at as a whole before a digest is known again)
                (self.looks, self.digest) = (true, None);
                self.report(MARKER, turn.first, outcome);
            }
            (Done::Later(number), _) => self.falls_behind(number),
            (Done::Kept(kept, ended), Some(turn)) => self.kept(turn, kept, ended, now),
            (Done::KeptAtOnce(is, kept, ended), Some(turn)) => {
                self.marked(turn, Waiting::default(), is);
                if let Some(turn) = self.turn.take() {
                    self.kept(turn, kept, Some(ended), now);
                }
            }
            (Done::Rested(fact), _) => self.facts.extend(fact),
            // (the memory is spoiled)
            _ => (),
        }
    }

    fn report(&mut self, key: &str, sequence: u64, status: Outcome) {
        let before = match &status {
            Outcome::Done => self.failing.remove(key),
            how => self.failing.insert(key.into(), how.clone()),
        };
        // (a failure is said once, and again when it is another one)
        if before.as_ref() != Some(&status) {
            self.done.push(Applied { key: key.into(), sequence, status });
        }
    }
}

rignolda::spoils! { Applier {
    config, files, looks, holds, floor, later, forgets, turn, is_asked, rests, is_known, is_again,
    mode, digest, whole, taken, hooks, runs, running, due, failed, failing, failures, mended
} }

#[cfg(test)]
mod tests {
    use super::*;
    use crate::settings::Change;

    /// Has it apply this, of which values for groups are kept so, by a worker that can do all else.
    fn applies(applier: &mut Applier, number: u64, meaning: Meaning<'_>, grouped: &[Applied]) {
        let is = Some(Identity([1; 4]));
        let looks = matches!(meaning, Meaning::Table(_));
        let heard = Heard { takes: true, applies: true, looks, ..Heard::default() };
        assert!(applier.take(&Body::new(number, &meaning), &meaning, number, heard));
        let keep = |part: Vec<(String, Change)>| {
            let one = |(key, change)| Kept { key, change, put: true, differs: true, done: Ok(()) };
            part.into_iter().map(one).collect()
        };
        let ended =
            || Ended { is, sum: 7, whole: None, grouped: grouped.to_vec(), facts: Vec::new() };
        while applier.applied(number) != number {
            let (at, job) = applier.jobs(Time::default()).pop().expect("it is not applied");
            let done = match job.what {
                What::Mark(Mark { files, goes_on: true, .. }) => {
                    Done::KeptAtOnce(is, keep(files.in_order()), ended())
                }
                What::Mark(mark) => Done::Marked(mark.files, is),
                What::Keep(part, _) => Done::Kept(keep(part), Some(ended())),
                what => panic!("{what:?}"),
            };
            applier.ended(at, done, Time::default());
        }
    }

    /// After a fault of the memory; else what fails is there.
    #[test]
    fn what_no_table_and_no_file_has_fails_no_more() {
        let mut applier = Applier::new(&Apply::default(), BTreeSet::new());
        for junk in ["junk", "", "no/key"] {
            applier.failing.insert(junk.into(), Outcome::File("it is spoilt".into()));
        }
        assert_eq!(applier.failing(), 3);
        applies(&mut applier, 1, Meaning::Table(vec![("a", Some(b"1"))]), &[]);
        assert_eq!(applier.failing(), 0);
    }

    /// It was never put, so no later table finds its file there.
    #[test]
    fn a_value_for_a_group_that_could_not_be_kept_and_is_gone_fails_no_more() {
        let mut applier = Applier::new(&Apply::default(), BTreeSet::new());
        let fails = |key: &str| {
            let status = Outcome::File("No space left on device".into());
            Applied { key: key.into(), sequence: 1, status }
        };
        let table = || Meaning::Table(vec![("a", Some(&b"1"[..])), ("b", Some(b"2"))]);
        applies(&mut applier, 1, table(), &[fails(".groups/a@eu"), fails(".groups/b@eu")]);
        assert_eq!(applier.failing(), 2);
        // (of a change alone, no more is said than it brings)
        applies(&mut applier, 2, Meaning::Changes(vec![("c", Some(b"3"))]), &[]);
        assert_eq!(applier.failing(), 2);
        applies(&mut applier, 3, table(), &[fails(".groups/b@eu")]);
        assert_eq!(applier.failing(), 1);
        applies(&mut applier, 4, table(), &[]);
        assert_eq!(applier.failing(), 0);
    }
}

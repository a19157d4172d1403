//! The threads that keep files and run hooks: each does one job of [the applier](Applier) after the
//! other, as it is told, and wakes the loop when it has done one.
use crate::hooks;
use crate::place::LocalFiles;
use crate::system::time;
use rignolda_machine::apply::{Applier, Done, Job, Keeper, What, HOOKS};
use rignolda_machine::config::Apply;
use rignolda_machine::Time;
use rignolda_redis::Worker;
use rignoldactl::sha256;
use std::io;
use std::sync::Arc;
use std::thread::Builder;
use std::time::Duration;

/// A folder that is in the way of a file may be deep. (What is not used takes no memory.)
const STACK_BYTES: usize = 16 << 20;

/// How soon the loop takes up what came of files, where nothing waits for that: by then it says
/// upwards what came, and mostly it is awake for something else before.
const SOON: Duration = Duration::from_millis(100);

/// Wakes the loop.
pub type Wake = Arc<dyn Fn() + Send + Sync>;

/// The workers of an applier: first that of files. Those of hooks take memory, so an agent without
/// hooks has none.
pub struct Workers {
    all: Vec<Worker<Job, Done>>,
    /// By when the loop takes up what comes of the job of files, if it does so by itself.
    takes: Option<Time>,
    folder: String,
    wake: Wake,
}

impl Workers {
    /// Starts the threads. Where one cannot be started, the others end, and nothing was done.
    pub fn new(config: &Apply, wake: Wake) -> io::Result<Workers> {
        let folder = config.folder.clone();
        let mut workers = Workers { all: Vec::new(), takes: None, folder, wake };
        let has_hooks = config.hook.is_some() || !config.hooks.is_empty();
        workers.start(if has_hooks { 1 + HOOKS } else { 1 })?;
        Ok(workers)
    }

    fn start(&mut self, count: usize) -> io::Result<()> {
        while self.all.len() < count {
            let name = if self.all.is_empty() { "files" } else { "hooks" };
            let thread = Builder::new().name(name.into()).stack_size(STACK_BYTES);
            let mut keeper = Keeper::new(LocalFiles, &self.folder, sha256);
            let (work, wake) = (move |job| keeper.work(job, time(), hooks::run), self.wake.clone());
            self.all.push(Worker::start_as(thread, work, move || wake())?);
        }
        Ok(())
    }

    /// When the loop is to take up what came of files, if it is not woken for that: it is where
    /// something `waits` for it, as a hook may.
    pub fn takes_at(&self, waits: bool, now: Time) -> Option<Time> {
        let files = self.all.first()?;
        let is_later = self.takes.is_none_or(|at| now < at && at <= now + SOON);
        let is_quiet = is_later && !waits && self.all.len() == 1;
        match files.be_quiet(is_quiet) {
            true => Some(now),
            false => self.takes.filter(|_| is_quiet),
        }
    }

    /// What came of jobs since this was asked last, and at which worker.
    pub fn done(&mut self) -> Vec<(usize, Done)> {
        let done = |(at, worker): (usize, _)| {
            std::iter::from_fn(move || Some((at, Worker::done(worker)?)))
        };
        let done: Vec<_> = self.all.iter().enumerate().flat_map(done).collect();
        self.takes.take_if(|_| done.iter().any(|(at, _)| *at == 0));
        done
    }

    /// Has a worker begin a job.
    pub fn begin(&mut self, at: usize, job: Job) {
        if at > 0 {
            // (the first hook may have come since; where nobody can run it, that is seen)
            let _ = self.start(1 + HOOKS);
        } else {
            let now = time();
            self.takes = match &job.what {
                What::Rest => None,
                What::Mark(mark) if mark.goes_on => Some(now + SOON),
                What::Keep(_, true) => Some(now + SOON),
                // (more of them follow)
                _ => Some(now),
            };
        }
        if let Some(worker) = self.all.get(at) {
            worker.begin(job);
        }
    }

    /// Has what came of jobs taken up, and begins those that there are now: where an applier is by
    /// itself.
    pub fn go_on(&mut self, applier: &mut Applier, now: Time) {
        for (at, done) in self.done() {
            applier.ended(at, done, now);
        }
        for (at, job) in applier.jobs(now) {
            self.begin(at, job);
        }
    }

    /// What of them is not as the applier has it, where something is not: to be asked each second
    /// or two.
    pub fn fault(&self, applier: &Applier) -> Option<&'static str> {
        let is_so = |(at, is_asked): (usize, bool)| {
            self.all.get(at).map_or(!is_asked, |it| it.is_asked(u32::from(is_asked)))
        };
        match applier.asked().into_iter().enumerate().position(|it| !is_so(it))? {
            0 => Some("nobody applies settings"),
            _ => Some("a hook runs that no thread runs"),
        }
    }
}

#[cfg(test)]
mod tests {
    use super::*;
    use rignolda_machine::apply::{Ended, Kept};
    use rignolda_machine::net::Body;
    use rignolda_machine::settings::{Heard, Meaning};
    use std::collections::BTreeSet;
    use std::sync::mpsc;

    #[test]
    fn the_loop_is_woken_for_what_something_waits_for() {
        let (to, woken) = mpsc::channel();
        let wake: Wake = Arc::new(move || to.send(()).unwrap());
        let mut workers = Workers::new(&Apply::default(), wake).unwrap();
        let keep = |is_last| {
            let (what, config) = (What::Keep(Vec::new(), is_last), Arc::default());
            Job { what, config, taken: None }
        };
        assert_eq!(workers.takes_at(false, time()), None);
        workers.begin(0, keep(true));
        let now = time();
        assert!(workers.takes_at(false, now).is_some_and(|at| at <= now + SOON));
        while workers.done().is_empty() {}
        assert!(woken.try_recv().is_err());
        // (where it is done already, nobody sleeps)
        for (is_last, waits) in [(true, true), (false, false)] {
            workers.begin(0, keep(is_last));
            if workers.takes_at(waits, time()).is_none() {
                woken.recv().unwrap();
            }
            assert_eq!(workers.done().len(), 1);
        }
    }

    /// After a fault of the memory, too.
    #[test]
    fn a_job_that_no_worker_has_is_seen() {
        let config = Apply { hook: Some("/hook".into()), ..Apply::default() };
        let workers = Workers::new(&config, Arc::new(|| ())).unwrap();
        let (mut applier, now) = (Applier::new(&config, BTreeSet::new()), crate::system::time());
        assert_eq!(workers.fault(&applier), None);
        let heard = Heard { takes: true, applies: true, ..Heard::default() };
        let change = Meaning::Changes(vec![("a", Some(b"1"))]);
        assert!(applier.take(&Body::new(1, &change), &change, 1, heard));
        let Some((0, Job { what: What::Mark(mark), .. })) = applier.jobs(now).pop() else {
            panic!("files are kept first")
        };
        assert_eq!(workers.fault(&applier), Some("nobody applies settings"));
        let kept = mark.files.in_order().into_iter();
        let kept =
            kept.map(|(key, change)| Kept { key, change, put: true, differs: true, done: Ok(()) });
        let (is, grouped, facts) = (None, Vec::new(), Vec::new());
        let ended = Ended { is, sum: 7, whole: None, grouped, facts };
        applier.ended(0, Done::KeptAtOnce(is, kept.collect(), ended), now);
        assert!(matches!(applier.jobs(now)[..], [(1, _)]));
        assert_eq!(workers.fault(&applier), Some("a hook runs that no thread runs"));
    }
}

//! Threads that do what may have to wait.
use std::cell::Cell;
use std::collections::VecDeque;
use std::sync::{Arc, Condvar, Mutex, MutexGuard, PoisonError};
use std::{fmt, io, thread};

/// A thread that does what may have to wait, for a store or a disk, so that its caller need not. It
/// does a job of type `J` after the other, and answers each by a `D`.
pub struct Worker<J, D> {
    shared: Arc<Shared<J, D>>,
    thread: thread::JoinHandle<()>,
    /// How many jobs have no answer yet, and whether none was waited for since the last look; and
    /// at how many looks in turn it did none of them.
    waits: Cell<u32>,
    rested: Cell<bool>,
    lost: Cell<u32>,
}

/// What the thread and its caller have both, and what wakes the thread. (Neither waits for the
/// other while that has it: nobody is woken meanwhile.)
struct Shared<J, D>(Mutex<State<J, D>>, Condvar);

struct State<J, D> {
    jobs: VecDeque<J>,
    done: VecDeque<D>,
    /// Whether the thread does a job now.
    works: bool,
    /// Whether the caller is not woken for an answer, and whether it is gone.
    is_quiet: bool,
    is_gone: bool,
}

impl<J, D> Shared<J, D> {
    fn lock(&self) -> MutexGuard<'_, State<J, D>> {
        self.0.lock().unwrap_or_else(PoisonError::into_inner)
    }

    /// Does one job after the other.
    fn work(&self, mut work: impl FnMut(J) -> D, wake: impl Fn()) {
        let mut state = self.lock();
        loop {
            let Some(job) = state.jobs.pop_front() else {
                if state.is_gone {
                    return;
                }
                state = self.1.wait(state).unwrap_or_else(PoisonError::into_inner);
                continue;
            };
            state.works = true;
            drop(state);
            let done = work(job);
            state = self.lock();
            state.works = false;
            state.done.push_back(done);
            if state.is_gone {
                return;
            }
            if !state.is_quiet {
                drop(state);
                wake();
                state = self.lock();
            }
        }
    }
}

/// At how many looks in turn a thread does nothing where a job or an answer is lost: one that is
/// told of a job begins at once.
pub const LOST: u32 = 10;

impl<J, D> fmt::Debug for Worker<J, D> {
    fn fmt(&self, to: &mut fmt::Formatter<'_>) -> fmt::Result {
        let mut shown = to.debug_struct("Worker");
        shown.field("thread", &self.thread.thread().name());
        shown.field("waits", &self.waits);
        shown.finish_non_exhaustive()
    }
}

impl<J: Send + 'static, D: Send + 'static> Worker<J, D> {
    /// Starts it. It calls `wake` whenever a job was done, unless it is to be
    /// [quiet](Worker::be_quiet).
    ///
    /// # Errors
    ///
    /// That of the system, where it has no thread.
    pub fn start(
        name: &str,
        work: impl FnMut(J) -> D + Send + 'static,
        wake: impl Fn() + Send + 'static,
    ) -> io::Result<Worker<J, D>> {
        Worker::start_as(thread::Builder::new().name(name.into()), work, wake)
    }

    /// Starts it as such a thread.
    ///
    /// # Errors
    ///
    /// As those of [`Worker::start`].
    pub fn start_as(
        thread: thread::Builder,
        work: impl FnMut(J) -> D + Send + 'static,
        wake: impl Fn() + Send + 'static,
    ) -> io::Result<Worker<J, D>> {
        let (jobs, done) = (VecDeque::new(), VecDeque::new());
        let state = State { jobs, done, works: false, is_quiet: false, is_gone: false };
        let shared = Arc::new(Shared(Mutex::new(state), Condvar::new()));
        let own = Arc::clone(&shared);
        let thread = thread.spawn(move || own.work(work, wake))?;
        let (waits, rested, lost) = (Cell::new(0), Cell::new(true), Cell::new(0));
        Ok(Worker { shared, thread, waits, rested, lost })
    }

    /// Has a job done after those that it was given before.
    pub fn begin(&self, job: J) {
        self.waits.set(self.waits.get() + 1);
        let mut state = self.shared.lock();
        state.jobs.push_back(job);
        let works = state.works;
        drop(state);
        // (else it looks by itself)
        if !works {
            self.shared.1.notify_one();
        }
    }

    /// What came of the next job, if it is over.
    #[must_use = "an answer is given once"]
    pub fn done(&self) -> Option<D> {
        let done = self.shared.lock().done.pop_front()?;
        self.waits.set(self.waits.get().saturating_sub(1));
        self.rested.set(self.rested.get() || self.waits.get() == 0);
        Some(done)
    }

    /// Has it wake its caller no more when it has done a job, or again: whether an answer is there
    /// already.
    pub fn be_quiet(&self, is_quiet: bool) -> bool {
        let mut state = self.shared.lock();
        state.is_quiet = is_quiet;
        !state.done.is_empty()
    }

    /// Whether so many jobs have no answer yet, and it does them: to be asked once a second.
    pub fn is_asked(&self, count: u32) -> bool {
        // (one that is given a job before each look may not have begun it)
        let rested = self.rested.replace(false);
        let is_idle = count > 0 && !rested && !self.shared.lock().works;
        self.lost.set(if is_idle { self.lost.get() + 1 } else { 0 });
        let can = !self.thread.is_finished() && self.lost.get() < LOST;
        can && self.waits.get() == count
    }
}

impl<J, D> Drop for Worker<J, D> {
    fn drop(&mut self) {
        self.shared.lock().is_gone = true;
        self.shared.1.notify_one();
    }
}

#[cfg(test)]
mod tests {
    use super::{Worker, LOST};
    use std::sync::mpsc;

    /// One that is looked at whenever it was given a job has lost none, however late it begins.
    #[test]
    fn a_worker_that_begins_late_has_lost_nothing() {
        let worker = Worker::start("late", |job: u32| job, || ()).unwrap();
        for job in 0..3 * LOST {
            worker.begin(job);
            assert!(worker.is_asked(1), "{job}");
            let done = std::iter::repeat_with(|| worker.done()).flatten().next();
            assert_eq!(done, Some(job));
        }
        // (what it was not asked for is)
        assert!(worker.is_asked(0) && !worker.is_asked(1));
    }

    #[test]
    fn a_quiet_worker_wakes_nobody_and_answers() {
        let (to, woken) = mpsc::channel();
        let worker = Worker::start("quiet", |job: u32| job, move || to.send(()).unwrap()).unwrap();
        assert!(!worker.be_quiet(true));
        for job in 0..100 {
            worker.begin(job);
            while !worker.be_quiet(true) {}
            assert_eq!((worker.done(), worker.done()), (Some(job), None));
        }
        assert_eq!(woken.try_recv(), Err(mpsc::TryRecvError::Empty));
        // (who is to be woken again is, or sees the answer)
        for job in 0..100 {
            worker.be_quiet(true);
            worker.begin(job);
            if !worker.be_quiet(false) {
                woken.recv().unwrap();
            }
            assert_eq!(worker.done(), Some(job));
        }
    }
}

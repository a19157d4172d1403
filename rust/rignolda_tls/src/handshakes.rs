//! Handshakes of TLS, which other threads do: whoever connects can make one cost much, before
//! anybody knows who it is.
use crate::secure::{outcome, Outcome, Stream};
use rignolda_machine::net::{Origin, Turns};
use rignolda_machine::Time;
use std::sync::{mpsc, Arc};
use std::time::{Duration, Instant};
use std::{fmt, fs, thread};

/// How many handshakes go on at a time of those who connected, and of those who were called: the
/// two take no turns from each other.
const ACCEPTED: usize = 8;
const CALLED: usize = 2;
/// How much of a processor's time one handshake may take.
const MOST: Duration = Duration::from_secs(2);
/// How long a thread without work stays.
const REST: Duration = Duration::from_secs(10);
/// The stack of a thread.
const STACK_BYTES: usize = 512 << 10;

/// One step of a handshake: until it is done, or waits for the other end.
#[derive(Debug)]
pub(crate) struct Job {
    pub(crate) stream: Stream,
    pub(crate) number: u64,
    pub(crate) origin: Origin,
    /// Whether the other end was called.
    pub(crate) is_called: bool,
    /// How much of a processor's time the steps before it took.
    pub(crate) spent: Duration,
    /// Where the line learns what came of it.
    pub(crate) back: mpsc::Sender<Step>,
}

/// What came of a step.
#[derive(Debug)]
pub(crate) struct Step {
    pub(crate) stream: Stream,
    pub(crate) spent: Duration,
    pub(crate) outcome: Outcome,
}

/// Where a thread takes its steps from. It comes with each, so that it ends where nobody keeps it.
#[derive(Clone)]
struct ToThread(mpsc::Sender<(Job, ToThread)>);

/// Whose job has ended, what it took, and the thread that is free again.
struct Ended {
    number: u64,
    origin: Origin,
    is_called: bool,
    took: Duration,
    thread: ToThread,
}

/// The handshakes of the lines of a [`Maker`](crate::Maker), in a few threads, each of which is
/// there while there is something to do. Which one goes on is decided here, by [`Turns`], and the
/// threads decide nothing.
pub struct Handshakes {
    to: mpsc::Sender<Job>,
    asked: mpsc::Receiver<Job>,
    to_ended: mpsc::Sender<Ended>,
    ended: mpsc::Receiver<Ended>,
    /// Of those who connected, and of those who were called.
    turns: [Turns<Job>; 2],
    /// The threads that have nothing to do, and since when.
    free: Vec<(ToThread, Time)>,
    wake: Arc<dyn Fn() + Send + Sync>,
}

impl fmt::Debug for Handshakes {
    fn fmt(&self, to: &mut fmt::Formatter<'_>) -> fmt::Result {
        let under_way = self.turns.each_ref().map(Turns::under_way);
        to.debug_struct("Handshakes").field("under_way", &under_way).finish_non_exhaustive()
    }
}

impl Handshakes {
    /// There are none. It calls `wake` whenever a step has ended.
    pub fn new(wake: Arc<dyn Fn() + Send + Sync>) -> Handshakes {
        let ((to, asked), (to_ended, ended)) = (mpsc::channel(), mpsc::channel());
        let turns = [ACCEPTED, CALLED].map(Turns::new);
        Handshakes { to, asked, to_ended, ended, turns, free: Vec::new(), wake }
    }

    /// Where lines ask for their steps.
    pub(crate) fn asks(&self) -> mpsc::Sender<Job> {
        self.to.clone()
    }

    /// Begins the steps whose turn it is, and ends the threads that had nothing to do for long. Of
    /// those who connected, some are known.
    pub fn go_on(&mut self, now: Time, is_known: impl Fn(&Origin) -> bool) {
        while let Ok(job) = self.asked.try_recv() {
            self.turns[usize::from(job.is_called)].add(job.origin, job, is_wanted);
        }
        self.free.retain(|(_, since)| now < *since + REST);
        for at in [0, 1] {
            while let Some((origin, job)) = self.turns[at].next(now, &is_known) {
                if !is_wanted(&job) || !self.begin(job) {
                    self.turns[at].ended(origin, Duration::ZERO, now);
                }
            }
        }
    }

    /// Gives a thread this step. Where no thread can be had, the line learns that.
    fn begin(&mut self, job: Job) -> bool {
        let thread = self.free.pop().map(|it| it.0).or_else(|| self.thread());
        thread.is_some_and(|to| to.0.send((job, to.clone())).is_ok())
    }

    fn thread(&self) -> Option<ToThread> {
        let (to, jobs) = mpsc::channel();
        let (ended, wake) = (self.to_ended.clone(), self.wake.clone());
        let work = move || work(&jobs, &ended, &*wake);
        let name = "handshakes".to_owned();
        let made = thread::Builder::new().name(name).stack_size(STACK_BYTES).spawn(work);
        made.is_ok().then_some(ToThread(to))
    }

    /// The numbers of the lines of which a step has ended: these are to be read.
    pub fn ended(&mut self, now: Time) -> Vec<u64> {
        let mut numbers = Vec::new();
        while let Ok(it) = self.ended.try_recv() {
            self.turns[usize::from(it.is_called)].ended(it.origin, it.took, now);
            self.free.push((it.thread, now));
            numbers.push(it.number);
        }
        numbers
    }
}

/// Whether the line of a step is there still, which has its socket too.
fn is_wanted(job: &Job) -> bool {
    Arc::strong_count(&job.stream.get_ref().socket) > 1
}

/// Does one step after the other.
fn work(
    jobs: &mpsc::Receiver<(Job, ToThread)>,
    ended: &mpsc::Sender<Ended>,
    wake: &(dyn Fn() + Send + Sync),
) {
    while let Ok((job, thread)) = jobs.recv() {
        let Job { mut stream, number, origin, is_called, spent, back } = job;
        let (begun, used) = (Instant::now(), processor());
        let outcome = outcome(&mut stream);
        let took = processor().zip(used).and_then(|(now, before)| now.checked_sub(before));
        let took = took.unwrap_or_else(|| begun.elapsed());
        let spent = spent + took;
        let outcome = match outcome {
            Outcome::Up(_) => outcome,
            Outcome::Reads | Outcome::Writes if spent <= MOST => outcome,
            Outcome::Failed(_) => outcome,
            _ => Outcome::Failed("its handshake takes too much of the processor".into()),
        };
        // (first the line has it, and then it is told)
        let _ = back.send(Step { stream, spent, outcome });
        let _ = ended.send(Ended { number, origin, is_called, took, thread });
        wake();
    }
}

/// How much of a processor's time this thread has used: that of others does not count.
fn processor() -> Option<Duration> {
    let text = fs::read_to_string("/proc/thread-self/schedstat").ok()?;
    text.split_whitespace().next()?.parse().ok().map(Duration::from_nanos)
}

//! Whether the agent can be reached. A thread of its own looks at it from outside every ten
//! seconds, as its neighbours and operators do: at its control socket, and at the addresses where
//! it listens. The watchdog has its sign after that alone. So it is seen if the loop hangs, and
//! what no look at the state sees: what was made once, and is used only if somebody connects.
//!
//! *Reached* is: the end that listens proved the agent's key. What it makes of the certificate does
//! not count, nor that it has no room: nobody outside can end an agent by that. But if anybody is
//! answered without TLS, or without a certificate, the agent ends at once.
use crate::{fact, system};
use rignolda_machine::net::parents::NONE;
use rignolda_machine::net::{Address, Parent, Way};
use rignolda_machine::outside::{is_lost, pause, worse, Alone, Judge, Misses, Round};
use rignolda_machine::Time;
use rignolda_tls::{ask, By, Looked, Looker, Maker, Own, Tls};
use rignoldactl::{Request, Response};
use std::path::PathBuf;
use std::sync::atomic::{AtomicBool, AtomicU64, Ordering};
use std::sync::{mpsc, Arc, Mutex, MutexGuard, PoisonError};
use std::thread;
use std::time::Duration;

/// How long a look takes at most, also on a machine that has much else to do.
const WITHIN: Duration = Duration::from_secs(10);
/// At which of its looks it comes by TLS, and with its certificate, too, since each of that costs
/// more: else it comes without TLS, and is to be refused. While it fails, it always comes so.
const BY_TLS: u64 = 6;
const NAMED: u64 = 30;
/// For how long it waits to be told that there was no room: the loop counts that as it comes to it.
const TOLD: Duration = Duration::from_secs(3);
const STACK_BYTES: usize = 512 << 10;

/// What is looked at, and what is known of it.
struct Shared {
    name: String,
    own: Own,
    control: Option<PathBuf>,
    /// The addresses where it listens, as the system knows them.
    listens: Vec<Address>,
    /// (Nobody has the lock while it looks, since the loop takes it.)
    looker: Mutex<Option<Arc<Looker>>>,
    /// How often somebody was not let in since there was no room.
    turned_away: AtomicU64,
    /// Whether it can be reached; when the last look ended, in milliseconds since the first began;
    /// and whether an end did not answer that was reached.
    is_sound: AtomicBool,
    /// Whether it has no parent, and needs one.
    is_alone: AtomicBool,
    begun: Time,
    looked: AtomicU64,
    is_unwelcome: AtomicBool,
}

/// Looks at the agent from outside.
pub struct Reach {
    shared: Arc<Shared>,
    alone: Alone,
    /// What the last look for a parent finds.
    found: Option<mpsc::Receiver<bool>>,
}

impl Reach {
    /// Looks at an agent of this name from now on, which listens there.
    pub fn new(
        name: &str,
        (tls, maker): (Option<&Tls>, &Maker),
        control: Option<PathBuf>,
        listens: Vec<Address>,
        own: Own,
    ) -> std::io::Result<Reach> {
        let shared = Arc::new(Shared {
            name: name.into(),
            own,
            control,
            listens,
            looker: Mutex::new(None),
            turned_away: AtomicU64::new(0),
            is_sound: AtomicBool::new(true),
            is_alone: AtomicBool::new(false),
            begun: crate::system::time(),
            looked: AtomicU64::new(0),
            is_unwelcome: AtomicBool::new(false),
        });
        let reach = Reach { shared, alone: Alone::default(), found: None };
        reach.reload(tls, maker);
        let shared = reach.shared.clone();
        let work = move || shared.work();
        let thread = thread::Builder::new().name("reach".into()).stack_size(STACK_BYTES);
        thread.spawn(work)?;
        Ok(reach)
    }

    /// Takes up certificates that count from now on, and what lines are made by. (If they cannot be
    /// read any more, those of before count.)
    pub fn reload(&self, tls: Option<&Tls>, maker: &Maker) {
        let (shared, name) = (&self.shared, &self.shared.name);
        let looker = match shared.listens.is_empty() {
            true => Some(Looker::of(name, maker, WITHIN)),
            false => Looker::new(name, tls, WITHIN).ok(),
        };
        if let Some(looker) = looker {
            *shared.lock() = Some(Arc::new(looker));
        }
    }

    /// So often somebody was not let in, since there was no room.
    pub fn was_full(&self, times: u64) {
        self.shared.turned_away.store(times, Ordering::Relaxed);
    }

    /// Whether it can be reached, as far as is known.
    pub fn is_sound(&self, now: Time) -> bool {
        let looked = Duration::from_millis(self.shared.looked.load(Ordering::Relaxed));
        self.shared.is_sound.load(Ordering::Relaxed) && !is_lost(self.shared.begun + looked, now)
    }

    /// Whether an end did not answer since this was asked last, though it was reached.
    pub fn is_unwelcome(&self) -> bool {
        self.shared.is_unwelcome.swap(false, Ordering::Relaxed)
    }

    /// To be told each second or two: whether the agent has a parent, or needs none, and how often
    /// parents have answered. If it has none for long, and none answered, it looks for one of these
    /// by connections of another making: whether it found one twice, so that it is to end.
    pub fn misses(
        &mut self,
        (has_parent, answers): (bool, u64),
        tls: Option<&Tls>,
        parents: &[Parent<Address>],
        now: Time,
    ) -> bool {
        self.shared.is_alone.store(!has_parent, Ordering::Relaxed);
        let found = self.found.as_ref().and_then(|found| found.try_recv().ok());
        let misses = self.alone.misses((has_parent, answers), found, now);
        if misses == Misses::Looks {
            self.seek(tls, parents);
        }
        misses == Misses::Ends
    }

    /// Looks at the parents, in a thread that nobody waits for.
    fn seek(&mut self, tls: Option<&Tls>, parents: &[Parent<Address>]) {
        let (to, found) = mpsc::channel();
        let (name, tls, parents) = (self.shared.name.clone(), tls.cloned(), parents.to_vec());
        let seek = move || {
            let looker = Looker::new(&name, tls.as_ref(), WITHIN).ok();
            let is_one = |it: &Parent<Address>| {
                looker.as_ref().is_some_and(|looker| answers(looker, &name, it))
            };
            let _ = to.send(parents.iter().any(is_one));
        };
        // (without a thread nothing is found)
        let _ = thread::Builder::new().name("parents".into()).stack_size(STACK_BYTES).spawn(seek);
        self.found = Some(found);
    }
}

/// Whether a parent answers that the agent would take.
fn answers(looker: &Looker, name: &str, parent: &Parent<Address>) -> bool {
    let is_way = |way: &Way| way.cost < NONE && way.names.iter().all(|it| it != name);
    let at = parent.address.as_ref();
    match at.map(|at| looker.at_parent(at, parent.name.as_deref())) {
        Some(Looked::Answered(way)) => is_way(&way),
        _ => false,
    }
}

impl Shared {
    fn lock(&self) -> MutexGuard<'_, Option<Arc<Looker>>> {
        self.looker.lock().unwrap_or_else(PoisonError::into_inner)
    }

    fn looker(&self) -> Option<Arc<Looker>> {
        self.lock().clone()
    }

    /// The thread that looks. It goes on as long as the process does.
    fn work(&self) {
        let (mut judge, mut count) = (Judge::new(crate::system::time()), 0);
        loop {
            let was_sound = self.is_sound.load(Ordering::Relaxed);
            let round = self.round(if was_sound { count } else { 0 });
            count += 1;
            let now = crate::system::time();
            let is_sound = judge.hears(&round, now).unwrap_or_else(|why| system::end(&why));
            self.is_sound.store(is_sound, Ordering::Relaxed);
            match &round {
                Round::Failed(why) if was_sound => fact!("reach", "{why}"),
                Round::Reached(_) if !was_sound => fact!("reach", "it can be reached again"),
                _ => (),
            }
            let millis = now.since(self.begun).as_millis();
            self.looked.store(millis as u64, Ordering::Relaxed);
            if matches!(round, Round::Reached(false) | Round::Failed(_)) {
                self.is_unwelcome.store(true, Ordering::Relaxed);
            }
            let is_leaf = self.listens.is_empty() && !self.is_alone.load(Ordering::Relaxed);
            thread::sleep(pause(is_sound, is_leaf));
        }
    }

    /// Looks at all once, or until one was not reached.
    fn round(&self, count: u64) -> Round {
        let before = self.turned_away.load(Ordering::Relaxed);
        let mut round = self.at_control();
        for (address, by) in self.listens.iter().flat_map(|it| self.looks(it, count)) {
            if matches!(round, Round::Failed(_)) {
                break;
            }
            round = worse(round, self.at(address, by));
        }
        if !matches!(round, Round::Failed(_)) {
            round = worse(round, self.at_itself());
        }
        if matches!(round, Round::Failed(_)) {
            // (who was not let in for lack of room could be reached)
            thread::sleep(TOLD);
            if self.turned_away.load(Ordering::Relaxed) != before {
                return Round::Unknown;
            }
        }
        round
    }

    /// Looks at the control socket, by its path.
    fn at_control(&self) -> Round {
        let Some(path) = &self.control else { return Round::Reached(true) };
        let request = serde_json::to_vec(&Request::Ping).unwrap_or_default();
        let done = serde_json::to_vec(&Response::Done).unwrap_or_default();
        match ask(path, &[&request[..], b"\n"].concat(), WITHIN) {
            Ok(answer) if answer == done => Round::Reached(true),
            Ok(_) => Round::Failed(format!("{} answers otherwise", path.display())),
            Err(Looked::NotTried(_)) => Round::Unknown,
            Err(Looked::Nothing(why) | Looked::Closed(why) | Looked::Proved(why)) => {
                Round::Failed(format!("{}: {why}", path.display()))
            }
            Err(Looked::Answered(_)) => Round::Unknown,
        }
    }

    /// As whom it looks at an address this time. (Whoever has no certificate sees as well whether
    /// the end has the key.)
    fn looks<'a>(&self, address: &'a Address, count: u64) -> Vec<(&'a Address, By)> {
        let is_secure = self.looker().is_some_and(|it| it.is_secure());
        let all = match address {
            Address::Tcp(_) if is_secure && count % NAMED == 0 => {
                vec![By::Plain, By::Nameless, By::Own]
            }
            Address::Tcp(_) if is_secure && count % BY_TLS == 0 => vec![By::Plain, By::Nameless],
            Address::Tcp(_) if is_secure => vec![By::Plain],
            _ => vec![By::Own],
        };
        all.into_iter().map(|by| (address, by)).collect()
    }

    /// Looks at its own TLS, if it has no parent and nobody else can see that.
    fn at_itself(&self) -> Round {
        let is_alone = self.listens.is_empty() && self.is_alone.load(Ordering::Relaxed);
        match self.looker().filter(|_| is_alone).map(|it| it.at_itself()) {
            Some(Looked::Nothing(why)) => Round::Failed(format!("its own TLS: {why}")),
            _ => Round::Reached(true),
        }
    }

    /// Looks at an address where it listens.
    fn at(&self, address: &Address, by: By) -> Round {
        let Some(looker) = self.looker() else { return Round::Unknown };
        let what = if by == By::Plain { "TLS" } else { "a certificate" };
        match looker.at_own(address, by, &self.own) {
            Looked::Answered(_) if by == By::Own => Round::Reached(true),
            // (it may have become so meanwhile, and is to be)
            Looked::Answered(_) if !self.looker().is_some_and(|it| Arc::ptr_eq(&it, &looker)) => {
                Round::Unknown
            }
            Looked::Answered(_) => {
                Round::Open(format!("{address} answers whoever comes without {what}"))
            }
            Looked::Closed(_) if by == By::Plain => Round::Reached(true),
            Looked::Proved(_) => Round::Reached(by != By::Own),
            Looked::Closed(why) | Looked::Nothing(why) => {
                Round::Failed(format!("{address}: {why}"))
            }
            Looked::NotTried(_) => Round::Unknown,
        }
    }
}

#[cfg(test)]
mod tests {
    use super::*;
    use rignolda_machine::net::wire::{self, Expect, Hello, Message};
    use rignolda_machine::outside::{ALONE, ALONE_EVERY};
    use std::io::{Read, Write};
    use std::net::TcpListener;
    use std::sync::atomic::AtomicU32;

    /// Answers each look at it with a way of this cost; and how often.
    fn parent(cost: u16, name: &'static str) -> (Address, Arc<AtomicU32>) {
        let listener = TcpListener::bind("127.0.0.1:0").unwrap();
        let address = Address::Tcp(listener.local_addr().unwrap().to_string());
        let looks = Arc::new(AtomicU32::new(0));
        let count = looks.clone();
        thread::spawn(move || {
            for line in listener.incoming() {
                let (mut line, mut input, mut space) = (line.unwrap(), Vec::new(), [0; 99]);
                let look = loop {
                    let read = line.read(&mut space).unwrap();
                    input.extend_from_slice(&space[..read]);
                    if let Some(Message::Look(it)) = wire::take(&mut input, Expect::Hello).unwrap()
                    {
                        break it;
                    }
                };
                let hello = Hello { from: name.into(), to: look.from.clone(), ..look };
                let way = Way { cost, names: vec!["root".into(), name.into()] };
                // (first it counts, since whoever looked goes on once it is answered)
                count.fetch_add(1, Ordering::SeqCst);
                line.write_all(&[hello.look(), wire::way(&way)].concat()).unwrap();
            }
        });
        (address, looks)
    }

    /// After how many seconds it is to end, if parents answer as often as is said at each time.
    fn ends(at: &(Address, Arc<AtomicU32>), name: &str, answers: fn(u64) -> u64) -> Option<u64> {
        let maker = Maker::new(None, WITHIN).unwrap();
        let reach = Reach::new("leaf", (None, &maker), None, Vec::new(), Own::default());
        let (mut reach, begun) = (reach.unwrap(), crate::system::time());
        let parents =
            [Parent { name: Some(name.into()), address: Some(at.0.clone()), price: None }];
        (0..600).step_by(2).find(|seconds| {
            let now = begun + Duration::from_secs(*seconds);
            let told = (false, answers(*seconds));
            let misses = reach.misses(told, None, &parents, now);
            // (here a look is over before the next second)
            if let Some(it) = reach.found.as_ref().and_then(|found| found.recv().ok()) {
                let (to, again) = mpsc::channel();
                let _ = to.send(it);
                reach.found = Some(again);
            }
            misses
        })
    }

    #[test]
    fn who_has_no_parent_for_minutes_ends_if_one_answers_that_it_never_heard() {
        let there = parent(1, "hub");
        let alone = ends(&there, "hub", |_| 7);
        assert_eq!(alone, Some(ALONE.as_secs() + ALONE_EVERY.as_secs() + 2));
        assert_eq!(there.1.load(Ordering::SeqCst), 2);
        // not if it is another one, or has no root itself; nor if the agent hears it, too: then it
        // is the parent that does not take it
        assert_eq!(ends(&there, "other", |_| 7), None);
        assert_eq!(ends(&parent(NONE, "hub"), "hub", |_| 7), None);
        assert_eq!(ends(&parent(1, "leaf"), "leaf", |_| 7), None);
        assert_eq!(ends(&there, "hub", |seconds| seconds / 100), None);
        let nobody = TcpListener::bind("127.0.0.1:0").unwrap().local_addr().unwrap().to_string();
        let nobody = (Address::Tcp(nobody), Arc::default());
        assert_eq!(ends(&nobody, "hub", |_| 7), None);
    }
}

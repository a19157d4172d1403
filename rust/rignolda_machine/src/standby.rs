//! A second root: an agent that may be promoted, and one that was.
//!
//! Which of these it is its files say at a start. Nothing here waits for them,
//! looks at a clock or writes: what is to be done is a [`Job`], what came of it is
//! [told](Standby::done), and what there is to say is a [`Fact`].
use crate::control::Standby as Role;
use crate::net::parents::NONE;
use crate::net::Way;
use crate::prelude::*;
use crate::settings::{furthest, is_newer};
use crate::{Fact, Refused, Time};
use core::mem;
use core::time::Duration;

mod job;
mod lacks;
mod newer;
mod rank;
mod roles;

pub use job::{Begun, Done, Job};
pub use lacks::Lacks;
pub use newer::{says, Says};
pub use rank::rank;
pub use roles::Folders;

/// For how many numbers a root may publish before it notes that again: so few that its numbers stay
/// below those of who is promoted after it, since a number is a microsecond there.
const ROOM: u64 = 1 << 16;
/// For how long a root looks at its parents at most before it publishes.
const LOOKS: Duration = Duration::from_secs(30);
/// How often a parent is looked at in vain before it counts as away. (It is given more time at each
/// try.)
const TRIES: u32 = 4;
/// What is noted of one that answered.
const ANSWERED: u32 = u32::MAX;
/// How often in turn it has to find another root once it publishes.
const TWICE: u32 = 2;

/// What the agent has to become now.
#[derive(Debug, PartialEq, Eq)]
pub enum Change {
    /// The root, which goes on above this number. This is what it has applied.
    Root(u64, BTreeMap<String, Vec<u8>>),
    /// An agent below one.
    Below,
}

/// What a root has seen of another one at a parent: its name; its rank, where the parent is that
/// root itself; and how often in turn.
#[derive(Debug, PartialEq)]
struct Other {
    head: String,
    rank: Option<u64>,
    times: u32,
}

/// An agent that may be promoted. `W`: who asks for it, and is answered later.
#[derive(Debug)]
pub struct Standby<W> {
    /// Its name, and that of the folder of the root.
    name: String,
    folder: String,
    /// What is to be done and nobody was told yet, how many jobs have no answer, and what there is
    /// to say.
    jobs: Vec<Job>,
    jobs_out: u32,
    facts: Vec<Fact>,
    role: Role,
    rank: u64,
    /// What was applied here by an earlier life, until it begins to publish.
    applied: BTreeMap<String, Vec<u8>>,
    /// Until when it looks at its parents at most; and how often in vain at each, or so often that
    /// it is done.
    until: Time,
    looked: BTreeMap<usize, u32>,
    others: BTreeMap<usize, Other>,
    /// The other root for which it stands by, where that is known, or that it sees.
    found: String,
    noted: Option<String>,
    /// Up to which number it may publish, or may have published in earlier lives, if it knows that.
    may: Option<u64>,
    /// Who asked for something, and what is to be said where it is done.
    asked: Option<(W, String)>,
    answers: Vec<Answer<W>>,
}

/// To whom, and what is to be said of what was done, or why it was not.
pub type Answer<W> = (W, Result<String, Refused>);

impl<W> Standby<W> {
    /// One that begins as its files say, after what an earlier life applied.
    pub fn new(
        (name, folder): (&str, &str),
        begun: Begun,
        applied: BTreeMap<String, Vec<u8>>,
        now: Time,
    ) -> Standby<W> {
        let Begun { role, rank, noted, may, fact } = begun;
        Standby {
            name: name.into(),
            folder: folder.into(),
            jobs: Vec::new(),
            jobs_out: 0,
            facts: fact.into_iter().collect(),
            role,
            rank,
            applied: if role == Role::Looks { applied } else { BTreeMap::new() },
            until: now + LOOKS,
            looked: BTreeMap::new(),
            others: BTreeMap::new(),
            found: String::new(),
            noted,
            may,
            asked: None,
            answers: Vec::new(),
        }
    }

    /// What is to be done now, one after the other.
    pub fn jobs(&mut self) -> Vec<Job> {
        mem::take(&mut self.jobs)
    }

    /// How many jobs have no answer yet.
    pub fn jobs_out(&self) -> u32 {
        self.jobs_out
    }

    /// What there is to say.
    pub fn facts(&mut self) -> Vec<Fact> {
        mem::take(&mut self.facts)
    }

    pub fn role(&self) -> Role {
        self.role
    }

    /// Its rank, while it is the root, or looks whether it may be.
    pub fn rank(&self) -> Option<u64> {
        matches!(self.role, Role::Root | Role::Looks).then_some(self.rank)
    }

    /// The other root for which it stands by, or that it sees.
    pub fn other(&self) -> &str {
        match self.role {
            Role::StandsBy => &self.found,
            _ => self.others.values().next().map_or("", |it| &it.head),
        }
    }

    /// What of its state cannot be, where something cannot.
    pub fn fault(&self, (name, folder): (&str, &str), rank: Option<u64>) -> Option<&'static str> {
        if self.name != name || self.folder != folder {
            Some("what a standby has is another folder")
        } else {
            (self.rank() != rank).then_some("its rank is another one")
        }
    }

    /// When it has to do something although nothing comes.
    pub fn deadline(&self) -> Option<Time> {
        (self.role == Role::Looks).then_some(self.until)
    }

    // ---- What is asked for

    /// Is to be the root: after all these numbers, and with the digest of what it applied, where it
    /// knows that. `lacks`: who below it has a change that it has not, where somebody has; `clock`:
    /// the microseconds since 1970.
    pub fn promote(
        &mut self,
        copies: bool,
        lacks: Option<Lacks>,
        (seen, clock): (u64, u64),
        digest: Option<String>,
        who: W,
    ) -> Result<(), Refused> {
        match (self.role, lacks) {
            (Role::Root, _) => return Err("it is the root".into()),
            (Role::Looks, _) => {
                return Err("it will be the root: it looks for another one first".into());
            }
            _ if self.asked.is_some() => return Err(Refused::IsAsked),
            (_, Some(lacks)) if copies => {
                let root = &self.folder;
                return Err(format!(
                    "{lacks}: it would be lost. Promote an agent that has it; or put what is \
                     right into {root}, and `promote --as-is`"
                )
                .into());
            }
            (_, Some(lacks)) => {
                self.asked = Some((who, format!("it is the root, as it is: {lacks}")));
                self.tell(Fact::Promoted(lacks.to_string()));
            }
            (_, None) => self.asked = Some((who, String::new())),
        }
        let rank = rank(seen, clock);
        self.begin(Job::Promote { rank, copies, digest });
        Ok(())
    }

    /// Is to be an agent as any other.
    pub fn demote(&mut self, who: W) -> Result<(), Refused> {
        match self.role {
            Role::Below => return Err("it is not the root, and does not stand by".into()),
            _ if self.asked.is_some() => return Err(Refused::IsAsked),
            _ => self.asked = Some((who, String::new())),
        }
        self.begin(Job::Demote);
        Ok(())
    }

    /// Those who can be answered now.
    pub fn answers(&mut self) -> Vec<Answer<W>> {
        mem::take(&mut self.answers)
    }

    /// Its files are those of a whole table, with this digest.
    pub fn notes(&mut self, digest: String) {
        if self.rank().is_none() && self.jobs_out == 0 && self.noted.as_ref() != Some(&digest) {
            self.noted = Some(digest.clone());
            self.begin(Job::Note(digest));
        }
    }

    /// Whether it is on the disk that it may publish this number.
    pub fn may_publish(&self, number: u64) -> bool {
        self.may.is_some_and(|may| !is_newer(number, may))
    }

    /// It is to publish this number: that it may is noted before, and mostly long before.
    pub fn reserves(&mut self, number: u64) {
        if self.jobs_out == 0 && !self.may_publish(number.wrapping_add(ROOM / 2)) {
            self.begin(Job::Reserve(number.wrapping_add(ROOM)));
        }
    }

    fn begin(&mut self, job: Job) {
        self.jobs_out += 1;
        self.jobs.push(job);
    }

    // ---- Another root

    /// The parent at this place was looked at, as [`crate::net::Handler::on_looked`] says.
    pub fn looked(&mut self, at: usize, said: Option<(&Way, u64)>) {
        let tries = self.looked.entry(at).or_default();
        *tries = if said.is_some() { ANSWERED } else { tries.saturating_add(1) };
        if said.is_none() && self.role == Role::Looks {
            return;
        }
        let is_other =
            |way: &Way| way.cost < NONE && !way.names.is_empty() && !way.names.contains(&self.name);
        let said = said.filter(|(way, _)| is_other(way));
        let Some((way, rank)) = said else { return drop(self.others.remove(&at)) };
        let (head, rank) = (way.names[0].clone(), (way.cost == 0).then_some(rank));
        let before = self.others.remove(&at).filter(|it| it.head == head && it.rank == rank);
        if before.is_none() && self.role == Role::Root {
            self.tell(Fact::OtherRoot(head.clone()));
        }
        let times = before.map_or(0, |it| it.times).saturating_add(1);
        self.others.insert(at, Other { head, rank, times });
    }

    /// Whether a root of this name and rank goes on, and not this one.
    fn is_above(&self, head: &str, rank: u64) -> bool {
        is_newer(rank, self.rank) || rank == self.rank && *head > *self.name
    }

    /// The other root for which this one has to stand by, if there is one. One that publishes goes
    /// by ranks alone; one that only begins gives way to any whose rank it does not know.
    fn goes_on(&self) -> Option<&str> {
        let known =
            |head: &str| self.others.values().find(|it| it.head == head).and_then(|it| it.rank);
        let others = self.others.values().filter(|it| match (it.rank, self.role) {
            (Some(rank), Role::Root) => it.times >= TWICE && self.is_above(&it.head, rank),
            (Some(rank), _) => self.is_above(&it.head, rank),
            (None, role) => role == Role::Looks && known(&it.head).is_none(),
        });
        others.map(|it| &*it.head).next()
    }

    // ---- What it becomes

    /// Takes up what was seen at so many parents, and [what so many children said](says): what the
    /// agent becomes now. `clock`: the microseconds since 1970.
    pub fn tick(
        &mut self,
        parents: usize,
        (said, children): (&[u64], usize),
        clock: u64,
        now: Time,
    ) -> Option<Change> {
        self.until = self.until.min(now + LOOKS);
        self.rank()?;
        let looked = |least| self.looked.values().filter(|tries| **tries >= least).count();
        let (is_early, has_all) = (now < self.until, looked(ANSWERED) >= parents);
        if self.role == Role::Looks && looked(TRIES) < parents && is_early {
            return None;
        }
        if let Some(other) = self.goes_on().map(String::from) {
            self.tell(Fact::StandsBy(other.clone()));
            return Some(self.stands_by(other));
        }
        if self.role != Role::Looks {
            return None;
        }
        // (where all that may be another root answered, nobody's word is waited for)
        match says(self.may, said, children, is_early && !has_all) {
            Says::TooLittle => None,
            // (without a clock where it knows up to which number its earlier lives published)
            Says::Nothing => Some(self.is_root(self.rank, self.may.unwrap_or(clock))),
            Says::Newer(count) => {
                let may = self.may.unwrap_or(0);
                self.tell(Fact::Outdone(count, may));
                Some(self.stands_by(String::new()))
            }
        }
    }

    /// Goes on above this rank and this number.
    fn is_root(&mut self, rank: u64, above: u64) -> Change {
        (self.role, self.rank) = (Role::Root, rank);
        self.tell(Fact::IsRoot(rank));
        Change::Root(furthest(rank, [above]), mem::take(&mut self.applied))
    }

    fn stands_by(&mut self, found: String) -> Change {
        self.found = found;
        // (who is being demoted would stand by again after a restart)
        if self.asked.is_none() {
            self.begin(Job::StandBy);
        }
        self.is_below(Role::StandsBy)
    }

    fn is_below(&mut self, role: Role) -> Change {
        self.role = role;
        self.others.clear();
        Change::Below
    }

    /// Takes up what came of a job: what the agent becomes now.
    pub fn done(&mut self, done: Done) -> Option<Change> {
        self.jobs_out = self.jobs_out.saturating_sub(1);
        let said = match done {
            Done::Noted => return None,
            Done::Reserved(number) => {
                self.may = Some(number);
                return None;
            }
            Done::StandsBy(said) => {
                said.err().into_iter().for_each(|why| self.tell(Fact::NotKept(why.to_string())));
                return None;
            }
            Done::Promoted(rank, Ok(applied)) => {
                self.answer(Ok(()));
                (self.applied, self.found) = (applied, String::new());
                self.may = Some(rank);
                return Some(self.is_root(rank, rank));
            }
            Done::Promoted(_, Err(why)) => Err(why),
            Done::Demoted(said) => {
                if said.is_err() && self.role == Role::StandsBy {
                    self.begin(Job::StandBy);
                }
                said.map_err(Refused::from)
            }
        };
        let is_demoted = said.is_ok();
        self.answer(said);
        let was_root = self.rank().is_some();
        if !is_demoted {
            return None;
        }
        let change = self.is_below(Role::Below);
        self.tell(Fact::IsBelow);
        was_root.then_some(change)
    }

    fn tell(&mut self, fact: Fact) {
        self.facts.push(fact);
    }

    fn answer(&mut self, said: Result<(), Refused>) {
        self.answers.extend(self.asked.take().map(|(who, words)| (who, said.map(|()| words))));
    }
}

rignolda::spoils! { Other { head, rank, times } }
rignolda::spoils! { Standby<W> {
    name, folder, jobs_out, role, rank, applied, until, looked, others, found, noted, may, asked
} }

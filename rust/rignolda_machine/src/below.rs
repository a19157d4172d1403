//! What is known of the agents below: for watching, and which numbers they have. No step of a link
//! depends on it.
//!
//! Each agent sends its list up now and then, itself first and each agent after its parent, or what
//! [changed](reports) in it, and its parent puts it behind its own.
use crate::net::is_name;
use crate::net::wire::REPORT_BYTES;
use crate::prelude::*;
use crate::settings::{furthest, is_newer};
use crate::{Sha256, Time};
use core::mem;
use core::time::Duration;
use heard::{Heard, Read};
use said::Said;

mod heard;
pub mod last_said;
pub mod reports;
mod said;
mod tree;

/// The most agents in a report, and how deep they are below who sends it.
const AGENTS: usize = 10_000;
const DEPTH: u32 = 64;
/// How often a list is made or read at most: with this much time for each agent in it.
pub const EACH: Duration = Duration::from_micros(250);
/// About how many bytes a list has for an agent: one that has more is as one of more agents.
const BYTES: usize = 256;

/// What is known of the agents below.
#[derive(Debug)]
pub struct Below {
    sha: Sha256,
    /// What each child said last.
    children: BTreeMap<String, Heard>,
    /// Whether they may be of other groups than before.
    has_other_groups: bool,
    /// Who is left out, since an operator said that it is gone for good.
    left_out: BTreeSet<String>,
    /// Who is to be asked for a whole report.
    asks: Vec<String>,
    /// Of whom there is news, and who sent how many reports that were none.
    news: Vec<String>,
    none: BTreeMap<String, u64>,
}

impl Below {
    /// Nobody is known yet.
    pub fn new(sha: Sha256) -> Below {
        Below {
            sha,
            children: BTreeMap::new(),
            has_other_groups: false,
            left_out: BTreeSet::new(),
            asks: Vec::new(),
            news: Vec::new(),
            none: BTreeMap::new(),
        }
    }

    /// Nobody is known any more.
    pub fn begins(&mut self) {
        *self = Below::new(self.sha);
    }

    /// Takes a report that this child sent. Whether it is one, as far as it is read: what comes too
    /// soon after another one is read [later](Below::reads), and what changed since a report that
    /// was not read is not read at all.
    pub fn heard(&mut self, child: &str, bytes: &[u8], now: Time) -> bool {
        let it = self.children.entry(child.into()).or_default();
        it.is_here = true;
        if bytes.len() > REPORT_BYTES {
            it.forgets_what_waits();
            self.took_up(child, &Read { none: 1, ..Read::of(self.sha) }, now);
            return false;
        } else if !it.puts(bytes, now) {
            self.took_up(child, &Read { asks: true, ..Read::of(self.sha) }, now);
        } else if it.rests(now).is_none() {
            return self.hears(child, now).none == 0;
        }
        true
    }

    /// Reads what waits, where its time has come: of which children there is news. What is no
    /// report is [counted](Below::were_none).
    pub fn reads(&mut self, now: Time) -> Vec<String> {
        let is_due = |it: &Heard| !it.waits.is_empty() && it.rests(now).is_none();
        let due = self.children.iter().filter(|(_, it)| is_due(it)).map(|(child, _)| child.clone());
        let mut due: Vec<_> = due.collect();
        due.retain(|child| self.hears(child, now).is_news);
        let asks = self.children.iter_mut().filter_map(|(child, it)| it.asks(now).then_some(child));
        self.asks.extend(asks.cloned());
        due
    }

    /// Of whom there is news since this was asked last.
    pub fn news(&mut self) -> Vec<String> {
        mem::take(&mut self.news)
    }

    /// Which children sent reports that were none since this was asked last, and how many.
    pub fn were_none(&mut self) -> BTreeMap<String, u64> {
        mem::take(&mut self.none)
    }

    /// These children there are, and whether each is connected. To be told each second or two, and
    /// when a connection ends.
    pub fn learns<'a>(&mut self, children: impl Iterator<Item = (&'a str, bool)>) {
        let children: BTreeMap<&str, bool> = children.collect();
        self.children.retain(|name, it| {
            let is_connected = children.get(&**name);
            it.is_here &= is_connected == Some(&true);
            is_connected.is_some()
        });
    }

    /// Keeps apart what nobody says anew, so that it is [proved](LastSaid) when it is read. To be
    /// asked each second or two.
    pub fn keeps(&mut self, now: Time) {
        self.children.values_mut().filter(|it| !it.is_here).for_each(|it| it.keeps(self.sha, now));
        self.left_out.retain(|name| is_name(name));
    }

    /// When something that waits is to be read.
    pub fn reads_at(&self, now: Time) -> Option<Time> {
        let waits = self.children.values().filter(|it| !it.waits.is_empty());
        waits.map(|it| it.rests(now).unwrap_or(now)).min()
    }

    fn hears(&mut self, child: &str, now: Time) -> Read {
        let read = self.children.entry(child.into()).or_default().reads(child, self.sha, now);
        self.took_up(child, &read, now);
        read
    }

    /// What follows from what was read: who sent what is none is asked for a whole report too.
    fn took_up(&mut self, child: &str, read: &Read, now: Time) {
        self.has_other_groups |= read.has_other_groups;
        self.news.extend(read.is_news.then(|| child.into()));
        if read.none > 0 {
            *self.none.entry(child.into()).or_default() += read.none;
        }
        if let Some(it) = self.children.get_mut(child) {
            it.needs |= read.asks || read.none > 0;
            self.asks.extend(it.asks(now).then(|| child.into()));
        }
    }

    /// Who is to be asked for a whole report now.
    pub fn asked(&mut self) -> Vec<String> {
        mem::take(&mut self.asks)
    }

    /// What a child said by the connection that it has, or before it is [kept](Below::keeps).
    fn said(&self, child: &str) -> Option<&Said> {
        self.children.get(child)?.said.as_ref()
    }

    /// Whether agents below may be of other groups than when this was asked last.
    pub fn has_other_groups(&mut self) -> bool {
        mem::take(&mut self.has_other_groups)
    }

    /// The number that is furthest ahead of this one, of those that children have and say now. (So
    /// one that nobody has any more is forgotten.)
    pub fn ahead(&self, number: u64) -> u64 {
        let here = self.children.values().filter(|it| it.is_here);
        let said = here.filter_map(|it| it.said.as_ref());
        furthest(number, said.flat_map(|said| [said.number(), said.ahead]))
    }

    /// The number of a child, and the one that is furthest ahead of that in all that it said, also
    /// of agents that were not connected.
    pub fn seen(&self, child: &str) -> [u64; 2] {
        self.said(child).map_or([0; 2], |said| [said.number(), said.seen])
    }

    /// The number of a child, and the one that is furthest ahead of that at it and those below that
    /// are connected. (Where its own is wrong, it may count what is right as ahead.)
    pub fn numbers(&self, child: &str) -> [u64; 2] {
        self.said(child).map_or([0; 2], |said| [said.number(), said.ahead])
    }

    /// The same number, if the child has said anything.
    pub fn number(&self, child: &str) -> Option<u64> {
        Some(self.said(child)?.number())
    }

    /// The agent below that has the newest change of those that came after this number, if one has,
    /// and the number of that change.
    pub fn newer(&self, number: u64) -> Option<(String, u64)> {
        let lists: Vec<_> = self.children.values().filter_map(|it| it.list(self.sha)).collect();
        let all = lists.iter().flat_map(|list| list.iter());
        let newest = furthest(number, all.clone().map(|seen| seen.changed));
        let mut all = all.filter(|seen| is_newer(seen.changed, number) && seen.changed == newest);
        all.next().map(|seen| (seen.name.clone(), seen.changed))
    }

    /// How many parents a child says that it may have; 0 if it has not said it.
    pub fn parents(&self, child: &str) -> u32 {
        self.said(child).and_then(|said| said.list.first()).map_or(0, |own| own.parents)
    }

    /// How many agents they have.
    pub fn agents(&self) -> u32 {
        let agents = |it: &Heard| match (&it.said, &it.last) {
            (Some(said), _) => said.list.len() as u32,
            (None, last) => last.as_ref().map_or(0, |last| last.agents.min(AGENTS as u32)),
        };
        self.children.values().map(agents).sum()
    }

    /// How deep the deepest agent that they name is below this one.
    pub fn depth(&self) -> u32 {
        let depth = |it: &Heard| match (&it.said, &it.last) {
            (Some(said), _) => said.depth,
            (None, last) => last.as_ref().map_or(0, |last| last.depth.min(DEPTH)),
        };
        self.children.values().map(depth).max().unwrap_or(0)
    }

    /// Of which groups they are: of each child, those of all that it names.
    pub fn groups(&self) -> Vec<Vec<Cow<'_, [String]>>> {
        self.children.values().map(|it| it.groups(self.sha)).collect()
    }

    /// Forgets a child that was removed.
    pub fn forget(&mut self, child: &str) {
        self.children.remove(child);
    }
}

rignolda::spoils! { Below { children, has_other_groups, left_out, asks, news, none } }

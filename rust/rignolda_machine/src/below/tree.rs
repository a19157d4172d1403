//! The tree below an agent, and what it reports of that.
use super::reports::{self, Told};
use super::{Below, AGENTS};
use crate::control::{self, ChildStatus, Seen, Status};
use crate::net::wire::REPORT_BYTES;
use crate::prelude::*;
use crate::Time;
use core::cmp::Reverse;
use core::{iter, ptr};

/// The most agents that are known at a time.
const KNOWN: usize = 1 << 16;
/// How many agents are left out at most.
const LEFT_OUT: usize = 1_000;

impl Below {
    /// Leaves an agent out of the [tree](Below::tree), and who was below it, until it is connected.
    pub fn leave_out(&mut self, name: &str) {
        // (who is left out was in the tree, and a name that nobody has is no use)
        if self.left_out.len() < LEFT_OUT {
            self.left_out.insert(name.into());
        }
    }

    /// Of those that are left out, who is connected now is one of the tree again.
    pub fn are_back(&mut self, status: &Status, now: Time) {
        let list = self.tree(status, now);
        let back = list.iter().filter(|seen| seen.connected);
        back.for_each(|seen| drop(self.left_out.take(&seen.name)));
    }

    /// Whether somebody is left out.
    pub fn leaves_out(&self) -> bool {
        !self.left_out.is_empty()
    }

    /// Without those that are left out and are not connected, and who is below them.
    fn without(&self, list: Vec<Seen>) -> Vec<Seen> {
        let mut out: BTreeSet<String> = BTreeSet::new();
        let is_out = |seen: &Seen| !seen.connected && self.left_out.contains(&seen.name);
        let mut list = list;
        list.retain(|seen| {
            let is_out = is_out(seen) || !seen.connected && out.contains(&seen.parent);
            is_out.then(|| out.insert(seen.name.clone()));
            !is_out
        });
        list
    }

    /// The list of an agent with this status, itself first.
    ///
    /// An agent that may have several parents is where it is connected: at this agent, where that
    /// has a connection with it; else where somebody says that it is connected; and where it was
    /// heard of last. What others say of it is left out.
    pub fn tree(&self, status: &Status, now: Time) -> Vec<Seen> {
        let children = status.children.iter();
        let lists: Vec<_> = children.map(|child| self.list(child, &status.name, now)).collect();
        let all =
            || lists.iter().enumerate().flat_map(|(at, list)| list.iter().map(move |it| (at, it)));
        let is_child = |at: usize, seen: &Seen| ptr::eq(seen, &lists[at][0]);
        let mut best = BTreeMap::new();
        for (at, seen) in all() {
            let is_here = seen.connected && is_child(at, seen);
            let news = ((seen.connected, is_here, seen.sequence > 0, Reverse(seen.age)), at);
            let best = best.entry(&*seen.name).or_insert(news);
            *best = if news.0 > best.0 { news } else { *best };
        }
        // (first where it is best; and where there it has no place, anywhere)
        let mut taken = BTreeMap::from([(&*status.name, usize::MAX)]);
        for anywhere in [false, true] {
            for (at, seen) in all().filter(|(at, it)| anywhere || best[&*it.name].1 == *at) {
                if is_child(at, seen) || taken.get(&*seen.parent) == Some(&at) {
                    taken.entry(&*seen.name).or_insert(at);
                }
            }
        }
        let kept = all().map(|(at, seen)| taken.get(&*seen.name) == Some(&at));
        let kept: Vec<bool> = kept.collect();
        let kept = lists.into_iter().flatten().zip(kept).filter(|(_, is_kept)| *is_kept);
        let kept = kept.map(|(seen, _)| seen);
        let all = iter::once(status.seen()).chain(kept).collect();
        share(if self.left_out.is_empty() { all } else { self.without(all) }, KNOWN)
    }

    /// What is known of a child and those below it.
    fn list(&self, child: &ChildStatus, parent: &str, now: Time) -> Vec<Seen> {
        let nothing = || (now, vec![Seen { name: child.name.clone(), ..Seen::default() }]);
        let heard = self.children.get(&child.name);
        let said = heard.and_then(|it| Some((it.at()?, it.list(self.sha)?.into_owned())));
        // (an empty one is spoilt)
        let said = said.filter(|(_, list)| !list.is_empty());
        let (at, mut list) = said.unwrap_or_else(nothing);
        let ahead = self.said(&child.name).map_or(list[0].ahead, |said| said.ahead);
        let age = now.since(at).as_millis() as u64;
        for seen in &mut list {
            seen.settles();
            seen.age = seen.age.saturating_add(age);
            // (of who is below an agent that is away, nothing newer is known; and what it said
            // before it connected may be of an earlier life)
            seen.connected &= child.connected;
            let is_of_now = u64::from(age <= child.since || !child.connected);
            (seen.applied, seen.files) = (seen.applied * is_of_now, seen.files * is_of_now);
        }
        (list[0].parent, list[0].connected) = (parent.into(), child.connected);
        list[0].ahead = ahead;
        list
    }

    /// The bytes to send to the parent: the list, cut where it would be too long.
    pub fn report(&self, status: &Status, now: Time) -> Vec<u8> {
        self.cut(self.tree(status, now)).1
    }

    /// The bytes to send to the parent, which was told this: what changed, where it reads that on
    /// this connection and it is shorter; else the list.
    pub fn report_to(
        &self,
        told: &mut Told,
        connection: Option<u64>,
        status: &Status,
        now: Time,
    ) -> Vec<u8> {
        let list = self.tree(status, now);
        let is_short = list.len() <= AGENTS;
        let changes = connection.filter(|_| is_short);
        if let Some(bytes) = changes.and_then(|it| told.changes(it, &list, self.sha, now)) {
            return bytes;
        }
        let count = list.len();
        let (list, bytes) = self.cut(list);
        *told = Told::default();
        // (of one that was cut it is not known which agents go into the next one)
        if let Some(connection) = connection.filter(|_| list.len() == count) {
            told.tells(connection, list, reports::id(&bytes, self.sha), now);
        }
        bytes
    }

    /// As much of a list as goes into a report, and that.
    fn cut(&self, mut list: Vec<Seen>) -> (Vec<Seen>, Vec<u8>) {
        let mut most = AGENTS;
        loop {
            list = share(list, most);
            let bytes = control::report(&list);
            if bytes.len() <= REPORT_BYTES {
                return (list, bytes);
            }
            most = REPORT_BYTES / 10 * 9 / (bytes.len() / list.len() + 1);
        }
    }
}

/// At most so many agents of a list. Of those below an agent each child has the same share, and
/// what needs less is whole: so whoever has many below it drives nobody else out. An agent that has
/// lost a child is `cut`.
fn share(mut list: Vec<Seen>, most: usize) -> Vec<Seen> {
    if list.len() <= most {
        return list;
    }
    let places: BTreeMap<_, _> = list.iter().enumerate().map(|(at, it)| (&*it.name, at)).collect();
    let above = |seen: &Seen| places.get(&*seen.parent).copied().unwrap_or(0);
    let above: Vec<usize> = list.iter().map(above).collect();
    let (mut sizes, mut below) = (vec![1; list.len()], vec![Vec::new(); list.len()]);
    for at in (1..list.len()).rev() {
        sizes[above[at]] += sizes[at];
        below[above[at]].push(at);
    }
    let mut shares = vec![most.max(1); list.len()];
    for (at, mut children) in below.into_iter().enumerate() {
        children.sort_by_key(|child| sizes[*child]);
        let mut room = shares[at].saturating_sub(1);
        for (done, child) in children.iter().enumerate() {
            shares[*child] = sizes[*child].min(room / (children.len() - done));
            list[at].cut |= shares[*child] == 0;
            room -= shares[*child];
        }
    }
    let mut shares = shares.into_iter();
    list.retain(|_| shares.next() > Some(0));
    list
}

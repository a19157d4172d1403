//! The list of a child.
use super::reports::Changes;
use super::{AGENTS, DEPTH};
use crate::config::{DEEP, GROUPS};
use crate::control::{Compared, Seen, WHY};
use crate::net::is_name;
use crate::net::wire::REPORT_BYTES;
use crate::prelude::*;
use crate::settings::{furthest, is_group};
use crate::Time;
use core::time::Duration;

/// The list of a child: when it came, and how deep the deepest agent in it is below this one.
#[derive(Debug)]
pub(super) struct Said {
    pub(super) at: Time,
    pub(super) depth: u32,
    pub(super) list: Vec<Seen>,
    /// The number that is furthest ahead of the child's in it, of those who are connected; and of
    /// all of them.
    pub(super) ahead: u64,
    pub(super) seen: u64,
    /// Whether nothing that came was left out; and how many bytes its texts have.
    pub(super) is_all: bool,
    bytes: usize,
}

/// The list that this child sent, if it is one.
pub(super) fn whole(child: &str, bytes: &[u8], now: Time) -> Option<Said> {
    // (a list of very many would take much more memory than its bytes)
    let many = bytes.iter().filter(|byte| **byte == b'{').count();
    let is_short = bytes.len() <= REPORT_BYTES && many <= AGENTS;
    let list = is_short.then(|| serde_json::from_slice(bytes).ok());
    let list: Vec<Seen> = list.flatten()?;
    list.first().filter(|first| first.name == child)?;
    Said::new(list, now)
}

/// What an agent says of itself is only so long.
pub(super) fn bound(seen: &mut Seen) {
    if seen.groups.len() > GROUPS || !seen.groups.iter().all(|it| is_group(it)) {
        seen.groups.clear();
    }
    if seen.why.len() > WHY {
        seen.why = seen.why.chars().take(WHY).collect();
    }
    // (the root alone says this)
    seen.compared = Compared::Nothing;
}

impl Said {
    /// The number of who said it.
    pub(super) fn number(&self) -> u64 {
        self.list.first().map_or(0, |own| own.sequence)
    }

    /// What a list says, with the child first. Of the others it is what agents further below say,
    /// so what cannot be of a tree is left out, and the child is not blamed for it: a name that is
    /// none or is there before, an agent whose parent is not, and what is too deep.
    fn new(mut list: Vec<Seen>, now: Time) -> Option<Said> {
        list.first_mut()?.parent.clear();
        let (mut depths, mut is_deeper) = (BTreeMap::from([(String::new(), 0)]), false);
        let (mut deepest, count) = (0, list.len());
        list.retain(|seen| {
            let Some(depth) = depths.get(&seen.parent).map(|above| above + 1) else { return false };
            let is_new = is_name(&seen.name) && !depths.contains_key(&seen.name);
            is_deeper |= is_new && depth > DEPTH;
            // (no other one is below nobody)
            depths.remove("");
            let is_taken = is_new && depth <= DEPTH;
            if is_taken {
                deepest = deepest.max(depth);
                depths.insert(seen.name.clone(), depth);
            }
            is_taken
        });
        list.first_mut()?.cut |= is_deeper;
        list.iter_mut().for_each(bound);
        // (an agent of before says none ahead, nor what those below it say; and one that is not
        // connected there may be elsewhere with another number: what it had may be said for ever)
        let own = list.first()?.sequence;
        let numbers = |(_, seen): (usize, &Seen)| [seen.sequence, seen.ahead];
        let are_there = list.iter().enumerate().filter(|(at, seen)| *at == 0 || seen.connected);
        let ahead = furthest(own, are_there.flat_map(numbers));
        let seen = furthest(own, list.iter().enumerate().flat_map(numbers));
        // (of those that are not in it nobody knows how deep they are)
        let least = if list.iter().any(|it| it.cut) { DEEP } else { 0 };
        let groups = |it: &Seen| it.groups.iter().map(String::len).sum::<usize>();
        let bytes = |it: &Seen| it.name.len() + it.parent.len() + it.why.len() + groups(it);
        let bytes = list.iter().map(bytes).sum();
        let (depth, is_all) = (deepest.max(least), list.len() == count);
        Some(Said { at: now, depth, list, ahead, seen, is_all, bytes })
    }

    /// Whether these changes may be of this list: else it would be much longer than one may be.
    pub(super) fn may_be(&self, changes: &Changes) -> bool {
        changes.agents() <= 2 * AGENTS && self.bytes + changes.bytes() <= 2 * REPORT_BYTES
    }

    /// The list with these changes, unless it is too long.
    pub(super) fn changed(self, changes: &Changes, now: Time) -> Option<Said> {
        let millis = now.since(self.at).as_millis() as u64;
        let (list, is_all) = changes.apply(self.list, millis);
        // (what is less than a millisecond counts at the next one)
        let said = Said::new(list, self.at + Duration::from_millis(millis))?;
        let said = Said { is_all: said.is_all && is_all, ..said };
        (said.list.len() <= AGENTS).then_some(said)
    }
}

rignolda::spoils! { Said { at, depth, list, ahead, seen, is_all, bytes } }

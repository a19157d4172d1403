//! What there is to watch of an agent, and of all below it.
use super::Machine;
use crate::apply::Applier;
use crate::came::Came;
use crate::control::{ChildStatus, Compared, Seen, Standby as Role, Status};
use crate::net::{Address, Parent};
use crate::prelude::*;
use crate::root::Root;
use crate::settings::furthest;
use crate::standby::Standby;
use crate::Time;

/// How many faults of the root's folder its status names.
const FAULTS: usize = 8;

impl Machine {
    /// What is known of it. What its shell knows, that says.
    pub fn status(&self, now: Time) -> Status {
        let millis = |since: Time| now.since(since).as_millis() as u64;
        let Came { table, applier, .. } = &self.came;
        let standby = self.came.standby.as_ref();
        let number = table.taker.number;
        let (relay, parent) = (self.peers.relay(), self.peers.parent());
        let faults = self.came.root.as_ref().map(Root::faults);
        // (the table that is lacking may bring changes of any number; and what is applied is asked
        // for first, so that the digest is of that or of something newer)
        let is_whole = table.taker.is_whole();
        let applied = applier.as_ref().map_or(number, |it| it.applied(number));
        let files = applier.as_ref().filter(|_| is_whole).and_then(|it| it.files(number));
        let refusals = self.peers.refusals().map(|(parent, why)| format!("{parent}: {why}"));
        let children = relay.children().map(|(name, link)| ChildStatus {
            name: name.clone(),
            connected: link.is_connected(),
            since: millis(link.since),
            backlog: relay.backlog(link),
            oldest: link.sent.map_or(0, millis),
            left_behind: relay.is_left_behind(name),
            reconnects: link.connections,
            acknowledged: link.acknowledged(),
            ignored: link.ignored(),
            timeouts: link.timeouts,
            clashes: link.clashes,
        });
        Status {
            name: self.config.peers.name.clone(),
            is_root: self.came.root.is_some(),
            standby: standby.map_or(Role::No, Standby::role),
            other_root: standby.map_or(String::new(), |it| it.other().into()),
            version: env!("CARGO_PKG_VERSION").into(),
            failing: applier.as_ref().map_or(0, Applier::failing),
            failures: applier.as_ref().map_or(Vec::new(), |it| it.failures(FAULTS)),
            parent: parent.map(|(parent, _)| parent.to_string()),
            no_parent: parent.map_or_else(|| self.peers.no_parent().into(), |_| String::new()),
            refusals: refusals.collect(),
            place: parent.map_or(0, |(parent, _)| place(&self.config.peers.parents, parent)),
            parents: self.config.peers.parents.len() as u32,
            cost: self.peers.way().cost,
            way: self.peers.way().names.clone(),
            connected_since: parent.map_or(0, |(_, since)| millis(since) / 1_000),
            sequence: number,
            applied: applied * u64::from(is_whole),
            applies: applier.is_some(),
            files: files.map_or(0, |(number, _)| number),
            digest: files.map_or(0, |(_, digest)| digest),
            folder: self.config.apply.as_ref().map_or(String::new(), |it| it.folder.clone()),
            groups: self.config.apply.as_ref().map_or(Vec::new(), |it| it.groups.clone()),
            mended: applier.as_ref().map_or(0, Applier::mended),
            ahead: furthest(number, self.came.numbers()),
            changed: table.changed,
            round: table.round,
            round_age: self.came.round_at.map_or(0, millis),
            whole: is_whole,
            settings: table.keys.len() as u64,
            draining: self.came.root.as_ref().is_some_and(Root::is_draining),
            held: self.came.root.as_ref().map_or(0, Root::held),
            harmless: self.came.root.as_ref().map_or(0, |root| root.harmless().into()),
            limit: self.config.backlog,
            received: self.came.received,
            strays: table.strays,
            garbage: self.came.garbage,
            gaps: table.gaps,
            bad_reports: self.came.bad_reports,
            old_frames: relay.old_frames(),
            reconnects: self.peers.reconnects(),
            refused: self.peers.refused(),
            last_refused: self.peers.last_refused().into(),
            hook_failures: applier.as_ref().map_or(0, Applier::hook_failures),
            unpublished: faults.map_or(0, |it| it.count),
            faults: faults.iter().flat_map(|it| it.texts.iter().take(FAULTS).cloned()).collect(),
            children: children.collect(),
            // (of the whole tree more is known at the root, and of the process in its shell)
            agents: 0,
            away: 0,
            differing: 0,
            reload_failed: String::new(),
            certificate_expires: self.certificate_expires,
            unix: self.unix,
        }
    }

    /// What is known of this agent and all below it. The root compares their files with what it
    /// published.
    pub fn tree(&self, status: &Status, now: Time) -> Vec<Seen> {
        let mut list = self.came.below.tree(status, now);
        for seen in &mut list {
            let compared = self.came.root.as_ref().map(|it| it.published.compared(seen));
            seen.compared = compared.unwrap_or_default();
        }
        list
    }

    /// The same as `status`; at the root with what is known of the whole tree.
    pub fn full_status(&self, now: Time) -> Status {
        let mut status = self.status(now);
        if status.is_root {
            let list = self.tree(&status, now);
            let count = |is: fn(&Seen) -> bool| list.iter().filter(|seen| is(seen)).count() as u64;
            status.agents = list.len() as u64;
            status.away = count(|seen| !seen.connected);
            status.differing = count(|seen| seen.compared == Compared::Differs);
        }
        status
    }
}

/// At which place of a list of parents this one is.
fn place(parents: &[Parent<Address>], parent: &Parent<Address>) -> u32 {
    let is_same = |it: &Parent<Address>| it.name == parent.name && it.address == parent.address;
    parents.iter().zip(0..).find(|(it, _)| is_same(it)).map_or(0, |(_, at)| at)
}

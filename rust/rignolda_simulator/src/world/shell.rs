//! What the shell of an agent looks at itself, each second or two: whether its workers do what the
//! machine has asked them for, and whether a parent answers whom the machine has none.
use super::{Comes, World};
use crate::drawn;
use rignolda_machine::apply::Applier;
use rignolda_machine::machine::Act;
use rignolda_machine::net::Parent;
use rignolda_machine::root::Root;
use rignolda_machine::standby::Standby;

/// After how long without a parent it looks for one itself, how often, and after how many it found
/// in turn it ends: as `reach.rs` has it.
const ALONE: u64 = 180_000;
const ALONE_EVERY: u64 = 60_000;
const FINDS: u32 = 2;

/// What the shell of an agent knows.
#[derive(Debug, Default)]
pub struct Shell {
    /// Whether there is a worker of the root's disk.
    pub has_disk: bool,
    /// Since when it has no parent, and how often parents had answered then; when it looked for one
    /// last, and how often in turn it found one.
    alone: Option<(u64, u64)>,
    sought: u64,
    finds: u32,
}

impl World {
    /// What of an agent's workers is not as its machine has it, if something is not.
    pub(super) fn shell_fault(&mut self, it: usize) -> Option<&'static str> {
        let agent = &self.agents[it];
        let machine = agent.machine.as_ref()?;
        let (mut disk, mut stands, mut applies) = (0, 0, [0; 5]);
        for what in agent.comes.values() {
            let Comes::Works(act) = what else { continue };
            match &**act {
                Act::Disk(_) => disk += 1,
                Act::Stand(_) => stands += 1,
                Act::Apply(at, _) => applies[*at] += 1,
                _ => (),
            }
        }
        let is_asked = |applier: &Applier| applier.asked().map(u32::from) == applies;
        let root = machine.came.root.as_ref().map(Root::jobs_out);
        let standby = machine.came.standby.as_ref().map(Standby::jobs_out);
        let faults = [
            (root != agent.shell.has_disk.then_some(disk)).then_some("other jobs of its disk"),
            (standby.unwrap_or(0) != stands).then_some("other jobs of a standby"),
            match &machine.came.applier {
                Some(applier) if is_asked(applier) => None,
                None if self.drawn.configs[it].apply.is_none() => None,
                _ => Some("nobody applies settings"),
            },
            self.asks_otherwise(it).then_some("a store was asked for something else"),
        ];
        let fault = faults.into_iter().flatten().next();
        fault.or_else(|| self.misses(it).then_some("it has no parent, and one answers"))
    }

    /// Whether an agent has had no parent for long, and found one twice that answers.
    fn misses(&mut self, it: usize) -> bool {
        let now = self.clock.now();
        let agent = &self.agents[it];
        let Some(machine) = &agent.machine else { return false };
        let has_parent = machine.config.peers.is_root() || machine.peers.parent().is_some();
        let answers = machine.peers.looks_answered();
        let answer = |parent: &Parent<_>| {
            let to = parent.address.as_ref().and_then(drawn::listens);
            to.is_some_and(|to| self.answers(it, to))
        };
        let finds = machine.config.peers.parents.iter().any(answer);
        let shell = &mut self.agents[it].shell;
        if has_parent || shell.alone.is_none_or(|(_, before)| before != answers) {
            (shell.alone, shell.finds) = ((!has_parent).then_some((now, answers)), 0);
            return false;
        }
        let is_long = shell.alone.is_some_and(|(since, _)| now >= since + ALONE);
        if is_long && now >= shell.sought + ALONE_EVERY {
            shell.finds = if finds { shell.finds + 1 } else { 0 };
            shell.sought = now;
        }
        shell.finds >= FINDS
    }
}

//! What an agent is in the tree: the root, a second one, or below one.
use super::{peers, refused, Act, Machine, Now};
use crate::below::reports::Told;
use crate::below::Below;
use crate::config::Config;
use crate::control::{Response, Standby as Role};
use crate::net::{Address, Parent, Peers, Setup};
use crate::prelude::*;
use crate::root::Root;
use crate::standby::Change;
use crate::Time;

impl Machine {
    /// Where it may be promoted, becomes what it is to be.
    pub(super) fn stands(&mut self, now: Now, acts: &mut Vec<Act>) {
        let whole = self.came.whole();
        let Some(standby) = &mut self.came.standby else { return };
        whole.into_iter().for_each(|digest| standby.notes(digest));
        let parents = &self.config.peers.parents;
        let (said, children) = said(&self.peers, &self.came.below, parents);
        let change = standby.tick(parents.len(), (&said, children), now.micros(), now.at);
        self.becomes(change, now, acts);
    }

    /// It is another one in the tree from now on, if there is a change; and whoever asked is told.
    pub(super) fn becomes(&mut self, change: Option<Change>, now: Now, acts: &mut Vec<Act>) {
        let Some(standby) = &mut self.came.standby else { return };
        let answers = standby.answers();
        let (rank, was_root) = (standby.rank(), self.config.peers.rank.is_some());
        self.config.peers.rank = rank;
        if rank.is_some() != was_root {
            self.begins_anew(now.at, acts);
        }
        if let Some(Change::Root(number, applied)) = change {
            self.came.begins(now.at);
            self.begins_as_root(applied, number, now.at, acts);
        }
        acts.extend(answers.into_iter().map(|(ticket, done)| {
            let response = done.map_or_else(refused, |it| match it {
                none if none.is_empty() => Response::Done,
                words => Response::Said(words),
            });
            Act::Answer(ticket, response)
        }));
    }

    /// The root of its configuration, if that is one's, goes on above this number.
    pub(super) fn begins_as_root(
        &mut self,
        applied: BTreeMap<String, Vec<u8>>,
        above: u64,
        now: Time,
        acts: &mut Vec<Act>,
    ) {
        let root = self
            .config
            .root
            .as_ref()
            .map(|it| Root::new(it, applied, above, self.host.sha256, now));
        acts.extend(root.as_ref().map(|_| Act::Begins));
        self.came.root = root;
    }

    /// Leaves all connections and is there anew, as after a restart, at another place of the tree.
    /// What it applies goes on.
    fn begins_anew(&mut self, now: Time, acts: &mut Vec<Act>) {
        let setup = self.peers.setup();
        let own = Setup { rank: setup.rank, ..self.config.peers.clone() };
        if own != *setup || self.config.backlog != self.peers.relay().room() {
            // (what is spoilt would be in both from now on, and nobody would see it)
            return acts.push(Act::Fail("its configuration is another one"));
        }
        let asked = self.came.root.take().map_or(Vec::new(), Root::ends);
        let refused = || Response::Refused("it is not the root any more".into());
        acts.extend(asked.into_iter().map(|it| Act::Answer(it, refused())));
        acts.push(Act::Anew);
        self.came.begins(now);
        self.peers = peers(&self.config, &mut self.host, now);
        (self.told, self.calls) = (Told::default(), 0);
    }

    /// Whether all that says whether it is the root says the same.
    pub(super) fn is_what_it_is(&self) -> bool {
        let standby = self.config.root.as_ref().map(|root| root.standby);
        let is_root = match &self.came.standby {
            Some(standby) => standby.role() == Role::Root,
            None => standby.is_some(),
        };
        let is_there = (standby == Some(true)) == self.came.standby.is_some();
        let looks = self.came.standby.as_ref().is_some_and(|it| it.role() == Role::Looks);
        let takes_none = self.config.peers.is_root() == (is_root || looks);
        is_there && takes_none && self.came.root.is_some() == is_root
    }

    /// Takes what may change of the configuration while it runs: the names of what does not.
    pub(super) fn reload(&mut self, config: Config, now: Time) {
        let rank = self.config.peers.rank;
        self.config = Config { peers: Setup { rank, ..config.peers }, ..config };
        if let (Some(applier), Some(apply)) = (&mut self.came.applier, &self.config.apply) {
            applier.reload(apply);
        }
        if let (Some(root), Some(config)) = (&mut self.came.root, &self.config.root) {
            root.reload(config, now);
        }
        self.came.follow_groups();
        self.peers.set_up(self.config.peers.clone(), now);
        self.came.changed = true;
    }
}

/// The numbers that children have, where they have said any since they connected, and how many
/// children there are: without those that may be another root.
fn said(peers: &Peers<Address>, below: &Below, parents: &[Parent<Address>]) -> (Vec<u64>, usize) {
    let is_root = |name: &String| parents.iter().any(|it| it.name.as_ref() == Some(name));
    let children = peers.relay().children().filter(|(name, _)| !is_root(name));
    let children: Vec<_> = children.collect();
    let connected = children.iter().filter(|(_, link)| link.is_connected());
    (connected.filter_map(|(name, _)| below.number(name)).collect(), children.len())
}

#[cfg(test)]
mod tests {
    use super::*;
    use crate::config::{Apply, Root as RootConfig};
    use crate::machine::{Found, Host, Input};
    use crate::net::Children;
    use crate::sha::sha256;
    use crate::standby::{Begun, Done};
    use core::time::Duration;

    const NOW: Now = Now { at: Time::after(Duration::from_secs(9)), unix: Duration::from_secs(99) };

    /// An agent that may be promoted.
    fn machine() -> Machine {
        let root = RootConfig {
            settings: "/root".into(),
            standby: true,
            round: Duration::from_secs(30),
            harmless: None,
            hold: false,
            unsets: None,
        };
        let peers = Setup {
            name: "own".into(),
            parents: [Parent {
                name: Some("other".into()),
                address: Some(Address::Unix("/other".into())),
                price: None,
            }]
            .into(),
            rank: None,
            children: Children::Named([("other".into(), None)].into()),
            ack_timeout: Duration::from_secs(2),
            evict: Duration::from_secs(60),
            poll: Duration::from_millis(100),
        };
        let apply = Some(Apply::default());
        let config = Config { peers, listens: true, backlog: 64, root: Some(root), apply };
        let begun = Begun { role: Role::Below, rank: 0, noted: None, may: None, fact: None };
        let found = Found { applied: Some(Default::default()), standby: Some(begun) };
        let host = Host { drawn: 1, waiting: 64, restarts: None, sha256 };
        Machine::new(config, found, host, NOW, &mut Vec::new())
    }

    /// Whether it is promoted, and ends for what it is set up with.
    fn promoted(mut machine: Machine) -> [bool; 2] {
        let mut acts = Vec::new();
        machine.step(NOW, Input::Stood(Done::Promoted(7, Ok(BTreeMap::new()))), &mut acts);
        let has = |is: fn(&Act) -> bool| acts.iter().any(is);
        [has(|it| matches!(it, Act::Anew)), has(|it| matches!(it, Act::Fail(_)))]
    }

    /// Who takes no parent, and publishes nothing, would be the end of all below it.
    #[test]
    fn an_agent_without_a_parent_that_is_no_root_is_seen() {
        let mut machine = machine();
        assert!(machine.is_what_it_is());
        (machine.config.root, machine.came.standby) = (None, None);
        assert!(machine.is_what_it_is());
        machine.config.peers.rank = Some(7);
        assert!(!machine.is_what_it_is());
        (machine.config.peers.rank, machine.config.peers.parents) = (None, Vec::new());
        assert!(!machine.is_what_it_is());
    }

    /// Else it would be in all places from then on, and no look at itself would find it.
    #[test]
    fn what_is_spoilt_of_its_configuration_is_not_taken_along_by_a_promotion() {
        assert_eq!(promoted(machine()), [true, false]);
        let spoils: [fn(&mut Config); 3] = [
            |it| it.backlog = 4_096,
            |it| it.peers.parents.clear(),
            |it| it.peers.name = "another".into(),
        ];
        for (at, spoils) in spoils.into_iter().enumerate() {
            let mut machine = machine();
            spoils(&mut machine.config);
            assert_eq!(promoted(machine), [false, true], "{at}");
        }
    }
}

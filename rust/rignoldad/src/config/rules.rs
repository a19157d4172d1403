//! What has to hold between keys of a configuration.
use super::reader::Check;
use super::{leads, Address, Agent, Children, Config, Parent, DEEP};
use rignoldactl::harmless_for;
use std::path::{Path, PathBuf};

/// Of how many rounds a root's backlogs have room for the items.
const ROUNDS: u64 = 4;

impl Check<'_> {
    /// Where it listens, and who comes there.
    pub(super) fn places(&mut self, config: &Config) {
        let peers = &config.agent.peers;
        let (has_children, child_comes) = match &peers.children {
            Children::Named(names) => (!names.is_empty(), names.values().any(Option::is_none)),
            Children::Any => (true, true),
        };
        let parent_comes = peers.parents.iter().any(|parent| parent.address.is_none());
        let nowhere = !config.agent.listens;
        let text = "children connect to an address of `listen`";
        self.refuse("children", child_comes && nowhere, text);
        let text = "a parent without an address connects to one of `listen`";
        self.refuse("parents", parent_comes && nowhere, text);
        let metrics = config.metrics.map(|it| ("metrics", Address::Tcp(it.to_string())));
        let unix = |it: &PathBuf| ("control", Address::Unix(it.display().to_string()));
        let control = config.control.as_ref().map(unix);
        let places = config.listen.iter().map(|it| ("listen", it.clone()));
        let places: Vec<_> = places.chain(metrics).chain(control).collect();
        for (at, (key, one)) in places.iter().enumerate() {
            let clashes = |it: &Address| Some(true) == leads(it, one).max(leads(one, it));
            if let Some((_, other)) = places[..at].iter().find(|(_, it)| clashes(it)) {
                self.fault(key, format!("`{one}` clashes with `{other}`"));
            }
        }
        let nobody = !has_children && !parent_comes;
        self.refuse("listen", nobody && !nowhere, "nobody may connect: there are no `children`");
    }

    /// Whether it is a root, a second one, or an agent below one.
    pub(super) fn roles(&mut self, config: &Config, has_parents: bool) {
        let (peers, root) = (&config.agent.peers, config.agent.root.as_ref());
        // (two roots are each the other's)
        let is_standby = root.is_some_and(|root| root.standby);
        let named = peers.parents.iter().filter(|_| !is_standby);
        for parent in named.filter_map(|parent| parent.name.as_deref()) {
            if matches!(&peers.children, Children::Named(names) if names.contains_key(parent)) {
                let text = "is a parent: three agents or more may form a ring, and not two";
                self.fault("children", format!("`{parent}` {text}"));
            }
        }
        if is_standby {
            return self.standby(config);
        }
        let text = "the root has no `parents`, unless it has `standby`";
        self.refuse("root", root.is_some() && has_parents, text);
        let text = "an agent without [root] has a parent";
        self.refuse("parents", root.is_none() && !has_parents, text);
    }

    /// What one that may be promoted needs.
    pub(super) fn standby(&mut self, config: &Config) {
        let parents = &config.agent.peers.parents;
        let text = "an agent with `standby` has parents until it is promoted, the other root first";
        self.refuse("parents", parents.is_empty(), text);
        let may_look = |it: &Parent<Address>| {
            matches!(&it.address, Some(Address::Tcp(_) | Address::Unix(_))) && it.name.is_some()
        };
        let text = "with `standby` each is NAME@ADDRESS, in no store: the root looks at it there";
        self.refuse("parents", !parents.iter().all(may_look), text);
        let text = "it is promoted with what it has applied: [apply] is missing";
        self.refuse("root.standby", config.agent.apply.is_none(), text);
        let text = "it is promoted by a command: `control` is missing";
        self.refuse("root.standby", config.control.is_none(), text);
        let has_children =
            !matches!(&config.agent.peers.children, Children::Named(names) if names.is_empty());
        let text = "it has `children` once it is promoted, the other root with them";
        self.refuse("root.standby", !has_children, text);
    }

    /// What has to be more than something else.
    pub(super) fn numbers(&mut self, agent: &Agent) {
        let harmless = agent.root.as_ref().map(|it| it.harmless.unwrap_or(harmless_for(DEEP)));
        let least = harmless.map_or(0, |it| ROUNDS * (u64::from(it) + 2));
        let text = format!("at this root it is at least {least}, four rounds");
        self.refuse("link.backlog", agent.backlog < least, text);
        let text = "it has to be longer than `ack_timeout`";
        self.refuse("link.evict", agent.peers.evict <= agent.peers.ack_timeout, text);
    }

    /// Where it keeps settings.
    pub(super) fn folders(&mut self, agent: &Agent) {
        let text = "an agent without [apply] keeps no settings";
        for key in ["groups", "hook"] {
            self.refuse(key, agent.apply.is_none() && self.get(key).is_some(), text);
        }
        let Some(apply) = &agent.apply else { return };
        // (what no setting names is removed there)
        let folder = Path::new(&apply.folder);
        let is_shallow = folder.components().count() < 3;
        let truth = agent.root.as_ref().map(|root| Path::new(&root.settings));
        let is_truth = truth.is_some_and(|it| it.starts_with(folder) || folder.starts_with(it));
        let text = "it has to be a folder of the agent's own, as /a/b";
        self.refuse("apply.folder", is_shallow, text);
        let text = "it may not be `root.settings`, nor in that, nor around it: what no setting \
                    names is removed here";
        self.refuse("apply.folder", is_truth && !is_shallow, text);
    }
}

//! What each key of a configuration says.
use super::reader::Check;
use super::{hook_lines, is_group, is_key, Address, Agent, Apply, Children, Config, Fault, Login};
use super::{Parent, Root, Setup, Tls, GROUPS};
use rignolda_machine::apply::Hook;
use std::collections::BTreeMap;
use std::net::SocketAddr;
use std::ops::RangeInclusive;
use toml::value::{Table, Value};

const CHILDREN: usize = 10_000;
const ADDRESSES: usize = 64;
/// The most tables [[hook]], and patterns of each.
const HOOKS: usize = 64;
/// How long a hook may take at least and at most, in milliseconds.
const HOOK_TIMES: RangeInclusive<u64> = 100..=3_600_000;
/// The most that a parent may cost besides 1: of 128 and more, there would never be a way over it.
const PRICE: u16 = 100;
/// All keys of a table [[hook]].
const HOOK_KEYS: [&str; 3] = ["keys", "run", "timeout"];

impl<'a> Check<'a> {
    pub(super) fn config(&mut self) -> Config {
        self.expect("name", self.get("name"), "it is missing");
        self.insecure = self.is_set("insecure");
        let [listen, parents] = ["listen", "parents"].map(|it| self.texts(it, ADDRESSES));
        let config = Config {
            agent: self.agent(!listen.is_empty(), &parents),
            listen: listen.iter().filter_map(|text| self.address("listen", text)).collect(),
            tls: self.has("tls").then(|| Tls {
                certificate: self.needed("tls.certificate"),
                key: self.needed("tls.key"),
                authority: self.needed("tls.authority"),
            }),
            store: Login {
                user: self.text("store.user").unwrap_or_default().into(),
                password: self.path("store.password"),
                database: self.number("store.database", 0, 0..=65_535) as u32,
            },
            insecure: self.insecure,
            control: self.path("control"),
            metrics: self.metrics(),
        };
        self.places(&config);
        self.roles(&config, !parents.is_empty());
        self.numbers(&config.agent);
        self.folders(&config.agent);
        config
    }

    /// By what it decides.
    fn agent(&mut self, listens: bool, parents: &[&str]) -> Agent {
        let name = self.text("name").map_or(String::new(), |name| self.name("name", name));
        let children = self.children(&name);
        let backlog = self.number("link.backlog", 1_024, 8..=65_536);
        Agent {
            peers: Setup {
                parents: parents.iter().filter_map(|text| self.parent(&name, text)).collect(),
                rank: None,
                ack_timeout: self.time("link.ack_timeout", 2_000, 100..=600_000),
                evict: self.time("link.evict", 60_000, 200..=86_400_000),
                poll: self.time("store.poll", 100, 5..=60_000),
                name,
                children,
            },
            listens,
            backlog,
            root: self.has("root").then(|| Root {
                settings: self.needed_text("root.settings"),
                standby: self.is_set("root.standby"),
                round: self.time("root.round", 30_000, 100..=86_400_000),
                harmless: self
                    .get("root.harmless")
                    .map(|_| self.number("root.harmless", 0, 1..=10_000) as u32),
                hold: self.is_set("root.hold"),
                unsets: self
                    .get("root.unsets")
                    .map(|_| self.number("root.unsets", 0, 0..=65_536) as usize),
            }),
            apply: self.has("apply").then(|| Apply {
                folder: self.needed_text("apply.folder"),
                take: self.is_set("apply.take"),
                mode: self.mode(),
                groups: self.groups(),
                hook: self.path("apply.hook").map(|it| it.display().to_string()),
                hook_timeout: self.time("apply.hook_timeout", 30_000, HOOK_TIMES),
                hooks: self.hooks(),
                may_be_root: self.get("root.standby").and_then(Value::as_bool) == Some(true),
            }),
        }
    }

    fn children(&mut self, own: &str) -> Children<Address> {
        if self.get("children").and_then(Value::as_str) == Some("any") {
            return Children::Any;
        }
        let mut children = BTreeMap::new();
        for text in self.texts("children", CHILDREN) {
            let (name, address) = match text.split_once('@') {
                Some((name, address)) => (name, self.address("children", address)),
                None => (text, None),
            };
            let name = self.name("children", name);
            if name == own || children.insert(name.clone(), address).is_some() {
                self.fault("children", format!("`{}` is there twice", name.escape_debug()));
            }
        }
        Children::Named(children)
    }

    fn parent(&mut self, own: &str, text: &str) -> Option<Parent<Address>> {
        let (text, cost) = text.split_once(" cost=").map_or((text, None), |(it, n)| (it, Some(n)));
        let price = cost.and_then(|cost| {
            let price = cost.parse::<u16>().ok().filter(|price| *price <= PRICE);
            let text = format!("a cost is a number of 0 to {PRICE}: \"NAME@ADDRESS cost=3\"");
            self.expect("parents", price, text)
        });
        // (no name has a colon, and each address has one)
        let (name, address) = match text.split_once('@') {
            Some((name, address)) => (Some(name), Some(address)),
            None if text.contains(':') => (None, Some(text)),
            None => (Some(text), None),
        };
        let name = name.map(|name| self.name("parents", name));
        let text = "with [tls] it is NAME@ADDRESS: a child's certificate must not do for it";
        self.refuse("parents", self.has("tls") && name.is_none(), text);
        let is_own = name.as_deref() == Some(own);
        self.refuse("parents", is_own, "the agent is no parent of its own");
        let address = match address {
            Some(address) => Some(self.address("parents", address)?),
            None => None,
        };
        let is_nobody = name.is_none() && matches!(address, Some(Address::Redis { .. }));
        self.refuse("parents", is_nobody, "one in a store is NAME@redis://HOST:PORT/PREFIX");
        Some(Parent { name, address, price })
    }

    /// The tables [[hook]], each checked as a text of its own.
    fn hooks(&mut self) -> Vec<Hook> {
        let tables: Option<Vec<&Table>> = match self.get("hook") {
            None => return Vec::new(),
            Some(Value::Array(all)) if all.len() <= HOOKS => {
                all.iter().map(Value::as_table).collect()
            }
            Some(_) => None,
        };
        let text = format!("each is a table [[hook]], and there are at most {HOOKS}");
        let mut hooks: Vec<Hook> = Vec::new();
        for (at, table) in self.expect("hook", tables, text).into_iter().flatten().enumerate() {
            let (line, text) = hook_lines(self.text, at);
            let mut check = Check { text: &text, table, insecure: false, faults: Vec::new() };
            let hook = check.hook();
            check.refuse("", hooks.contains(&hook), "it is there twice");
            for fault in check.faults {
                let key = ["hook", &fault.key].join(".");
                let key = key.trim_end_matches('.').into();
                self.faults.push(Fault { line: line + fault.line.max(1) - 1, key, ..fault });
            }
            hooks.push(hook);
        }
        hooks
    }

    /// The hook that this table is.
    fn hook(&mut self) -> Hook {
        for key in self.table.keys().filter(|key| !HOOK_KEYS.contains(&key.as_str())) {
            self.fault(key, "there is no such key");
        }
        self.expect("keys", self.get("keys"), "it is missing");
        let keys = self.texts("keys", HOOKS);
        for pattern in keys.iter().filter(|it| !is_key(&it.replace('*', "x"))) {
            let text = "a pattern is a key in which each `*` stands for any letters; not";
            self.fault("keys", format!("{text} `{}`", pattern.escape_debug()));
        }
        Hook {
            keys: keys.into_iter().map(str::to_owned).collect(),
            run: self.needed_text("run"),
            timeout: self.time("timeout", 30_000, HOOK_TIMES),
        }
    }

    fn groups(&mut self) -> Vec<String> {
        let groups = self.texts("groups", GROUPS);
        for (at, group) in groups.iter().enumerate() {
            let shown = group.escape_debug();
            let text = format!("`{shown}` is no group: it is as a key, without two dots together");
            self.refuse("groups", !is_group(group), text);
            let text = format!("`{shown}` is there twice");
            self.refuse("groups", groups[..at].contains(group), text);
        }
        groups.into_iter().map(str::to_owned).collect()
    }

    fn mode(&mut self) -> u32 {
        let mode = |it: &Value| u32::from_str_radix(it.as_str()?, 8).ok();
        let read = |it: &Value| mode(it).filter(|it| (0o400..=0o777).contains(it));
        self.value("apply.mode", "it is octal, as \"0640\", to be read", read).unwrap_or(0o640)
    }

    fn metrics(&mut self) -> Option<SocketAddr> {
        let may_be_open = self.is_set("metrics_open") || self.insecure;
        let read = |it: &Value| it.as_str()?.parse::<SocketAddr>().ok();
        let address = self.value("metrics", "ADDRESS:PORT is expected, in numbers", read)?;
        let text = "anybody may read it: a loopback address, or `metrics_open`";
        self.refuse("metrics", !may_be_open && !address.ip().is_loopback(), text);
        Some(address)
    }
}

//! What `--check` finds beyond the text of a configuration: what its user cannot use on this
//! machine, and, of the files of a whole tree, which agents do not fit.
use crate::config::{hook_lines, leads, line_of, read_text};
use crate::config::{Address, Children, Config, Fault, Tls};
use crate::place::LocalFiles;
use rignolda_machine::apply::refusal;
use rignolda_machine::settings::published_by;
use rignoldactl::harmless_for;
use std::collections::BTreeMap;
use std::fs;
use std::io::ErrorKind;
use std::os::unix::fs::FileTypeExt;
use std::path::{Path, PathBuf};
use std::process::Command;

/// How many agents of a way are named.
const WAY: usize = 8;
/// How deep an agent is at most: each link costs 1 at least, and no way costs more.
const DEPTH: u32 = 127;
/// What `test` answers, and what is said where it says no.
const TESTS: [(&str, &str); 4] = [
    ("-r", "cannot be read"),
    ("-w", "cannot be written"),
    ("-x", "cannot be run or entered"),
    ("-f", "is no file"),
];

/// Checks the files: one with all that it names here, several as the agents of one tree. Each fault
/// comes with the place of its file. The words run a command as the user who counts.
pub fn check(paths: &[PathBuf], words: &[String]) -> Vec<(usize, Fault)> {
    let mut it = Check { paths, words, texts: Vec::new(), faults: Vec::new() };
    let mut all = Vec::new();
    for (at, path) in paths.iter().enumerate() {
        let text = read_text(path);
        match text.as_ref().map_err(Vec::clone).and_then(|text| Config::parse(text)) {
            Ok(config) => all.push(config),
            Err(faults) => it.faults.extend(faults.into_iter().map(|fault| (at, fault))),
        }
        it.texts.push(text.unwrap_or_default());
    }
    match &all[..] {
        [config] if paths.len() == 1 => it.machine(config),
        // (what does not fit may be in a file that cannot be read)
        all if all.len() == paths.len() => it.tree(all),
        _ => (),
    }
    it.faults.sort_by_key(|(at, fault)| (*at, fault.line));
    it.faults
}

/// Whether it is the root only once it is promoted.
fn may_be_promoted(config: &Config) -> bool {
    config.agent.root.as_ref().is_some_and(|root| root.standby)
}

struct Check<'a> {
    paths: &'a [PathBuf],
    words: &'a [String],
    texts: Vec<String>,
    faults: Vec<(usize, Fault)>,
}

impl Check<'_> {
    fn say(&mut self, at: usize, key: &str, text: impl Into<String>) {
        self.add(at, false, key, text);
    }

    fn warn(&mut self, at: usize, key: &str, text: impl Into<String>) {
        self.add(at, true, key, text);
    }

    fn add(&mut self, at: usize, is_warning: bool, key: &str, text: impl Into<String>) {
        let line = line_of(&self.texts[at], key);
        self.faults.push((at, Fault { line, key: key.into(), text: text.into(), is_warning }));
    }

    // ---- One agent, on its machine

    fn machine(&mut self, config: &Config) {
        config.tls.iter().for_each(|tls| self.tls(&config.agent.peers.name, tls));
        config.store.password.as_ref().map(|it| self.may("store.password", it, "-r -f"));
        let hook = config.agent.apply.as_ref().and_then(|it| it.hook.as_ref());
        hook.map(|it| self.may("apply.hook", it, "-x -f"));
        let hooks = config.agent.apply.iter().flat_map(|it| &it.hooks);
        for (at, hook) in hooks.enumerate() {
            let before = self.faults.len();
            self.may("hook.run", &hook.run, "-x -f");
            let (line, text) = hook_lines(&self.texts[0], at);
            let line = line + line_of(&text, "run").max(1) - 1;
            self.faults[before..].iter_mut().for_each(|it| it.1.line = line);
        }
        if let Some(path) = config.agent.root.as_ref().map(|it| Path::new(&it.settings)) {
            let standby = may_be_promoted(config);
            let tests = if path.is_dir() { "-r -x" } else { "-r -f" };
            let is_well = self.may("root.settings", path, tests) && config.control.is_some();
            self.links(path);
            if standby && path.is_file() {
                self.say(0, "root.settings", "is no folder: `promote` is refused");
            } else if is_well && path.is_dir() && !self.test("-w", path) {
                let what = if standby { "promote" } else { "publish" };
                let text = format!("cannot be written: `{what}` is refused");
                self.add(0, !standby, "root.settings", text);
            }
        }
        if let Some(apply) = &config.agent.apply {
            refusal(&LocalFiles, apply).iter().for_each(|why| self.say(0, "apply.folder", why));
            // (what is lacking there is made, and what is above it by a unit)
            let nearest = Path::new(&apply.folder).ancestors().take(2).find(|it| it.is_dir());
            nearest.map(|it| self.may("apply.folder", it, "-r -w -x"));
        }
        let control =
            config.control.iter().map(|it| ("control", Address::Unix(it.display().to_string())));
        for (key, it) in control.chain(config.listen.iter().map(|it| ("listen", it.clone()))) {
            let Address::Unix(text) = it else { continue };
            let path = Path::new(&text);
            self.may(key, path.parent().unwrap_or(path), "-w -x");
            if fs::symlink_metadata(path).is_ok_and(|it| !it.file_type().is_socket()) {
                self.say(0, key, format!("`{text}` is there, and no socket"));
            }
        }
    }

    /// Warns of links in the place of settings, as where Kubernetes mounts a ConfigMap.
    fn links(&mut self, settings: &Path) {
        let there = fs::read_dir(settings).into_iter().flatten().flatten();
        let links = there.filter(|it| it.file_type().is_ok_and(|it| it.is_symlink()));
        let names = links.filter_map(|it| it.file_name().into_string().ok());
        let names: Vec<String> = names.filter(|it| published_by(it).is_some()).collect();
        if let Some(first) = names.iter().min() {
            let (count, text) = (names.len(), "and none is followed: they are not published");
            self.warn(0, "root.settings", format!("{count} in it are links, as `{first}`, {text}"));
        }
    }

    /// What the system says to the user, as it knows of groups, mounts and lists of access.
    fn test(&self, what: &str, path: &Path) -> bool {
        let test = Command::new("env").args(self.words).args(["test", what]).arg(path).status();
        test.is_ok_and(|it| it.success())
    }

    /// Whether it is there, and all of these hold of it.
    fn may(&mut self, key: &str, path: impl AsRef<Path>, tests: &str) -> bool {
        let path = path.as_ref();
        let is_missing = fs::metadata(path).is_err_and(|e| e.kind() == ErrorKind::NotFound);
        let fails = |(it, _): &&(&str, _)| tests.contains(it) && !self.test(it, path);
        let why = match is_missing {
            true => "is not there",
            false => TESTS.iter().find(fails).map_or("", |it| it.1),
        };
        if !why.is_empty() {
            // (a start makes what is beneath /run)
            let is_warning = is_missing && path.starts_with("/run");
            self.add(0, is_warning, key, format!("`{}` {why}", path.display()));
        }
        why.is_empty()
    }

    fn tls(&mut self, name: &str, tls: &Tls) {
        let may = tls.files().map(|(file, path)| self.may(&format!("tls.{file}"), path, "-r -f"));
        for fault in tls.faults(name, may) {
            self.add(0, fault.is_warning, &format!("tls.{}", fault.file), fault.text);
        }
    }

    // ---- The agents of a tree

    fn tree(&mut self, all: &[Config]) {
        let (paths, mut places) = (self.paths, BTreeMap::new());
        let roots: Vec<usize> = (0..all.len()).filter(|at| all[*at].agent.root.is_some()).collect();
        for (at, it) in all.iter().enumerate() {
            if let Some(other) = places.insert(&it.agent.peers.name, at) {
                let text = format!("it is that of {} too", paths[other].display());
                self.say(at, "name", text);
            }
        }
        // (of these each may be the only one)
        let are_standbys = roots.iter().all(|at| may_be_promoted(&all[*at]));
        for at in roots.iter().skip(1).filter(|_| !are_standbys) {
            let first = paths[roots[0]].display();
            let text = format!("{first} is the root too, and not both have `standby`");
            self.say(*at, "root", text);
        }
        let mut above = vec![Vec::new(); all.len()];
        for (at, it) in all.iter().enumerate() {
            for parent in &it.agent.peers.parents {
                match parent.name.as_ref().map(|name| places.get(name)) {
                    Some(Some(up)) => {
                        above[at].push(*up);
                        self.link(all, at, *up, parent.address.as_ref());
                    }
                    Some(None) => self.say(at, "parents", format!("no file has `{parent}`")),
                    None => {
                        above[at].extend(roots.first());
                        self.warn(at, "parents", format!("`{parent}` has no name to look at"));
                    }
                }
            }
        }
        for (at, it) in all.iter().enumerate() {
            let Children::Named(names) = &it.agent.peers.children else { continue };
            for (name, address) in names {
                let place = places.get(name);
                if !place.is_some_and(|place| above[*place].contains(&at)) {
                    let text = format!("`{name}` has not this one as a parent");
                    self.add(at, place.is_none() || address.is_none(), "children", text);
                }
            }
        }
        if roots.is_empty() {
            self.say(0, "root", "no file has [root]");
        }
        for root in &roots {
            for other in roots.iter().filter(|other| *other != root) {
                if may_be_promoted(&all[*root]) && !above[*root].contains(other) {
                    let name = &all[*other].agent.peers.name;
                    let text = format!("`{name}` is missing: two roots look at each other");
                    self.say(*root, "parents", text);
                }
            }
        }
        let together = if are_standbys { 1 } else { roots.len() };
        for some in roots.chunks(together) {
            self.below(all, &above, some, roots.len() > together);
        }
    }

    /// What does not fit where these are the root.
    fn below(&mut self, all: &[Config], above: &[Vec<usize>], roots: &[usize], is_named: bool) {
        let (root, mut depths) = (roots[0], vec![None; all.len()]);
        roots.iter().for_each(|at| depths[*at] = Some(0));
        // (first by the first parents alone, then by any)
        for most in [1, usize::MAX] {
            while let Some((at, depth)) = (0..all.len()).find_map(|at| {
                let mut ways = above[at].iter().take(most).filter(|_| depths[at].is_none());
                ways.find_map(|up| Some((at, depths[*up].filter(|it| *it < DEPTH)? + 1)))
            }) {
                depths[at] = Some(depth);
            }
        }
        let name =
            if is_named { format!(" `{}`", all[root].agent.peers.name) } else { String::new() };
        for at in (0..all.len()).filter(|at| depths[*at].is_none()) {
            let next = |at: &usize| above[*at].first().copied();
            let way = std::iter::successors(Some(at), next).take(WAY);
            let way: Vec<_> = way.map(|at| &*all[at].agent.peers.name).collect();
            let text = format!("no way leads to the root{name}: {}", way.join(", "));
            self.say(at, "parents", text);
        }
        let depth = depths.into_iter().flatten().max().unwrap_or(0);
        let (least, config) = (harmless_for(depth), all[root].agent.root.as_ref());
        if config.is_some_and(|it| it.harmless(depth) < least) {
            self.say(root, "root.harmless", format!("in this tree it is at least {least}"));
        }
    }

    /// What does not fit between a child and a parent of it, to which it connects at `to`.
    fn link(&mut self, all: &[Config], low: usize, up: usize, to: Option<&Address>) {
        let (lower, upper) = (&all[low], &all[up]);
        let name = &lower.agent.peers.name;
        let from = match &upper.agent.peers.children {
            Children::Any => None,
            Children::Named(names) if names.contains_key(name) => names[name].as_ref(),
            _ => return self.say(up, "children", format!("`{name}` is missing")),
        };
        if to.or(from).is_none() {
            let text = format!("neither it nor `{name}` has an address of the other");
            self.say(up, "children", text);
        }
        let ends = [(low, "parents", to, upper), (up, "children", from, lower)];
        for (at, key, address, other) in ends {
            let (Some(address), name) = (address, &other.agent.peers.name) else { continue };
            // (of some it is not known)
            let are_there: Vec<_> = match address {
                Address::Redis { .. } => vec![Some(to == from)],
                _ => other.listen.iter().map(|it| leads(address, it)).collect(),
            };
            if !are_there.contains(&Some(true)) {
                let text = format!("no `listen` of `{name}` is `{address}`");
                self.add(at, are_there.contains(&None), key, text);
            }
            if matches!(address, Address::Tcp(_)) && lower.tls.is_some() != upper.tls.is_some() {
                self.say(at, key, format!("one of it and `{name}` alone has [tls]"));
            }
        }
        if upper.agent.peers.evict <= lower.agent.peers.ack_timeout {
            let text = format!("it has to be longer than the `ack_timeout` of `{name}`");
            self.say(up, "link.evict", text);
        }
    }
}

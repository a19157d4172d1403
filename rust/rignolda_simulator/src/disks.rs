//! The disk of an agent, in memory: what its workers do with it, and what is left of it by a crash,
//! a loss of power or a copy that comes back.
use crate::random::Random;
use files::{Files, Tree};
use rignolda_machine::apply::{found, marker, Done, FileSystem, Job, Keeper, Step, MARKER};
use rignolda_machine::machine::{Act, Found, Input};
use rignolda_machine::settings::{as_key, is_key, of_group, parts, published_by};
use rignolda_machine::standby::{self, Folders};
use rignolda_machine::Time;
use rignoldactl::sha256;
use std::collections::{BTreeMap, BTreeSet};
use std::time::Duration;

#[cfg(test)]
mod ends;
mod files;
mod root;

/// The folder of what is applied, that of a root, and what that keeps of what it published.
pub const FOLDER: &str = "/applied";
pub const ROOT: &str = "/root";
const RECORD: &str = "/root/.record";

/// Settings by their keys.
pub type Settings = BTreeMap<String, Vec<u8>>;

/// What was put into an agent's folder, or removed there: its key, and its value.
pub type Put = (String, Option<Vec<u8>>);

/// The disk of an agent, and what its workers know of it.
pub struct Disk {
    /// The files of settings; and what the agent made of them, whatever somebody did to them since.
    pub files: Files,
    pub own: Settings,
    /// Whether its agent may be promoted; and whether it was since that was asked.
    stands: bool,
    pub is_promoted: bool,
    /// What was put since it was judged.
    pub puts: Vec<Put>,
    /// Until when whatever is written fails, and hooks do.
    pub fails: u64,
    pub hooks_fail: u64,
    /// Until when each of its workers is busy.
    busy: [u64; 7],
    keeper: Keeper<Files>,
    /// Whether all of the root's folder was read, and what changed there since.
    was_read: bool,
    pub changed: Option<BTreeSet<String>>,
    random: Random,
}

/// What of a disk may come back.
pub struct Copy {
    files: Tree,
    own: Settings,
}

impl Disk {
    /// An empty one, but for what says of which rank a root is, if it is one of two.
    pub fn new(random: Random, stands: bool, rank: Option<u64>) -> Disk {
        let files = Files::default();
        let _ = files.does(ROOT, Step::Make);
        for (rank, name) in rank.iter().flat_map(|rank| [(rank, ".root"), (rank, ".published")]) {
            let (path, text) = (format!("{ROOT}/{name}"), marker::text(*rank));
            let _ = files.does(ROOT, Step::Rewrite(&path, &text));
        }
        Disk {
            keeper: Keeper::new(files.clone(), FOLDER, sha256),
            files,
            own: Settings::new(),
            stands,
            is_promoted: false,
            puts: Vec::new(),
            fails: 0,
            hooks_fail: 0,
            busy: [0; 7],
            was_read: false,
            changed: None,
            random,
        }
    }

    /// What a process finds that begins.
    pub fn begins(&mut self) -> Found {
        self.keeper = Keeper::new(self.files.clone(), FOLDER, sha256);
        self.files.tree().left = None;
        (self.busy, self.was_read, self.changed) = ([0; 7], false, None);
        let applied = found(&self.files, FOLDER);
        Found { applied: Some(applied), standby: self.stands.then(|| self.roles().begun()) }
    }

    /// The number up to which its files are.
    pub fn marker(&self) -> u64 {
        marker::read(&self.files, &format!("{FOLDER}/{MARKER}"))
    }

    /// What is applied.
    pub fn settings(&self) -> Settings {
        self.files.found(FOLDER, as_key).unwrap_or_default().settings
    }

    /// What it has if its agent may be promoted.
    fn roles(&self) -> Folders<Files> {
        let [root, applied] = [ROOT, FOLDER].map(String::from);
        Folders { system: self.files.clone(), sha: sha256, root, applied }
    }

    /// A copy of it.
    pub fn copy(&self) -> Copy {
        Copy { files: self.files.tree().clone(), own: self.own.clone() }
    }

    /// The disk of another time comes in the place of this one, but for the marks of a root. (A
    /// root that holds changes back knows by its record alone what it has published: where that is
    /// older, so is what it goes on with.)
    pub fn goes_back(&mut self, to: &Copy, holds: bool) {
        let stays = |path: &String| path.starts_with(ROOT) && (holds || path != RECORD);
        self.files.go_back(&to.files, |path| !stays(path));
        (self.own, self.puts) = (to.own.clone(), Vec::new());
    }

    /// Some of what is applied is as it was in a copy. (Without a marker nothing would be applied
    /// until somebody says that it may be; so a folder that has none gets nothing.)
    pub fn loses_some(&mut self, to: &Copy, random: &mut Random) {
        if !self.files.tree().all.contains_key(&format!("{FOLDER}/{MARKER}")) {
            return;
        }
        let is_there = |path: &String| to.files.all.contains_key(path);
        let may = |path: &String| match path.rsplit_once('/') {
            Some((folder, name)) if folder.starts_with(FOLDER) => {
                is_key(name) || name == MARKER && is_there(path)
            }
            _ => false,
        };
        self.files.go_back(&to.files, |path| may(path) && random.once_in(2));
        (self.own, self.puts) = (self.settings(), Vec::new());
    }

    /// When a job that is begun now is done, which takes up to so long: one of a worker comes after
    /// the other.
    pub fn takes(&mut self, act: &Act, most: u64, now: u64) -> u64 {
        let (worker, most) = match act {
            Act::Apply(at, _) => (*at, 2 * most),
            Act::Stand(_) => (6, most),
            _ => (5, most),
        };
        let busy = &mut self.busy[worker];
        *busy = (*busy).max(now) + self.random.below(most + 1);
        *busy
    }

    /// A worker was doing a job when its process ended: of some it had done a part.
    pub fn ends_at(&mut self, act: Act, folder: &mut Settings, now: u64) {
        let most = self.random.of(&[3, 10, 100]);
        self.files.tree().left = Some(self.random.below(most));
        drop(self.works(act, folder, now));
    }

    /// A worker does a job: what came of it. The root's folder is lent.
    pub fn works(&mut self, act: Act, folder: &mut Settings, now: u64) -> Option<Input<'static>> {
        self.files.tree().is_full = now < self.fails;
        Some(match act {
            Act::Disk(job) => Input::Disk(self.root_works(job, folder)),
            Act::Stand(job) => Input::Stood(self.stands_work(job, folder)),
            Act::Apply(at, job) => Input::Applied(at, self.applies(job, now)),
            _ => return None,
        })
    }

    /// What came of a job of an agent that may be promoted.
    fn stands_work(&mut self, job: standby::Job, folder: &mut Settings) -> standby::Done {
        let rank = match &job {
            standby::Job::Promote { rank, .. } => Some(*rank),
            _ => None,
        };
        self.files.set(ROOT, folder);
        let done = self.roles().work(job);
        *folder = self.files.found(ROOT, published_by).unwrap_or_default().settings;
        self.is_promoted |= rank.is_some_and(|rank| self.roles().begun().rank == rank);
        done
    }

    /// What a worker of what is applied came to.
    fn applies(&mut self, job: Job, now: u64) -> Done {
        let (hooks_fail, random) = (now < self.hooks_fail, &mut self.random);
        let run = |_: &_, _: &_, _: &_| match hooks_fail || random.once_in(50) {
            true => Err("exit status: 1".into()),
            false => Ok(()),
        };
        let at = Time::after(Duration::from_millis(now));
        let done = self.keeper.work(job, at, run);
        if let Done::Marked(files, _) = &done {
            // (of what no table names, and is not there any more, nothing is said)
            let (there, is_whole) = (self.settings(), files.is_whole());
            self.own.retain(|key, _| !is_whole || files.has(key) || there.contains_key(key));
        }
        if let Done::Kept(kept, _) | Done::KeptAtOnce(_, kept, _) = &done {
            for it in kept.iter().filter(|it| it.done.is_ok()) {
                let value = it.change.value.as_deref().map(<[u8]>::to_vec);
                set(&mut self.own, &it.key, value.clone());
                self.puts.extend(it.differs.then(|| (it.key.clone(), value)));
            }
        }
        done
    }
}

/// A setting is this from now on, or unset.
pub fn set(settings: &mut Settings, key: &str, value: Option<Vec<u8>>) {
    match value {
        Some(value) => drop(settings.insert(key.into(), value)),
        None => drop(settings.remove(key)),
    }
}

/// What agents of these groups ought to have, if this was published.
pub fn counting(settings: &Settings, groups: &[String]) -> Settings {
    let files = settings.keys().map(|key| parts(key).0).collect::<BTreeSet<_>>();
    let value = |file: &str| {
        let of_groups = groups.iter().find_map(|it| settings.get(&of_group(file, it)));
        Some((file.to_owned(), of_groups.or_else(|| settings.get(file))?.clone()))
    };
    files.into_iter().filter_map(value).collect()
}

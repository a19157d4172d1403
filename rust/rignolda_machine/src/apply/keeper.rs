//! Keeps the files of a folder as settings are, one job after the other, and answers what each came
//! to be. What follows from that, [the applier](super::Applier) decides.
use super::others::Others;
use super::part::Part;
use super::pending::{announce, due};
use super::{marker, Applied, Digest, Done, Ended, FileSystem, Folder, Found, House, Identity};
use super::{Job, Kept, Mark, Outcome, Step, What, GROUPS, MARKER, PENDING};
use crate::config::Apply;
use crate::prelude::*;
use crate::settings::{as_key, is_key, is_newer, parts, shown, Change, Waiting};
use crate::{Fact, Sha256, Time};
use core::fmt::Display;
use core::mem::take;

/// The mode of values as they were published.
const GROUPS_MODE: u32 = 0o600;

/// Why this folder is not taken, where it is not: what no setting names is removed there, and it
/// has what a setting could name, but nothing that says it is an agent's.
pub fn refusal<S: FileSystem>(system: &S, config: &Apply) -> Option<String> {
    let folder = &config.folder;
    let there = system.list(folder).ok().filter(|_| !has_consent(system, config, folder))?;
    there.map(|(name, _)| name).find(|name| is_key(name)).map(|name| has(config, &name))
}

/// Whether somebody said of the folder at this path that it is an agent's.
fn has_consent<S: FileSystem>(system: &S, config: &Apply, at: &str) -> bool {
    let is_there = |name: &&str| system.look(&[at, "/", name].concat()).is_ok();
    config.take || [MARKER, PENDING].iter().any(is_there)
}

/// Why a folder that has this name is not taken.
fn has(config: &Apply, name: &str) -> String {
    let folder = &config.folder;
    format!("{folder} has `{name}`, and no `{MARKER}`: all of it would go; see `take`")
}

/// What an earlier life left: the number up to which the files are, the keys of which hooks are
/// due, and the settings as they were published last; none where the folder is not its own.
pub fn found<S: FileSystem>(system: &S, folder: &str) -> Found {
    let floor = marker::read(system, &[folder, "/", MARKER].concat());
    let read =
        |path: &str| system.found(path, as_key).map_or_else(|_| BTreeMap::new(), |it| it.settings);
    let settings = match floor {
        0 => BTreeMap::new(),
        _ => published(read(folder), read(&[folder, "/", GROUPS].concat())),
    };
    Found { floor, settings, due: due(system, folder) }
}

/// What was published where this is applied: of a setting that has values for groups, all of these.
pub fn published(
    mut settings: BTreeMap<String, Vec<u8>>,
    grouped: BTreeMap<String, Vec<u8>>,
) -> BTreeMap<String, Vec<u8>> {
    grouped.keys().for_each(|key| drop(settings.remove(parts(key).0)));
    settings.extend(grouped);
    settings
}

/// As what a digest has a value for groups beside others.
pub fn beside(key: &str) -> String {
    format!("{GROUPS}/{key}")
}

/// What the worker has: the folder with its files, and what it knows of them.
#[derive(Debug)]
pub struct Keeper<S: FileSystem> {
    system: S,
    sha: Sha256,
    files: Part<S>,
    marker: S::Marker,
    /// The values as they are published, of which a digest is made if they may be promoted.
    grouped: Part<S>,
    /// How files are kept now, whether all are looked at, and those values.
    config: Arc<Apply>,
    looks: bool,
    all: Waiting,
    others: Others,
    /// Whether somebody may be removing the folder since its files were put.
    may_go: bool,
    facts: Vec<Fact>,
}

impl<S: FileSystem> Keeper<S> {
    pub fn new(system: S, folder: &str, sha: Sha256) -> Keeper<S> {
        let part =
            |path: String, digest| Part { folder: Folder::new(system.clone(), path), digest };
        Keeper {
            files: part(folder.into(), Some(Digest::new(sha))),
            grouped: part([folder, "/", GROUPS].concat(), None),
            system,
            sha,
            marker: S::Marker::default(),
            config: Arc::default(),
            looks: false,
            all: Waiting::default(),
            others: Others::default(),
            may_go: false,
            facts: Vec::new(),
        }
    }

    /// Does a job to its end: a hook is run so.
    pub fn work(
        &mut self,
        Job { what, config, taken }: Job,
        now: Time,
        run: impl FnOnce(&House<S>, &Apply, &What) -> Result<(), String>,
    ) -> Done {
        let house = || House::new(self.system.clone(), &config.folder, taken);
        match what {
            What::Mark(mark) => {
                let goes_on = mark.goes_on;
                let done = self.mark(mark, config, taken);
                match done {
                    Done::Marked(all, is) if goes_on => {
                        return Done::KeptAtOnce(is, self.keep_all(all.in_order()), self.ends(now))
                    }
                    Done::Marked(..) => (),
                    _ => {
                        self.files.folder.close();
                        self.marker = S::Marker::default();
                    }
                }
                done
            }
            What::Keep(part, is_last) => {
                Done::Kept(self.keep_all(part), is_last.then(|| self.ends(now)))
            }
            What::Rest => Done::Rested(self.rest(now)),
            What::Settle(keys) => {
                house().settle(&keys);
                Done::Settled
            }
            What::One(key, change, floor) => {
                let house = house();
                match house.floor() {
                    number if is_newer(number, floor) => Done::Newer(number, change),
                    _ => Done::Ran(run(&house, &config, &What::One(key, change, floor))),
                }
            }
            what @ What::Many(..) => Done::Ran(run(&house(), &config, &what)),
        }
    }

    /// Opens the folder, and marks it. Files are kept in it then, unless it is refused.
    fn mark(&mut self, mark: Mark, config: Arc<Apply>, taken: Option<Identity>) -> Done {
        let Mark { mut files, floor, looks, forgets, lacks, .. } = mark;
        if self.files.folder.path() != config.folder {
            // (the memory is spoiled)
            *self = Keeper::new(self.system.clone(), &config.folder, self.sha);
        }
        (self.config, self.looks) = (config.clone(), looks);
        if forgets {
            self.forget();
            (self.files.digest, self.grouped.digest) = (Some(Digest::new(self.sha)), None);
        }
        (files, self.all) = files.of_groups(&config.groups);
        // (until it is the agent's, nothing in it is touched; the next table sets all then)
        let opened = self.files.folder.open();
        let is = self.files.folder.is();
        let refused = match opened {
            Err(error) => Some(error.to_string()),
            Ok(_) if taken.is_some() && taken == is => None,
            Ok(_) => self.refused(&files, taken.is_none()),
        };
        // (what came while it was refused was dropped, so a change alone is not enough)
        if let Some(why) = refused.map(Outcome::File).or(lacks) {
            return Done::Refused(why);
        }
        // (else older ones could follow what is written now, by a process that is ended meanwhile)
        match self.says(floor, files.is_whole()) {
            Ok(None) => (),
            Ok(Some(number)) => return Done::Later(number),
            Err(error) => return Done::Refused(failed(&error)),
        }
        if taken != is {
            // (of another folder nothing is known, and a change alone does not make it right)
            // (what is in it is as much its own, values for groups too)
            self.forget();
            self.looks = true;
        }
        if files.is_whole() {
            // (a folder in it is no setting, and may be somebody's)
            files.unset_others(self.files.folder.there(self.looks));
            if self.looks {
                self.files.digest = Some(Digest::new(self.sha));
                // (what cannot be so is seen by whoever cannot list it)
                let _ = self.system.does(self.files.folder.at(), Step::Lists(config.mode));
            }
        }
        Done::Marked(files, is)
    }

    /// Why the folder that is open is not taken, where it is not, and these files are to be in it:
    /// the first one of a life, or a later one that came to its place.
    ///
    /// Of the first one it is also the agent's where a table names all that is in it, so that
    /// nothing would go. In a later one each file has to have a value that the agent put, or puts.
    fn refused(&self, files: &Waiting, is_first: bool) -> Option<String> {
        let folder = &self.files.folder;
        if has_consent(&self.system, &self.config, folder.at()) {
            return None;
        }
        let stranger = if is_first {
            let all = folder.names().into_iter().chain(folder.others()).filter(|it| is_key(it));
            let named = |name: &String| files.is_whole() && files.has(name);
            all.filter(|it| !named(it)).min()
        } else {
            folder.stranger(|name| files.value(name))
        };
        stranger.map(|name| has(&self.config, &name))
    }

    /// Nothing is known of what is in the folder.
    fn forget(&mut self) {
        self.files.folder.forget();
        let grouped = [self.files.folder.path(), "/", GROUPS].concat();
        self.grouped.folder = Folder::new(self.system.clone(), grouped);
    }

    /// Says in the folder that it is an agent's, and up to which number its files will be; and so
    /// it is before any of them is put there, too. Where they are from a later body, nothing is
    /// said, and that number is returned.
    fn says(&mut self, floor: u64, is_whole: bool) -> Result<Option<u64>, S::Error> {
        let folder = &mut self.files.folder;
        // (a table looks at the folder itself too, and leaves nothing open)
        let mut once = S::Marker::default();
        let open = if is_whole { &mut once } else { &mut self.marker };
        let marked = marker::write(&self.system, open, folder, floor);
        let later = *marked.as_ref().unwrap_or(&None);
        folder.begins_with(MARKER, marker::text(later.unwrap_or(floor)).into_bytes());
        // (one that cannot be listed may have what no table names)
        if later.is_none() && marked.is_ok() && is_whole {
            drop(self.system.list(folder.at())?);
        }
        marked
    }

    /// Makes one file what it should be, where it differs: before that, a mark says that its hooks
    /// are due.
    fn keep(&mut self, (key, mut change): (String, Change)) -> Kept {
        let Keeper { system, files, config, looks, .. } = self;
        let value = change.value.as_deref();
        let is_told = || config.hook.is_some() || config.hooks.iter().any(|it| it.is_for(&key));
        let announces = |at: &str| if is_told() { announce(system, at, &key) } else { Ok(()) };
        let believes = !*looks && value.is_some();
        let (put, differs, done) =
            files.keep((&key, &key), value, config.mode, believes, announces);
        if differs && config.hook.is_some() {
            change = change.alone();
        }
        let done = done.map(drop).map_err(|error| error.to_string());
        Kept { key, change, put, differs, done }
    }

    /// Makes these files what they should be, in their order.
    fn keep_all(&mut self, all: Vec<(String, Change)>) -> Vec<Kept> {
        all.into_iter().map(|it| self.keep(it)).collect()
    }

    /// All files were kept: so are the values as they are published.
    fn ends(&mut self, now: Time) -> Ended {
        let is_whole = self.all.is_whole();
        if !self.config.may_be_root {
            self.grouped.digest = None;
        } else if is_whole && self.looks {
            self.grouped.digest = Some(Digest::new(self.sha));
        }
        let grouped = self.keep_grouped();
        let Part { folder, digest } = &mut self.files;
        if self.looks {
            self.facts.extend(self.others.may_say(folder, is_whole, now));
        }
        self.may_go = true;
        let whole = digest.as_ref().zip(self.grouped.digest.as_ref()).map(|it| it.0.whole(it.1));
        let sum = digest.as_ref().map_or(0, |it| it.sum);
        Ended { is: folder.is(), sum, whole, grouped, facts: take(&mut self.facts) }
    }

    /// Leaves nothing open, and does what may wait: what there is to be said.
    fn rest(&mut self, now: Time) -> Option<Fact> {
        self.marker = S::Marker::default();
        self.files.folder.close();
        let fact = self.others.say_if_due(&self.files.folder, now);
        if take(&mut self.may_go) {
            self.files.folder.begins_again();
        }
        fact
    }

    /// Opens the folder of values as they are published, where it is there or one is to be put;
    /// whether there is one. One that has no marker is the agent's where it was there when that
    /// took the folder around it, and is no mount, or where it has nothing else than these values.
    fn open_grouped(&mut self) -> Result<bool, S::Error> {
        let Keeper { system, grouped: Part { folder, .. }, all, .. } = self;
        let at = self.files.folder.file(GROUPS);
        let place = match system.open(&at, true) {
            Err(_) if !all.sets() => return Ok(false),
            Err(_) => {
                system.unlink(&at)?;
                system.does(&at, Step::Make)?;
                system.open(&at, true)?
            }
            Ok(place) => place,
        };
        let is_first = folder.is().is_none();
        folder.begins_with(MARKER, Vec::new());
        if folder.is_at(place) {
            // (one that may not be entered is opened, if it is the agent's)
            let _ = folder.mend();
            let is_marked = system.look(&folder.file(MARKER)).is_ok();
            let is_known = is_marked || is_first && !system.has_mount(&at);
            let stranger = || folder.stranger(|name| all.value(name));
            if let Some(name) = (!is_known).then(stranger).flatten() {
                let to = system.moved_aside(&at).map_err(|e| {
                    S::because(format!("another folder is in its place, with `{name}`: {e}"))
                })?;
                let words = format!("what lay at {GROUPS} was another folder: it is {to} now");
                self.facts.push(Fact::Settings(words));
                folder.leave(None);
                return self.open_grouped();
            }
            folder.forget();
            folder.begins()?;
        }
        Ok(true)
    }

    /// Keeps values as they are published, of keys that have one for some group, and the digest of
    /// these, if there is one and they could be kept: what came of each.
    fn keep_grouped(&mut self) -> Vec<Applied> {
        if self.all.is_empty() {
            return Vec::new();
        }
        let (was, sequence) = (self.grouped.folder.is(), self.all.first().unwrap_or(0));
        let opened = self.open_grouped();
        let (mut all, grouped) = (take(&mut self.all), &mut self.grouped);
        let status = opened.as_ref().map_or_else(failed, |_| Outcome::Done);
        let mut came = vec![Applied { key: GROUPS.into(), sequence, status }];
        if opened.is_err() {
            grouped.folder.leave(was);
            grouped.digest = None;
        }
        if !opened.unwrap_or(false) {
            return came;
        }
        let mut is_kept = true;
        if all.is_whole() {
            all.unset_others(grouped.folder.there(self.looks));
        }
        for (key, change) in all.in_order() {
            let (value, name) = (change.value.as_deref(), beside(&key));
            let announces = |_: &str| Ok(());
            let (_, _, kept) =
                grouped.keep((&key, &name), value, GROUPS_MODE, !self.looks, announces);
            is_kept &= matches!(kept, Ok(true));
            let status = kept.as_ref().map_or_else(failed, |_| Outcome::Done);
            came.push(Applied { key: beside(&shown(&key)), sequence: change.last, status });
        }
        grouped.folder.close();
        grouped.digest.take_if(|_| !is_kept);
        came
    }
}

/// What became of a file that the system refused.
fn failed(error: &impl Display) -> Outcome {
    Outcome::File(error.to_string())
}

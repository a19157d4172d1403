//! The disk that has the root's settings. A thread does what may have to wait for it.
use crate::batch::write_folder;
use crate::depth::{too_deep, TOO_DEEP};
use crate::kept::Places;
use inotify::{Inotify, WatchMask};
use rignolda_machine::net::BODY_BYTES;
use rignolda_machine::root::{Done, Empty, Job, Kept};
use rignolda_machine::settings::{parts, published_by, shown, SETTINGS, VALUE_BYTES};
use rignolda_machine::{first_of, Refused};
use rignolda_redis::Worker;
use rignoldactl::source::{no_key, read_folder_by, read_plain, too_many, Faults, Found};
use std::collections::BTreeSet;
use std::fs;
use std::io::{self, ErrorKind};
use std::os::unix::fs::MetadataExt;
use std::os::unix::io::{AsRawFd, RawFd};
use std::path::{Path, PathBuf};
use std::sync::Arc;

/// What is said of a thread that has other jobs than those that are waited for.
pub const ASKED: &str = "the disk was asked for something else";

/// How often a folder is read that is another one each time.
const READS: u32 = 3;

/// The file by which an empty folder is meant.
const MEANT: &str = ".empty";
const EMPTY: &str = "it is empty: is a mount missing, or else `.empty`?";
const NO_SETTING: &str = "nothing in it can be published";

struct Place {
    settings: Arc<Path>,
    keeps: Places,
    notify: Option<Inotify>,
    /// The keys that changed and were not read since; nothing where all are to be read.
    keys: Option<BTreeSet<String>>,
    /// Which folder all settings were read from last, if they were.
    read: Option<Identity>,
}

/// What tells a folder from another one at its place.
type Identity = (u64, u64);

fn identity(path: &Path) -> Option<Identity> {
    fs::metadata(path).ok().map(|it| (it.dev(), it.ino()))
}

/// The thread, where it looks, and what can be read when something changed there.
pub struct Disk {
    worker: Worker<Job, Done>,
    settings: Arc<Path>,
    changes: Option<RawFd>,
}

impl Disk {
    /// Starts it. It calls `wake` after each job.
    pub fn start(settings: &Path, wake: Arc<dyn Fn() + Send + Sync>) -> io::Result<Disk> {
        let (notify, keys) = (Inotify::init().ok(), Some(BTreeSet::new()));
        let (settings, keeps) = (Arc::<Path>::from(settings), Places::new(settings));
        let changes = notify.as_ref().map(AsRawFd::as_raw_fd);
        let mut place = Place { settings: settings.clone(), keeps, notify, keys, read: None };
        let worker = Worker::start("disk", move |job| place.work(job), move || wake())?;
        Ok(Disk { worker, settings, changes })
    }

    /// Has a job done after those that it was given before.
    pub fn begin(&self, job: Job) {
        self.worker.begin(job);
    }

    /// What came of the next job, if it is over.
    pub fn done(&self) -> Option<Done> {
        self.worker.done()
    }

    /// What can be read when something changed.
    pub fn descriptor(&self) -> Option<RawFd> {
        self.changes
    }

    /// What of it cannot be, where something cannot: to be asked once a second. So many jobs have
    /// no answer, as who asked for them says.
    pub fn fault(&self, settings: &Path, jobs: u32) -> Option<&'static str> {
        first_of([
            (*self.settings != *settings, "the root's configuration is another one"),
            (!self.worker.is_asked(jobs), ASKED),
        ])
    }
}

impl Place {
    fn work(&mut self, job: Job) -> Done {
        match job {
            Job::Read => Done::Read(self.read()),
            Job::Changed => match self.changed() {
                Some(changes) => Done::Keys(changes),
                None => Done::Read(self.read()),
            },
            Job::Write(changes) => self.write(changes),
            Job::Recall => Done::Recalled(self.keeps.read()),
            Job::Keep(text) => Done::Kept(self.keeps.write(&text).map_err(|e| e.to_string())),
            Job::Promote(key) => match read_plain(&self.file(&key), VALUE_BYTES) {
                // (the first one first: whoever is ended between them leaves what is right, too)
                Ok(value) => self.write(vec![(parts(&key).0.into(), Some(value)), (key, None)]),
                Err(error) => {
                    let why = format!("{}: {error}", shown(&key));
                    Done::Written { all: vec![((key, None), Err(why.into()))], others: false }
                }
            },
        }
    }

    /// Notes what changed. Of each of these keys the first change is its own: so where somebody
    /// else has changed it too, before or after that, it is noted.
    fn note(&mut self, mut own: BTreeSet<String>) {
        let (mut space, mut is_more) = ([0; 4_096], true);
        while std::mem::take(&mut is_more) {
            let events = self.notify.as_mut().map(|it| it.read_events(&mut space));
            for event in events.into_iter().flatten().flatten() {
                is_more = true;
                match (event.name.and_then(|name| name.to_str()), &mut self.keys) {
                    (Some(name), _) if own.remove(name) => (),
                    // (its own, before they are moved to their places, or somebody's: what has a
                    // dot in front is no setting)
                    (Some(name), _) if name.starts_with('.') && name != MEANT => (),
                    (Some(name), Some(keys)) => match published_by(name) {
                        Some(key) => drop(keys.insert(key)),
                        None => self.keys = None,
                    },
                    _ => self.keys = None,
                }
            }
        }
    }

    /// The settings that changed, where it is known which; else all are to be read, as where
    /// another folder is in the place of the one that changed.
    fn changed(&mut self) -> Option<Vec<Kept>> {
        self.note(BTreeSet::new());
        let keys = self.keys.replace(BTreeSet::new()).filter(|keys| !keys.is_empty())?;
        let mut bytes = 0;
        let value = |key: String| match read_plain(&self.file(&key), VALUE_BYTES) {
            Ok(value) => {
                bytes += value.len();
                (bytes <= BODY_BYTES).then_some((key, Some(value)))
            }
            Err(e) if e.kind() == ErrorKind::NotFound && self.settings.is_dir() => {
                Some((key, None))
            }
            Err(_) => None,
        };
        let changes = keys.into_iter().map(value).collect::<Option<_>>();
        changes.filter(|_| self.read.is_some() && self.read == identity(&self.settings))
    }

    /// The file of a key.
    fn file(&self, key: &str) -> PathBuf {
        self.settings.join(&*shown(key))
    }

    /// Writes files, and waits until the disk has them. No two are of one key.
    fn write(&mut self, changes: Vec<Kept>) -> Done {
        let done: Vec<_> = match self.settings.is_file() {
            true => changes.iter().map(|_| Err("all settings are in one file".into())).collect(),
            false => {
                let done = write_folder(&self.settings, &changes).into_iter();
                let why = |(error, (_, value)): (io::Error, &Kept)| match error.kind() {
                    ErrorKind::NotFound if value.is_none() && self.settings.is_dir() => {
                        Refused::NotSet
                    }
                    _ => error.to_string().into(),
                };
                done.zip(&changes).map(|(it, change)| it.map_err(|e| why((e, change)))).collect()
            }
        };
        let own = changes.iter().zip(&done).filter(|(_, done)| done.is_ok());
        self.note(own.map(|((key, _), _)| shown(key).into()).collect());
        let others = self.keys.as_ref().is_none_or(|keys| !keys.is_empty());
        Done::Written { all: changes.into_iter().zip(done).collect(), others }
    }

    /// Reads all settings, and waits for changes from before that. Where another folder takes the
    /// place of the one that is read, which may have lost some of them, it reads again.
    fn read(&mut self) -> Result<Found, Empty> {
        self.read = None;
        for _ in 0..READS {
            let before = identity(&self.settings);
            let found = self.read_once();
            if self.settings.is_file() || identity(&self.settings) == before {
                self.read = before.filter(|_| found.is_ok());
                return found;
            }
        }
        let why = format!("{}: another folder takes its place each time", self.settings.display());
        Err(Empty { why, has_none: false, is_new: false, faults: Faults::default() })
    }

    fn read_once(&mut self) -> Result<Found, Empty> {
        let path = &self.settings;
        let folder = if path.is_dir() { Some(&**path) } else { path.parent() };
        let mask = WatchMask::CLOSE_WRITE | WatchMask::MOVE | WatchMask::DELETE;
        // (the same folder is watched once, and one that was made anew again)
        if let (Some(notify), Some(folder)) = (&mut self.notify, folder) {
            let _ = notify.add_watch(folder, mask);
        }
        let read = match path.is_file() {
            true => read_settings(path),
            false => read_folder_by(path, published_by),
        };
        let (why, faults) = match read {
            Ok(it) if it.settings.is_empty() && path.is_dir() && !path.join(MEANT).exists() => {
                let why = if it.faults.count == 0 { EMPTY } else { NO_SETTING };
                (why.to_string(), it.faults)
            }
            Ok(found) => return Ok(found),
            Err(error) => (error.to_string(), Faults::default()),
        };
        let owner = |path: &Path| fs::metadata(path).ok().map(|it| it.uid());
        let is_own = || owner(path) == owner(Path::new("/proc/self"));
        let has_none = [EMPTY, NO_SETTING].contains(&&*why);
        let is_new = why == EMPTY && is_own();
        Err(Empty { why: format!("{}: {why}", path.display()), has_none, is_new, faults })
    }
}

/// All settings in one file: JSON by its name, else TOML.
fn read_settings(path: &Path) -> io::Result<Found> {
    let text = io::read_to_string(&read_plain(path, BODY_BYTES)?[..])?;
    if path.extension().is_some_and(|it| it == "json") {
        let all: serde_json::Map<_, serde_json::Value> = serde_json::from_str(&text)?;
        values(all, |value| value.as_str())
    } else if text.trim().is_empty() {
        Err(io::Error::other("it is empty: a comment would say that this is meant"))
    } else if let Some(line) = too_deep(&text) {
        Err(io::Error::other(format!("line {line}: {TOO_DEEP}")))
    } else {
        values(toml::from_str::<toml::value::Table>(&text)?, |value| value.as_str())
    }
}

/// The bytes of values: a text is taken as it is, and any other one as it is written.
fn values<V: ToString>(
    all: impl IntoIterator<Item = (String, V)>,
    text: fn(&V) -> Option<&str>,
) -> io::Result<Found> {
    let mut found = Found::default();
    for (name, value) in all {
        let bytes = text(&value).map_or_else(|| value.to_string(), str::to_owned).into_bytes();
        let why = match published_by(&name) {
            None => no_key(&name),
            Some(_) if bytes.len() > VALUE_BYTES => {
                format!("{name}: it has more than {VALUE_BYTES} bytes")
            }
            Some(key) => {
                found.settings.insert(key, bytes);
                continue;
            }
        };
        return Err(io::Error::other(why));
    }
    match found.settings.len() > SETTINGS {
        true => Err(too_many()),
        false => Ok(found),
    }
}

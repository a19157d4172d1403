//! The disk of a root: its folder, and what it keeps of what it published.
use super::files::Node;
use super::{set, Disk, Put, Settings, RECORD};
use rignolda_machine::apply::FileSystem;
use rignolda_machine::root::{self, Record};
use rignolda_machine::settings::{parts, Faults, Found};
use rignolda_machine::Refused;
use std::collections::{BTreeMap, BTreeSet};

impl Disk {
    /// What came of a job.
    pub(super) fn root_works(&mut self, job: root::Job, folder: &mut Settings) -> root::Done {
        match job {
            root::Job::Recall => {
                let text = self.files.read(RECORD, usize::MAX).ok();
                let text = text.and_then(|it| String::from_utf8(it).ok());
                root::Done::Recalled(text.and_then(|it| Record::parse(&it)))
            }
            root::Job::Keep(text) => {
                let done = self.files.puts(RECORD, Node::File(0o600, text.into()));
                root::Done::Kept(done.map_err(|error| error.to_string()))
            }
            root::Job::Read => self.reads(folder),
            root::Job::Changed => match self.changed.replace(BTreeSet::new()) {
                Some(keys) if self.was_read && !keys.is_empty() => {
                    let value = |key: String| (key.clone(), folder.get(&key).cloned());
                    root::Done::Keys(keys.into_iter().map(value).collect())
                }
                _ => self.reads(folder),
            },
            root::Job::Write(changes) => self.writes(changes, folder),
            root::Job::Promote(key) => {
                let value = folder.get(&key).cloned();
                self.writes(vec![(parts(&key).0.into(), value), (key, None)], folder)
            }
        }
    }

    fn reads(&mut self, folder: &Settings) -> root::Done {
        (self.was_read, self.changed) = (true, Some(BTreeSet::new()));
        let settings = folder.clone();
        let (unread, faults) = (BTreeMap::new(), Faults::default());
        root::Done::Read(Ok(Found { settings, unread, faults }))
    }

    fn writes(&mut self, changes: Vec<Put>, folder: &mut Settings) -> root::Done {
        let is_full = self.files.tree().is_full;
        let write = |(key, value): Put| {
            let done = if is_full { Err(Refused::from("no space is left")) } else { Ok(()) };
            if done.is_ok() {
                set(folder, &key, value.clone());
            }
            ((key, value), done)
        };
        root::Done::Written { all: changes.into_iter().map(write).collect(), others: false }
    }
}

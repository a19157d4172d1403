//! What a root published, kept on the disk as names and digests: so a root that begins knows what
//! its folder lacks, also where it applies nothing, or what it applied is lost.
//!
//! It lies in a folder of the agent's own in that of the settings, which git leaves out; and, where
//! systemd gives the agent a folder, there too, for a folder of settings that is gone as a whole.
//! Nothing in it has to be right: what is lacking or spoiled is as if it was not there.
use crate::batch::Batch;
use rignolda_machine::root::Record;
use rignolda_machine::settings::{KEY_BYTES, SETTINGS};
use rignoldactl::source::read_plain;
use std::env;
use std::fs::{self, DirBuilder};
use std::io;
use std::os::unix::fs::DirBuilderExt;
use std::path::{Path, PathBuf};

/// The folder in that of the settings, and the name of the file in each folder.
const FOLDER: &str = ".rignolda";
const FILE: &str = "published";
/// What git is told: that nothing in the folder is to be kept.
const IGNORED: (&str, &[u8]) = (".gitignore", b"*\n");
/// The longest file: a line has a key, a space, the digits and its end.
const FILE_BYTES: usize = 2 * SETTINGS * (KEY_BYTES + 66);
/// Where it is kept.
#[derive(Clone, Debug)]
pub struct Places {
    settings: PathBuf,
    state: Option<PathBuf>,
}

impl Places {
    /// Those beside these settings, and in the folder that systemd gives to the agent.
    pub fn new(settings: &Path) -> Places {
        let state = env::var_os("STATE_DIRECTORY");
        let first = |it| env::split_paths(&it).next().filter(|it| it.is_absolute());
        Places { settings: settings.into(), state: state.and_then(first) }
    }

    /// What was kept last.
    pub fn read(&self) -> Option<Record> {
        let folders = [Some(self.settings.join(FOLDER)), self.state.clone()];
        let texts = folders.into_iter().flatten().filter_map(|folder| {
            let bytes = read_plain(&folder.join(FILE), FILE_BYTES).ok()?;
            String::from_utf8(bytes).ok()
        });
        texts.into_iter().find_map(|text| Record::parse(&text))
    }

    /// Keeps it, wherever it can be kept.
    ///
    /// # Errors
    ///
    /// Where it can be kept nowhere.
    pub fn write(&self, text: &str) -> io::Result<()> {
        let own = self.own_folder();
        let folders = [own, self.state.clone().ok_or_else(|| io::ErrorKind::NotFound.into())];
        let done = folders.map(|folder| put(&folder?.join(FILE), text));
        let [one, other] = done;
        one.or_else(|error| other.map_err(|_| error))
    }

    /// What was kept counts no more.
    pub fn forget(&self) {
        let folders = [Some(self.settings.join(FOLDER)), self.state.clone()];
        for folder in folders.into_iter().flatten() {
            // (what is no such file is not read either)
            let _ = fs::remove_file(folder.join(FILE));
        }
    }

    /// The folder of its own in that of the settings.
    fn own_folder(&self) -> io::Result<PathBuf> {
        let folder = self.settings.join(FOLDER);
        let is_folder = || fs::symlink_metadata(&folder).map(|it| it.is_dir());
        match is_folder() {
            Ok(true) => Ok(folder),
            Ok(false) => Err(io::ErrorKind::AlreadyExists.into()),
            Err(_) => {
                DirBuilder::new().mode(0o700).create(&folder)?;
                fs::write(folder.join(IGNORED.0), IGNORED.1)?;
                Ok(folder)
            }
        }
    }
}

/// Puts a file whole and on the disk.
fn put(path: &Path, text: &str) -> io::Result<()> {
    let mut batch = Batch::default();
    batch.write(path.into(), text.as_bytes())?;
    batch.commit().into_iter().next().map_or(Ok(()), |(_, error)| Err(error))
}

#[cfg(test)]
mod tests {
    use super::*;

    fn record_of(value: &str) -> Record {
        Record::of(&[("a".into(), value.into())].into(), rignoldactl::sha256)
    }

    /// A folder may be gone as a whole, or be one in which nothing can be kept.
    #[test]
    fn it_is_kept_wherever_it_can_be() {
        let top = env::temp_dir().join(format!("rignolda-kept-{}", std::process::id()));
        let _ = fs::remove_dir_all(&top);
        let [settings, state] = ["settings", "state"].map(|name| top.join(name));
        let places = Places { settings: settings.clone(), state: Some(state.clone()) };
        let write = |value: &str| {
            let record = record_of(value);
            (places.write(&record.text([].iter())).is_ok(), places.read() == Some(record))
        };
        assert_eq!(write("1"), (false, false), "there is no folder");
        fs::create_dir_all(&state).unwrap();
        assert_eq!(write("1"), (true, true));
        fs::create_dir(&settings).unwrap();
        assert_eq!(write("2"), (true, true));
        assert_eq!(fs::read(settings.join(".rignolda/.gitignore")).unwrap(), b"*\n");
        // (that beside the settings counts, else the other one)
        fs::write(settings.join(".rignolda/published"), "spoiled").unwrap();
        assert_eq!(places.read(), Some(record_of("2")));
        fs::remove_dir_all(&settings).unwrap();
        fs::create_dir(&settings).unwrap();
        fs::write(settings.join(".rignolda"), "of somebody").unwrap();
        assert_eq!(write("3"), (true, true));
        assert_eq!(fs::read(settings.join(".rignolda")).unwrap(), b"of somebody");
        places.forget();
        assert_eq!(places.read(), None);
        fs::remove_dir_all(&top).unwrap();
    }
}

//! Of which keys hooks are due, as an empty file of each in a folder says.
use super::{marker, FileSystem, Identity, Place, Step, MARKER, PENDING};
use crate::prelude::*;
use crate::settings::is_key;

/// Where a hook runs: the folder, while it is the agent's own.
#[derive(Debug)]
pub struct House<S: FileSystem> {
    system: S,
    own: Option<Place<S::Held>>,
}

impl<S: FileSystem> House<S> {
    /// The folder at this path, which is the agent's own where it is this one.
    pub fn new(system: S, path: &str, taken: Option<Identity>) -> House<S> {
        let own = taken.and_then(|_| system.open(path, false).ok());
        House { own: own.filter(|it| Some(it.is) == taken), system }
    }

    /// A path to it that leads nowhere else.
    pub fn at(&self) -> Option<&str> {
        self.own.as_ref().map(|own| &*own.at)
    }

    /// The number up to which its files are.
    pub(super) fn floor(&self) -> u64 {
        self.at().map_or(0, |at| marker::read(&self.system, &format!("{at}/{MARKER}")))
    }

    /// Takes back that hooks of these keys are due. What else has such a name stays.
    pub(super) fn settle(&self, keys: &[String]) {
        let pending = self.at().and_then(|at| pending(&self.system, at).ok().flatten());
        let paths = pending.iter().flat_map(|it| keys.iter().map(move |key| format!("{it}/{key}")));
        for path in paths {
            if self.system.look(&path).is_ok_and(|it| it.is_file && it.bytes == 0) {
                let _ = self.system.does(&path, Step::RemoveFile);
            }
        }
    }
}

/// The folder of the keys whose hooks are due, if it is one; its owner may use it then.
fn pending<S: FileSystem>(system: &S, folder: &str) -> Result<Option<String>, S::Error> {
    let folder = format!("{folder}/{PENDING}");
    if !system.look(&folder).is_ok_and(|it| it.is_folder) {
        return Ok(None);
    }
    system.does(&folder, Step::Mend)?;
    Ok(Some(folder))
}

/// The keys whose hooks are due, as that folder says.
pub fn due<S: FileSystem>(system: &S, folder: &str) -> BTreeSet<String> {
    let folder = pending(system, folder).ok().flatten();
    let there = folder.iter().flat_map(|it| system.list(it)).flatten();
    there.filter(|(key, is_folder)| !is_folder && is_key(key)).map(|(key, _)| key).collect()
}

/// Says in the folder that hooks of this key are due.
pub fn announce<S: FileSystem>(system: &S, folder: &str, key: &str) -> Result<(), S::Error> {
    let folder = match pending(system, folder)? {
        Some(it) => it,
        None => {
            let new = format!("{folder}/{PENDING}");
            system.unlink(&new)?;
            system.does(&new, Step::Make)?;
            new
        }
    };
    let path = format!("{folder}/{key}");
    if system.look(&path).is_ok_and(|it| it.is_file) {
        return Ok(());
    }
    system.remove(&path)?;
    system.write(&path, 0o666, None, b"").map(drop)
}

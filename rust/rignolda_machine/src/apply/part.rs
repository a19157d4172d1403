//! One folder of files that are kept as settings are: each file, and the digest of all.
use super::{Digest, FileSystem, Folder};

/// A folder, and the digest of its files that were kept since all were looked at, if it is known.
#[derive(Debug)]
pub(super) struct Part<S: FileSystem> {
    pub(super) folder: Folder<S>,
    pub(super) digest: Option<Digest>,
}

impl<S: FileSystem> Part<S> {
    /// Makes one file what it should be, where it differs, after that is announced; what was put
    /// last may be believed. Whether the value is that which was put last, whether it differs, and
    /// whether it could be put, and is what was read of it.
    pub(super) fn keep(
        &mut self,
        (key, name): (&str, &str),
        value: Option<&[u8]>,
        mode: u32,
        believes: bool,
        announces: impl FnOnce(&str) -> Result<(), S::Error>,
    ) -> (bool, bool, Result<bool, S::Error>) {
        let Part { folder, digest } = self;
        let put = value.map_or(!folder.knows(key), |value| folder.had(key, value));
        let had = believes && put;
        let differs = !had && folder.differs(key, value, mode);
        let mut done = Ok(true);
        if differs {
            done = announces(folder.at()).and_then(|()| folder.put(key, value, mode));
        }
        match (digest, value) {
            (Some(it), _) if differs && !matches!(done, Ok(true)) => match folder.read(key) {
                Ok(value) => it.set(name, Some(&value)),
                Err(error) if S::is_missing(&error) => it.unset(name),
                Err(_) => it.set(name, None),
            },
            (Some(it), Some(value)) if !had => it.set(name, Some(value)),
            (Some(it), None) => it.unset(name),
            _ => (),
        }
        (put, differs, done)
    }
}

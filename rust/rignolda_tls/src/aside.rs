//! What lies in the place of a socket or a folder of the agent's: it is somebody's, and kept.
use std::fs;
use std::io::{self, ErrorKind};
use std::os::unix::fs::MetadataExt;
use std::path::{Path, PathBuf};

/// How much may lie beside a place that was moved away from it.
const MOST: u32 = 100;

/// Moves what lies at a path out of the way, to a name beside it that nothing has: to which one.
/// Nothing is deleted, and of a link nothing that it leads to is touched.
///
/// # Errors
///
/// If others than the user of the process may write to the folder around it, if a hundred things
/// lie beside it already, or if the system refuses it.
pub fn moved_aside(path: &Path) -> io::Result<PathBuf> {
    let around = path.parent().filter(|it| !it.as_os_str().is_empty()).unwrap_or(Path::new("."));
    let (around, user) = (fs::metadata(around)?, fs::metadata("/proc/self")?.uid());
    if around.uid() != user || around.mode() & 0o022 != 0 {
        let why = "the folder around it is not the agent's own, so nothing is moved there";
        return Err(io::Error::new(ErrorKind::PermissionDenied, why));
    }
    let name = path.file_name().ok_or(ErrorKind::InvalidInput)?;
    for number in 1..=MOST {
        let mut new = name.to_owned();
        new.push(format!(".aside{number}"));
        let new = path.with_file_name(new);
        if fs::symlink_metadata(&new).is_err_and(|it| it.kind() == ErrorKind::NotFound) {
            return fs::rename(path, &new).map(|()| new);
        }
    }
    Err(io::Error::other("too much was moved aside there"))
}

//! Settings that are read out of a folder which others may write to.
use rignolda_machine::net::BODY_BYTES;
use rignolda_machine::settings::{as_key, entry_bytes, SETTINGS, VALUE_BYTES};
pub use rignolda_machine::settings::{no_key, Faults, Found};
use std::fs::{self, OpenOptions};
use std::io::{self, ErrorKind, Read};
use std::os::unix::fs::OpenOptionsExt;
use std::path::Path;

/// O_NONBLOCK and O_NOFOLLOW of Linux: a pipe would never end, and what a link points to may be a
/// secret of whoever reads here.
pub const AS_IT_IS: i32 = 0o4_000
    | if cfg!(any(target_arch = "aarch64", target_arch = "arm")) { 0o100_000 } else { 0o400_000 };
const NO_FILE: &str = "it is no plain file, and no link is followed";

/// What is said where there are more settings than a table may have.
pub fn too_many() -> io::Error {
    let text = format!("all settings have more than {BODY_BYTES} bytes, or are over {SETTINGS}");
    other(&text)
}

/// Reads the settings of a folder: of each file the name is the key, and the bytes are the value.
/// Names with a dot in front are left out. Nothing but plain files is read, and no link followed.
///
/// # Errors
///
/// Where the folder cannot be read, or has more than a table may have.
///
/// ```
/// let folder = std::env::temp_dir().join(format!("rignolda-source-{}", std::process::id()));
/// std::fs::create_dir_all(folder.join("inner"))?;
/// std::fs::write(folder.join("colour"), "red")?;
/// let found = rignoldactl::source::read_folder(&folder)?;
/// assert_eq!(found.settings["colour"], b"red");
/// assert_eq!((found.faults.count, found.unread["inner"]), (1, false));
/// std::fs::remove_dir_all(folder)?;
/// # Ok::<(), std::io::Error>(())
/// ```
pub fn read_folder(folder: &Path) -> io::Result<Found> {
    read_folder_by(folder, as_key)
}

/// Reads the settings of a folder, where each file has the key that its name stands for, if that
/// is one; where a key may have values for groups,
/// [that](rignolda_machine::settings::published_by).
///
/// # Errors
///
/// As those of [`read_folder`].
pub fn read_folder_by(folder: &Path, key: impl Fn(&str) -> Option<String>) -> io::Result<Found> {
    let (mut found, mut bytes) = (Found::default(), 0);
    for entry in fs::read_dir(folder)? {
        let entry = entry?;
        let name = entry.file_name();
        let text = name.to_string_lossy();
        let key = match name.to_str().and_then(&key) {
            _ if text.starts_with('.') => continue,
            Some(key) => key,
            None => {
                found.faults.add(no_key(&text));
                continue;
            }
        };
        match read_plain(&entry.path(), VALUE_BYTES) {
            Ok(value) => {
                bytes += entry_bytes(&(&key, Some(&value)));
                found.settings.insert(key, value);
            }
            Err(error) if error.kind() == ErrorKind::NotFound => (),
            Err(error) => {
                found.faults.add(format!("{text}: {error}"));
                // (what was found to be no setting is of the kind `Other`)
                found.unread.insert(key, error.kind() != ErrorKind::Other);
            }
        }
        if bytes > BODY_BYTES || found.settings.len() > SETTINGS {
            return Err(too_many());
        }
    }
    Ok(found)
}

/// The bytes of a plain file, of which there are at most so many. It is never waited for, but where
/// its disk hangs.
///
/// # Errors
///
/// Of the kind `Other` where it is no plain file or has more bytes; else that of the system.
pub fn read_plain(path: &Path, most: usize) -> io::Result<Vec<u8>> {
    let is_file = || fs::symlink_metadata(path).map_or(true, |it| it.is_file());
    let mut options = OpenOptions::new();
    let file = match options.read(true).custom_flags(AS_IT_IS).open(path) {
        Err(_) if !is_file() => return Err(other(NO_FILE)),
        file => file?,
    };
    let is = file.metadata()?;
    if !is.is_file() {
        return Err(other(NO_FILE));
    }
    // (with room for its end too, so that nothing is read or copied twice)
    let room = is.len().min(most as u64) as usize + 32;
    let mut bytes = Vec::with_capacity(room);
    file.take(most as u64 + 1).read_to_end(&mut bytes)?;
    match bytes.len() > most {
        true => Err(other(&format!("it has more than {most} bytes"))),
        false => Ok(bytes),
    }
}

fn other(text: &str) -> io::Error {
    io::Error::other(text)
}

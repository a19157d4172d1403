//! The steps of an applied folder, as the system does them: what is done in a folder that is held
//! open is done in one and the same folder, whatever comes to its place meanwhile.
use crate::batch::write_folder;
use crate::fact;
use crate::kept::Places;
use rignolda_machine::apply::{marker, FileSystem, Identity, Look, Place, Step};
use rignolda_machine::root::Kept;
use rignolda_machine::settings::Found;
use rignolda_tls::moved_aside;
use rignoldactl::source::{read_folder_by, read_plain, AS_IT_IS};
use std::collections::hash_map::RandomState;
use std::fs::{self, File, Metadata, OpenOptions, Permissions};
use std::io::{self, ErrorKind, Read, Write};
use std::os::unix::fs::{FileExt, MetadataExt, OpenOptionsExt, PermissionsExt};
use std::os::unix::io::AsRawFd;
use std::path::{Path, PathBuf};
use std::sync::OnceLock;
use std::time::UNIX_EPOCH;

/// O_PATH of Linux: it names the folder, and needs no right to read it. With O_NOFOLLOW, no link.
const NAMES_IT: i32 = 0o10_000_000;
const NAMES_NO_LINK: i32 = NAMES_IT
    | if cfg!(any(target_arch = "aarch64", target_arch = "arm")) { 0o100_000 } else { 0o400_000 };
/// ELOOP of Linux.
const LOOP: i32 = 40;
/// Where the system shows what a process has open.
const OPENED: &str = "/proc/self/fd";
/// Where the system shows what is mounted.
const MOUNTS: &str = "/proc/self/mountinfo";

/// The files of this machine.
#[derive(Clone, Debug, Default)]
pub struct LocalFiles;

/// A marker that is open, and whether it was at its place when it was read last.
#[derive(Debug, Default)]
pub struct Marker(Option<(File, Tells)>, bool);

/// What tells a file from another one at its place: also that its length is another one.
type Tells = (u64, u64, u64);

fn tells(it: &Metadata) -> Tells {
    (it.dev(), it.ino(), it.len())
}

/// What tells a folder from another one at its place; also from one that was made after it was
/// removed, and has its number.
fn identity(it: &Metadata) -> Identity {
    let made = it.created().ok().and_then(|it| it.duration_since(UNIX_EPOCH).ok());
    let made = made.map_or(u128::MAX, |it| it.as_nanos());
    Identity([it.dev(), it.ino(), made as u64, (made >> 64) as u64])
}

/// Nothing is at a path, as far as is known: what is there and is no folder is moved aside, also a
/// link to itself. A link to nowhere stays, since the disk that it leads to may be missing.
fn has_room_or(path: &str, error: io::Error) -> io::Result<()> {
    let there = fs::metadata(path);
    let is_loop = there.as_ref().is_err_and(|e| e.raw_os_error() == Some(LOOP));
    match there {
        _ if is_loop || there.as_ref().is_ok_and(|is| !is.is_dir()) => {
            let to = moved_aside(path.as_ref())?;
            fact!("settings", "what lay at {path} was no folder: it is {} now", to.display());
            Ok(())
        }
        Err(e) if e.kind() == ErrorKind::NotFound => {
            fs::symlink_metadata(path).map_or(Ok(()), |_| Err(error))
        }
        _ => Err(error),
    }
}

/// A new file at a place, whatever was there.
fn create(system: &LocalFiles, at: &str, mode: u32) -> io::Result<File> {
    let mut options = OpenOptions::new();
    options.read(true).write(true).create_new(true).mode(mode);
    match options.open(at) {
        Err(e) if e.kind() == ErrorKind::AlreadyExists => system.remove(at)?,
        done => return done,
    }
    options.open(at)
}

/// Whether a file is as a marker is, or empty, and has one name. (What somebody moved or linked
/// there may be the only copy, or be in use at another place.)
fn is_marker(file: &File) -> bool {
    let Ok(is) = file.metadata() else { return false };
    let mut bytes = vec![0; is.len().min(64) as usize];
    let is_one = is.is_file() && is.nlink() == 1;
    is_one && file.read_exact_at(&mut bytes, 0).is_ok() && marker::is_text(&bytes)
}

impl FileSystem for LocalFiles {
    type Held = File;
    type Marker = Marker;
    type Error = io::Error;
    type Digest = RandomState;

    fn is_missing(error: &io::Error) -> bool {
        error.kind() == ErrorKind::NotFound
    }

    fn is_denied(error: &io::Error) -> bool {
        error.kind() == ErrorKind::PermissionDenied
    }

    fn because(why: String) -> io::Error {
        io::Error::other(why)
    }

    fn open(&self, path: &str, itself: bool) -> io::Result<Place<File>> {
        let flags = if itself { NAMES_NO_LINK } else { NAMES_IT };
        let held = OpenOptions::new().read(true).custom_flags(flags).open(path)?;
        let is = held.metadata()?;
        if !is.is_dir() {
            return Err(io::Error::other("it is no folder"));
        }
        static SHOWS: OnceLock<bool> = OnceLock::new();
        // (on a system without /proc, what comes to its place is seen at the next body alone)
        let at = match SHOWS.get_or_init(|| Path::new(OPENED).is_dir()) {
            true => format!("{OPENED}/{}", held.as_raw_fd()),
            false => path.into(),
        };
        Ok(Place { held, at, is: identity(&is) })
    }

    fn open_or_make(&self, path: &str) -> io::Result<Place<File>> {
        self.open(path, false).or_else(|error| {
            has_room_or(path, error)?;
            fs::create_dir_all(path)?;
            self.open(path, false)
        })
    }

    fn is_there(&self, path: &str, folder: Identity) -> bool {
        fs::metadata(path).is_ok_and(|is| is.is_dir() && identity(&is) == folder)
    }

    fn look(&self, path: &str) -> io::Result<Look> {
        fs::symlink_metadata(path).map(|is| Look {
            is_file: is.is_file(),
            is_folder: is.is_dir(),
            mode: is.mode() & 0o7777,
            bytes: is.len(),
        })
    }

    fn list(&self, path: &str) -> io::Result<impl Iterator<Item = (String, bool)>> {
        let is_folder = |it: &fs::DirEntry| it.file_type().is_ok_and(|it| it.is_dir());
        let all = fs::read_dir(path)?.flatten();
        Ok(all.map(move |it| (it.file_name().to_string_lossy().into(), is_folder(&it))))
    }

    fn read(&self, path: &str, most: usize) -> io::Result<Vec<u8>> {
        read_plain(path.as_ref(), most)
    }

    fn has(&self, path: &str, value: &[u8]) -> bool {
        let mut there = vec![0; value.len()];
        File::open(path).and_then(|mut file| file.read_exact(&mut there)).is_ok() && there == value
    }

    fn found(&self, path: &str, by: fn(&str) -> Option<String>) -> io::Result<Found> {
        read_folder_by(path.as_ref(), by)
    }

    /// Where the system does not say it, nothing is.
    fn has_mount(&self, path: &str) -> bool {
        let (Ok(path), Ok(mounts)) = (fs::canonicalize(path), fs::read_to_string(MOUNTS)) else {
            return false;
        };
        let mut mounts = mounts.lines().filter_map(|line| line.split(' ').nth(4));
        mounts.any(|it| plain(it).starts_with(&path))
    }

    fn does(&self, path: &str, step: Step) -> io::Result<()> {
        let set_mode = |mode| fs::set_permissions(path, Permissions::from_mode(mode));
        match step {
            Step::Make => fs::create_dir(path),
            Step::Mend => {
                let there = fs::metadata(path).ok().filter(|it| it.is_dir());
                let made = || fs::create_dir_all(path).and_then(|()| fs::metadata(path));
                match there.map_or_else(made, Ok)?.permissions().mode() {
                    mode if mode & 0o700 == 0o700 => Ok(()),
                    mode => set_mode(mode | 0o700),
                }
            }
            // (what it lets others do already stays so)
            Step::Lists(mode) => {
                let (is, reads) = (fs::metadata(path)?.permissions().mode(), mode & 0o044);
                match is | reads | reads >> 2 {
                    least if least == is => Ok(()),
                    least => set_mode(least),
                }
            }
            Step::Take(from) => fs::rename(from, path).or_else(|error| {
                if !Path::new(path).is_dir() {
                    return Err(error);
                }
                self.remove(path)?;
                fs::rename(from, path)
            }),
            Step::RemoveFile => fs::remove_file(path),
            Step::RemoveFolder => fs::remove_dir_all(path),
            Step::Rewrite(file, text) => {
                let is_new = fs::symlink_metadata(file).is_err();
                let mut options = OpenOptions::new();
                options.write(true).create(true).mode(0o640).custom_flags(AS_IT_IS);
                let file = options.open(file)?;
                file.write_all_at(text.as_bytes(), 0)?;
                file.set_len(text.len() as u64)?;
                file.sync_all()?;
                if is_new {
                    self.does(path, Step::Sync)
                } else {
                    Ok(())
                }
            }
            Step::Sync => File::open(path)?.sync_all(),
            Step::ForgetRecord => {
                Places::new(path.as_ref()).forget();
                Ok(())
            }
        }
    }

    fn write(
        &self,
        path: &str,
        mode: u32,
        is_known: Option<bool>,
        bytes: &[u8],
    ) -> io::Result<(bool, u32)> {
        let mut file = create(self, path, mode)?;
        file.write_all(bytes)?;
        let Some(is_known) = is_known else { return Ok((true, mode)) };
        let mut there = vec![0; bytes.len() + 1];
        let is_so = file.read_at(&mut there, 0).is_ok_and(|length| there[..length] == *bytes);
        if is_known {
            return Ok((is_so, mode));
        }
        let is = file.metadata()?.permissions().mode() & 0o7777;
        file.set_permissions(Permissions::from_mode(mode))?;
        Ok((is_so, is))
    }

    fn moved_aside(&self, path: &str) -> io::Result<String> {
        let to = moved_aside(path.as_ref())?;
        Ok(to.file_name().unwrap_or_default().to_string_lossy().into_owned())
    }

    fn read_marker(&self, open: &mut Marker, path: &str) -> Vec<u8> {
        let there = fs::symlink_metadata(path).ok().map(|it| tells(&it));
        let mut bytes = vec![0; marker::BYTES];
        let own = open.0.as_ref().filter(|(_, is)| there == Some(*is));
        open.1 = own.is_some();
        match own.map(|(file, _)| file.read_exact_at(&mut bytes, 0).is_ok()) {
            Some(true) => bytes,
            _ => read_plain(path.as_ref(), marker::BYTES).unwrap_or_default(),
        }
    }

    fn write_marker(&self, open: &mut Marker, path: &str, text: &str) -> io::Result<()> {
        let own = open.0.as_ref().filter(|_| open.1);
        if own.is_some_and(|(file, _)| file.write_all_at(text.as_bytes(), 0).is_ok()) {
            return Ok(());
        }
        *open = Marker::default();
        let _ = self.does(path.rsplit_once('/').map_or(path, |it| it.0), Step::Mend);
        let mut options = OpenOptions::new();
        options.read(true).write(true).custom_flags(AS_IT_IS);
        let file = match options.clone().create(true).open(path) {
            Ok(file) if is_marker(&file) => file,
            _ => {
                self.remove(path)?;
                options.create_new(true).open(path)?
            }
        };
        file.write_all_at(text.as_bytes(), 0)?;
        file.set_len(text.len() as u64)?;
        let is = tells(&file.metadata()?);
        open.0 = Some((file, is));
        Ok(())
    }

    fn is_own(&self, path: &str) -> bool {
        let user = fs::metadata("/proc/self").map_or(0, |it| it.uid());
        fs::symlink_metadata(path).is_ok_and(|file| {
            [user, 0].contains(&file.uid()) && file.mode() & 0o022 == 0 && file.nlink() == 1
        })
    }

    fn keep_all(&self, folder: &str, all: &[Kept]) -> Vec<io::Result<()>> {
        write_folder(folder.as_ref(), all)
    }
}

/// A path as it is, of which spaces and such are written as a backslash and three octal digits.
fn plain(text: &str) -> PathBuf {
    let mut parts = text.split('\\');
    let mut path = parts.next().unwrap_or_default().as_bytes().to_vec();
    for part in parts {
        let code = part.get(..3).and_then(|code| u8::from_str_radix(code, 8).ok());
        path.extend(code);
        path.extend_from_slice(part.get(3..).unwrap_or_default().as_bytes());
    }
    PathBuf::from(<std::ffi::OsString as std::os::unix::ffi::OsStringExt>::from_vec(path))
}

#[cfg(test)]
mod tests {
    use super::*;

    #[test]
    fn a_mount_is_read_as_the_system_writes_it() {
        assert_eq!(plain("/a\\040b/c\\134d"), PathBuf::from("/a b/c\\d"));
        let has_mount = |path| LocalFiles.has_mount(path);
        assert!(has_mount("/") && has_mount("/proc"));
        assert!(!has_mount("/proc/self/fd") && !has_mount("/nowhere"));
    }

    #[test]
    fn another_folder_at_a_place_is_another_one() {
        let top = std::env::temp_dir().join(format!("rignolda-place-{}", std::process::id()));
        let (folder, system) = (top.join("a"), LocalFiles);
        let open = |path: &Path| system.open(path.to_str().unwrap(), false).unwrap();
        let _ = fs::remove_dir_all(&top);
        fs::create_dir_all(&folder).unwrap();
        let first = open(&folder);
        fs::rename(&folder, top.join("b")).unwrap();
        fs::create_dir(&folder).unwrap();
        fs::write(Path::new(&first.at).join("file"), "").unwrap();
        assert!(top.join("b/file").exists() && !folder.join("file").exists());
        assert_ne!(open(&folder).is, first.is);
        assert_eq!(open(&top.join("b")).is, first.is);
        // (the system may give its number to the next one)
        let is = first.is;
        drop(first);
        fs::remove_dir_all(top.join("b")).unwrap();
        for at in 0..100 {
            let next = top.join(at.to_string());
            fs::create_dir(&next).unwrap();
            assert_ne!(open(&next).is, is);
        }
        std::os::unix::fs::symlink(&folder, top.join("link")).unwrap();
        assert!(open(&top.join("link")).at.starts_with('/'));
        assert!(system.open(top.join("link").to_str().unwrap(), true).is_err());
        fs::remove_dir_all(&top).unwrap();
    }
}

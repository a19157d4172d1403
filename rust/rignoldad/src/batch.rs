//! Files that are kept on the disk, several at once.
use rignolda_machine::root::Kept;
use rignolda_machine::settings::shown;
use std::collections::BTreeSet;
use std::fs::{self, File, OpenOptions};
use std::io::{self, ErrorKind, Write};
use std::os::unix::fs::{OpenOptionsExt, PermissionsExt};
use std::path::{Path, PathBuf};
use std::thread;
use std::time::{Duration, Instant};

/// A disk that takes longer than this for one file is given the others at once.
const QUICK: Duration = Duration::from_micros(500);
const STACK_BYTES: usize = 64 << 10;
/// The permissions of a file, at most; and what it has of them in any case.
const MOST: u32 = 0o640;
const LEAST: u32 = 0o600;
/// How many names beside a place are tried for a new file, since a folder may have some of them.
const NAMES: usize = 100;

/// New files of a folder, which come to their places together.
///
/// Each is written beside its place, synced to the disk, and only then moved there, and the folder
/// is synced. So a reader finds it whole, as it was or as it is now, and so does whoever reads it
/// after a loss of power; once it is committed, as it is now.
/// Several files wait for the disk at the same time, which takes little longer than one.
///
/// ```
/// use rignoldad::batch::Batch;
///
/// let folder = std::env::temp_dir().join(format!("rignolda-batch-{}", std::process::id()));
/// std::fs::create_dir_all(&folder)?;
/// let mut batch = Batch::default();
/// batch.write(folder.join("colour"), b"red")?;
/// batch.write(folder.join("size"), b"9")?;
/// assert!(!folder.join("colour").exists());
/// assert!(batch.commit().is_empty());
/// assert_eq!(std::fs::read(folder.join("colour"))?, b"red");
/// std::fs::remove_dir_all(folder)?;
/// # Ok::<(), std::io::Error>(())
/// ```
#[derive(Debug, Default)]
pub struct Batch {
    new: Vec<New>,
    /// How many names were used for files that are beside their places.
    names: usize,
    /// The folders in which something moved, or was removed.
    folders: BTreeSet<PathBuf>,
}

#[derive(Debug)]
struct New {
    file: File,
    beside: PathBuf,
    path: PathBuf,
}

impl Batch {
    /// Whether a file of this path is in it.
    pub fn has(&self, path: &Path) -> bool {
        self.new.iter().any(|new| new.path == path)
    }

    /// Writes a file beside its place, under a name with a dot in front. A batch has at most one
    /// file of each path, and a folder one batch. Its mode is 0640, or what the mask of the process
    /// leaves; and 0600 where a file is in that place that is for its owner alone. What else that
    /// allows to anybody, or what a link there leads to, makes no difference.
    ///
    /// # Errors
    ///
    /// Where the system refuses it; then the file is not in the batch.
    pub fn write(&mut self, path: PathBuf, value: &[u8]) -> io::Result<()> {
        let before = fs::symlink_metadata(&path).ok().filter(|is| is.is_file());
        let before = before.map_or(MOST, |is| is.permissions().mode());
        let (beside, mut file) = self.create(&path, LEAST | MOST & before)?;
        if let Err(error) = file.write_all(value) {
            let _ = fs::remove_file(&beside);
            return Err(error);
        }
        self.new.push(New { file, beside, path });
        Ok(())
    }

    /// A new file beside a path, in place of one that was left there.
    fn create(&mut self, path: &Path, mode: u32) -> io::Result<(PathBuf, File)> {
        let mut options = OpenOptions::new();
        options.write(true).create_new(true).mode(mode);
        // (a few names, so that one which is killed leaves few files)
        let last = self.names + NAMES;
        loop {
            let beside = path.with_file_name(format!(".rignolda{}.new", self.names));
            self.names += 1;
            match options.open(&beside) {
                Err(error) if error.kind() == ErrorKind::AlreadyExists => {
                    match fs::remove_file(&beside) {
                        Ok(()) => return options.open(&beside).map(|it| (beside, it)),
                        // (a folder is somebody's)
                        Err(error) if self.names == last => return Err(error),
                        Err(_) => (),
                    }
                }
                file => return file.map(|it| (beside, it)),
            }
        }
    }

    /// Removes a file at once. [`Batch::commit`] waits until the disk knows.
    ///
    /// # Errors
    ///
    /// Where the system refuses it.
    pub fn remove(&mut self, path: &Path) -> io::Result<()> {
        fs::remove_file(path)?;
        self.folders.extend(path.parent().map(Path::to_owned));
        Ok(())
    }

    /// Waits until the disk has all, and moves them to their places: those that failed, which are
    /// as they were. Then it waits until the disk knows what moved, where a folder can be synced.
    /// The batch is empty then.
    #[must_use = "files may have failed"]
    pub fn commit(&mut self) -> Vec<(PathBuf, io::Error)> {
        let all = std::mem::take(&mut self.new);
        self.names = 0;
        let done = sync(&all);
        let mut failed = Vec::new();
        for (New { file, beside, path }, synced) in all.into_iter().zip(done) {
            // (who watches the folder sees one change of a file that comes to its place closed)
            drop(file);
            match synced.and_then(|()| fs::rename(&beside, &path)) {
                Ok(()) => self.folders.extend(path.parent().map(Path::to_owned)),
                Err(error) => {
                    let _ = fs::remove_file(&beside);
                    failed.push((path, error));
                }
            }
        }
        for folder in std::mem::take(&mut self.folders) {
            let _ = File::open(folder).and_then(|folder| folder.sync_all());
        }
        failed
    }
}

/// Waits until the disk has each of these files.
fn sync(all: &[New]) -> Vec<io::Result<()>> {
    let (first, others) = match all.split_first() {
        Some(split) => split,
        None => return Vec::new(),
    };
    let began = Instant::now();
    let mut done = vec![first.file.sync_all()];
    if others.is_empty() || began.elapsed() < QUICK {
        done.extend(others.iter().map(|new| new.file.sync_all()));
        return done;
    }
    thread::scope(|scope| {
        let start = |file| {
            let thread = thread::Builder::new().stack_size(STACK_BYTES);
            thread.spawn_scoped(scope, move || File::sync_all(file))
        };
        let threads: Vec<_> = others.iter().map(|new| start(&new.file)).collect();
        for (thread, new) in threads.into_iter().zip(others) {
            // (what no thread could be started for is done here)
            done.push(match thread.map(|thread| thread.join()) {
                Ok(Ok(synced)) => synced,
                _ => new.file.sync_all(),
            });
        }
    });
    done
}

/// Writes or removes files of a folder, which have their names as [people write](shown) them, and
/// waits until the disk has them: what came of each; an error names the file. No two are of one
/// key.
#[must_use = "files may have failed"]
pub fn write_folder(folder: &Path, entries: &[Kept]) -> Vec<io::Result<()>> {
    let mut batch = Batch::default();
    let mut write = |(key, value): &Kept| match value {
        Some(value) => batch.write(folder.join(&*shown(key)), value),
        None => batch.remove(&folder.join(&*shown(key))),
    };
    let done: Vec<_> = entries.iter().map(&mut write).collect();
    let failed = batch.commit();
    let done = entries.iter().zip(done).map(|((key, _), done)| {
        let path = folder.join(&*shown(key));
        let later = failed.iter().find(|(it, _)| *it == path);
        let error = done.as_ref().err().or(later.map(|(_, error)| error));
        error.map_or(Ok(()), |error| {
            let why = format!("{}: {}", path.display(), error);
            Err(io::Error::new(error.kind(), why))
        })
    });
    done.collect()
}

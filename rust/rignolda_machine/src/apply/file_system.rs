//! The steps that a system does with files. Their order, and what follows of answers, is decided
//! by [whoever keeps them](super::Keeper), and [for a root](crate::standby::Folders).
use super::Identity;
use crate::prelude::*;
use crate::root::Kept;
use crate::settings::Found;
use core::fmt::{Debug, Display};
use core::hash::BuildHasher;

/// A folder that is held open: what is done by its path is done in it, whatever comes to its place.
#[derive(Debug)]
pub struct Place<H> {
    pub held: H,
    pub at: String,
    pub is: Identity,
}

/// What is at a path. A link is neither a file nor a folder.
#[derive(Clone, Copy, Debug)]
pub struct Look {
    pub is_file: bool,
    pub is_folder: bool,
    /// Who may do what with it; and how many bytes it has.
    pub mode: u32,
    pub bytes: u64,
}

/// What is done at a path.
#[derive(Clone, Copy, Debug)]
pub enum Step<'a> {
    /// A new folder is made.
    Make,
    /// Its owner can use the folder; and all can list it that can read files of this mode.
    Mend,
    Lists(u32),
    /// This file takes the place of whatever is there.
    Take(&'a str),
    RemoveFile,
    /// It goes with all that is in it.
    RemoveFolder,
    /// This file of the folder is written in place, and on the disk; so is what was removed.
    Rewrite(&'a str, &'a str),
    Sync,
    /// What a root kept of what it published counts no more.
    ForgetRecord,
}

/// The steps of a system. Each may be the last one of its process. After a loss of power a file may
/// be as it was, unless a step says that it is on the disk.
pub trait FileSystem: Clone + Debug {
    /// What holds a folder open.
    type Held: Debug;
    /// A marker that is open, or none.
    type Marker: Debug + Default;
    /// Makes digests of bytes, of which nobody can foresee what they are.
    type Digest: BuildHasher + Clone + Debug + Default;
    type Error: Display;

    /// Whether something could not be done since nothing is there, or nobody may.
    fn is_missing(error: &Self::Error) -> bool;
    fn is_denied(error: &Self::Error) -> bool;
    fn because(why: String) -> Self::Error;

    /// The folder at a path; a link there is followed, unless it is to be there `itself`. And the
    /// one that is made there if there is none: anything else is moved aside.
    fn open(&self, path: &str, itself: bool) -> Result<Place<Self::Held>, Self::Error>;
    fn open_or_make(&self, path: &str) -> Result<Place<Self::Held>, Self::Error>;

    /// Whether this folder is at a path; a link there is followed.
    fn is_there(&self, path: &str, folder: Identity) -> bool {
        self.open(path, false).is_ok_and(|place| place.is == folder)
    }

    /// What is at a path.
    fn look(&self, path: &str) -> Result<Look, Self::Error>;
    /// The names in a folder, and whether each is one of a folder.
    fn list(&self, path: &str) -> Result<impl Iterator<Item = (String, bool)>, Self::Error>;
    /// The bytes of a plain file, which has so many at most; and whether it has these.
    fn read(&self, path: &str, most: usize) -> Result<Vec<u8>, Self::Error>;
    fn has(&self, path: &str, value: &[u8]) -> bool;
    /// The settings of a folder, of which each has the key that its name stands for.
    fn found(&self, path: &str, by: fn(&str) -> Option<String>) -> Result<Found, Self::Error>;
    /// Whether something is mounted on a folder, or in it.
    fn has_mount(&self, path: &str) -> bool;

    /// Does this.
    fn does(&self, path: &str, step: Step) -> Result<(), Self::Error>;
    /// A new file with these bytes, in place of whatever is there. Its mode is this one at most, or
    /// just this one, which is set unless it is known that a new file has it. Whether these bytes
    /// were read back, and the mode that the file had by itself.
    fn write(
        &self,
        path: &str,
        mode: u32,
        is_known: Option<bool>,
        bytes: &[u8],
    ) -> Result<(bool, u32), Self::Error>;
    /// What is there gets another name beside it: which one.
    fn moved_aside(&self, path: &str) -> Result<String, Self::Error>;

    /// What the marker at a path has: the one that is open, if it is still that.
    fn read_marker(&self, open: &mut Self::Marker, path: &str) -> Vec<u8>;
    /// Writes a marker in place: that which is open, else the one at the path, if it [is
    /// one](super::marker::is_text), or a new one; before these the folder is mended.
    fn write_marker(
        &self,
        open: &mut Self::Marker,
        path: &str,
        text: &str,
    ) -> Result<(), Self::Error>;

    /// Whether a file is that of the user of the process, or of root, alone.
    fn is_own(&self, path: &str) -> bool;
    /// Files of a folder have these bytes, or are gone, each whole and on the disk: what came of
    /// each, with its path.
    fn keep_all(&self, folder: &str, all: &[Kept]) -> Vec<Result<(), Self::Error>>;

    /// Removes whatever is at a path: a file, a folder with all that is in it, or nothing. A folder
    /// stays in which something is mounted, since that is somebody else's.
    fn remove(&self, path: &str) -> Result<(), Self::Error> {
        match self.look(path) {
            Ok(is) if !is.is_folder => self.unlink(path),
            Ok(_) if self.has_mount(path) => {
                Err(Self::because("something is mounted in its place".into()))
            }
            Ok(_) => self.does(path, Step::RemoveFolder),
            Err(error) if Self::is_missing(&error) => Ok(()),
            Err(error) => Err(error),
        }
    }

    /// Removes a file, where one is there. A folder stays.
    fn unlink(&self, path: &str) -> Result<(), Self::Error> {
        let done = match self.look(path) {
            Ok(is) if is.is_folder => Ok(()),
            Ok(_) => self.does(path, Step::RemoveFile),
            Err(error) => Err(error),
        };
        done.or_else(|error| if Self::is_missing(&error) { Ok(()) } else { Err(error) })
    }
}

//! The marker: the file that says of a folder that it is an agent's, and up to which number its
//! files are.
use super::{FileSystem, Folder, MARKER};
use crate::prelude::*;
use crate::settings::proved::may_mark;

/// How many bytes it has: all digits that a number may have, and the end of the line. So whoever is
/// ended while it is written in place leaves a whole one, and a full disk is no hindrance.
pub const BYTES: usize = 21;

/// What a file has that keeps this number.
pub fn text(number: u64) -> String {
    format!("{number:0digits$}\n", digits = BYTES - 1)
}

/// Whether these are bytes of such a file, or of an empty one. (What somebody moved or linked to
/// its place may be the only copy, or be in use at another place.)
pub fn is_text(bytes: &[u8]) -> bool {
    let is_digit = |it: &u8| it.is_ascii_digit() || *it == b'\n';
    bytes.is_empty() || bytes.len() == BYTES && bytes.iter().all(is_digit)
}

/// The number that these bytes are; 0 where they are none.
fn number(bytes: Vec<u8>) -> u64 {
    let text = String::from_utf8(bytes).ok();
    text.and_then(|it| it.trim_end().parse().ok()).unwrap_or(0)
}

/// The number in this file; 0 where there is none.
pub fn read<S: FileSystem>(system: &S, path: &str) -> u64 {
    system.read(path, BYTES).map_or(0, number)
}

/// Writes a number to the marker of a folder, whatever is in its place or is wrong with the folder.
///
/// A newer number stays there, and is returned: then nothing is done. It is read anew each time,
/// since the disk may be that of a later time than the memory.
pub fn write<S: FileSystem>(
    system: &S,
    open: &mut S::Marker,
    folder: &Folder<S>,
    floor: u64,
) -> Result<Option<u64>, S::Error> {
    let (path, text) = (folder.file(MARKER), text(floor));
    let is = number(system.read_marker(open, &path));
    if !may_mark(is, floor) {
        return Ok(Some(is));
    }
    system.write_marker(open, &path, &text).map(|()| None)
}

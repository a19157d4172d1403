//! What became of settings.
use crate::prelude::*;
use core::fmt;

/// What was done about a setting.
#[derive(Clone, Debug, PartialEq)]
pub struct Applied {
    pub key: String,
    /// The sequence number that the change was published with.
    pub sequence: u64,
    pub status: Outcome,
}

#[derive(Clone, Debug, PartialEq)]
pub enum Outcome {
    /// The file is as it should be, and there is no hook, or it ended well.
    Done,
    /// The file could not be written or removed.
    File(String),
    /// The hook failed, with this status.
    Hook(String),
}

impl fmt::Display for Outcome {
    fn fmt(&self, f: &mut fmt::Formatter<'_>) -> fmt::Result {
        match self {
            Outcome::Done => f.write_str("done"),
            Outcome::File(why) => write!(f, "its file: {why}"),
            Outcome::Hook(why) => write!(f, "its hook: {why}"),
        }
    }
}

/// What an agent finds of what an earlier life applied: the number of its files, the settings as
/// they were published, and the keys of which hooks are due.
#[derive(Clone, Debug, Default)]
pub struct Found {
    pub floor: u64,
    pub settings: BTreeMap<String, Vec<u8>>,
    pub due: BTreeSet<String>,
}

rignolda::spoils! { Applied { key, sequence, status } }
rignolda::spoils_one_of! { Outcome { Done } File(why), Hook(why) }

//! What a root has its disk do, and what came of it.
use super::Record;
use crate::prelude::*;
use crate::settings::{Faults, Found};
use crate::Refused;

/// The key of a file, and the bytes that it is to have; or none, where it is to be removed.
pub type Kept = (String, Option<Vec<u8>>);

/// What is to be done. One comes after the other.
#[derive(Debug, PartialEq, Eq)]
pub enum Job {
    /// To read all settings.
    Read,
    /// To read what changed.
    Changed,
    /// To write these files, or to remove them.
    Write(Vec<Kept>),
    /// To give this key's file, which is for a group, the place of the one for all.
    Promote(String),
    /// To read what an earlier life published.
    Recall,
    /// To keep what is published.
    Keep(String),
}

/// What was done.
#[derive(Debug)]
pub enum Done {
    Read(Result<Found, Empty>),
    /// These alone changed.
    Keys(Vec<Kept>),
    /// And whether `others` have changed something meanwhile.
    Written {
        all: Vec<Written>,
        others: bool,
    },
    Recalled(Option<Record>),
    /// And why it cannot be.
    Kept(Result<(), String>),
}

/// A change, and why it was not done.
pub type Written = (Kept, Result<(), Refused>);

/// Why there are no settings.
#[derive(Debug)]
pub struct Empty {
    pub why: String,
    /// Whether the folder is there, and has none; and whether the first one may be published: it is
    /// empty and the agent's own.
    pub has_none: bool,
    pub is_new: bool,
    pub faults: Faults,
}

rignolda::spoils_one_of! { Job { Read, Changed, Recall } Write(all), Promote(key), Keep(text) }

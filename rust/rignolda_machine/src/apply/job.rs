//! What [the applier](super::Applier) has its workers do, and what they answer.
use super::{Applied, Hook, Outcome};
use crate::config::Apply;
use crate::prelude::*;
use crate::settings::{Change, Waiting};
use crate::Fact;

/// What tells a folder from another one at its place, as whoever keeps files knows it.
#[derive(Clone, Copy, Debug, PartialEq, Eq)]
pub struct Identity(pub [u64; 4]);

/// A job, by the configuration of now, and where this folder is the agent's own.
#[derive(Debug)]
pub struct Job {
    pub what: What,
    pub config: Arc<Apply>,
    pub taken: Option<Identity>,
}

#[derive(Debug)]
pub enum What {
    /// Files: to open the folder, and to say there up to which number they are about to be.
    Mark(Mark),
    /// To make some of them what they should be; and where these are the last ones, all else.
    Keep(Vec<(String, Change)>, bool),
    /// To leave nothing open, since nothing came for a while.
    Rest,
    /// Hooks: to tell one of a change, unless the files are from a later body than this number.
    One(String, Change, u64),
    /// To tell one of keys that changed together, of which the last has this number.
    Many(Hook, BTreeSet<String>, u64),
    /// To take back that hooks of these keys are due.
    Settle(Vec<String>),
}

/// What is to be kept, and how.
#[derive(Debug)]
pub struct Mark {
    pub files: Waiting,
    pub floor: u64,
    /// Whether all files are looked at; and whether what is known of them is forgotten first.
    pub looks: bool,
    pub forgets: bool,
    /// Why nothing is to be kept, if the folder itself is no reason.
    pub lacks: Option<Outcome>,
    /// Whether the files may be kept at once then, since they are few.
    pub goes_on: bool,
}

/// What came of a job.
#[derive(Debug)]
pub enum Done {
    /// These files are to be kept in this folder.
    Marked(Waiting, Option<Identity>),
    Refused(Outcome),
    /// The files are from a later body, of this number.
    Later(u64),
    Kept(Vec<Kept>, Option<Ended>),
    /// This folder is marked, and all files were kept there at once.
    KeptAtOnce(Option<Identity>, Vec<Kept>, Ended),
    Rested(Option<Fact>),
    Ran(Result<(), String>),
    /// The hook was not told of this change: the files are from a body of this number.
    Newer(u64, Change),
    Settled,
}

/// What a file came to be.
#[derive(Debug)]
pub struct Kept {
    pub key: String,
    pub change: Change,
    /// Whether its value is the one that was put last; and whether the file was not so.
    pub put: bool,
    pub differs: bool,
    pub done: Result<(), String>,
}

/// What the folder is once all files were kept.
#[derive(Debug)]
pub struct Ended {
    pub is: Option<Identity>,
    /// The digest of the files, as far as they were looked at; and that of all, if it is known.
    pub sum: u64,
    pub whole: Option<String>,
    /// What came of values as they are published, and what there is to be said.
    pub grouped: Vec<Applied>,
    pub facts: Vec<Fact>,
}

rignolda::spoils! { Identity { 0 } }

//! What an agent that may be promoted has done in its folders, and what came of it.
use crate::control::Standby as Role;
use crate::prelude::*;
use crate::{Fact, Refused};

/// What is to be done in the folders. One comes after the other.
#[derive(Debug, PartialEq, Eq)]
pub enum Job {
    /// To say that it is the root of this rank, after a copy of what it applied, where one is
    /// wanted, with this digest, or the one that is noted.
    Promote { rank: u64, copies: bool, digest: Option<String> },
    /// To say that it is none, and does not stand by.
    Demote,
    /// To say that it stands by.
    StandBy,
    /// To note the digest of what it applied.
    Note(String),
    /// To note up to which number it may publish.
    Reserve(u64),
}

/// What was done.
#[derive(Debug)]
pub enum Done {
    /// And what it has applied.
    Promoted(u64, Result<BTreeMap<String, Vec<u8>>, Refused>),
    Demoted(Result<(), String>),
    StandsBy(Result<(), String>),
    Noted,
    Reserved(u64),
}

/// What its folders say at a start.
#[derive(Debug)]
pub struct Begun {
    pub role: Role,
    pub rank: u64,
    /// The digest of the last whole table that was applied, if there is one.
    pub noted: Option<String>,
    /// Up to which number it may have published in earlier lives, if that is known.
    pub may: Option<u64>,
    /// What is wrong with the file that says that it is the root.
    pub fact: Option<Fact>,
}

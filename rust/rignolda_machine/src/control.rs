//! What operators ask an agent for, and what it answers.
//!
//! Over its Unix socket a request is one line of JSON, and so is its answer; a connection may carry
//! one after the other.
use crate::prelude::*;
use serde::{Deserialize, Serialize};

mod forms;
mod seen;
mod status;

use forms::{digits, hexadecimal};
pub use forms::{dotted, sound};
pub use seen::{report, Compared, Seen, SOON, WHY};
pub use status::{ChildStatus, Status};

#[derive(Clone, Debug, Deserialize, PartialEq, Serialize)]
#[serde(tag = "do", rename_all = "kebab-case", deny_unknown_fields)]
pub enum Request {
    /// At the root: writes a setting's file, and publishes it.
    Publish {
        key: String,
        #[serde(with = "hexadecimal")]
        value: Vec<u8>,
    },
    /// At the root: removes a setting's file, and publishes that.
    Unset {
        key: String,
    },
    /// Whether anybody answers: by this an agent looks whether it can be asked.
    Ping,
    /// This agent.
    Status,
    /// This agent, and all that is known of the agents below it.
    Tree,
    /// Where it may be promoted: makes the agent the root, with what it has applied, or with what
    /// its root's folder has as it is; and an agent as any other.
    Promote {
        #[serde(default)]
        as_is: bool,
    },
    Demote,
    /// At the root: publishes nothing more until `Resume`.
    Drain,
    Resume,
    ChildAdd {
        name: String,
    },
    ChildRemove {
        name: String,
    },
    /// Leaves an agent that is gone for good out of what is known below this one, until it is back.
    Forget {
        name: String,
    },
    /// At the root: a round now. It is answered with the number of its table, once that is
    /// published: who has applied that has looked at all its files since it was asked for.
    Round,
    /// At the root: looks at the settings' folder, and answers when all that it saw is published.
    Look,
    /// At the root: looks at the settings' folder, and says what of it is not published.
    Diff,
    /// At the root: publishes what is held, with this [digest](Diff) where it is not empty.
    Confirm {
        #[serde(default)]
        digest: String,
    },
    /// At the root: makes the value of a key for a group the one for all, by one change.
    PromoteValue {
        key: String,
    },
    /// At the root: what it published of a key.
    Key {
        key: String,
    },
}

#[derive(Clone, Debug, Deserialize, PartialEq, Serialize)]
#[serde(rename_all = "kebab-case")]
pub enum Response {
    Done,
    /// It is done, and this is to be said of it.
    Said(String),
    /// What was asked for is published with this sequence number.
    Published(u64),
    Status(Box<Status>),
    /// The agent itself first, and each agent after its parent.
    Tree(Vec<Seen>),
    /// What was published of a key.
    Key(Keys),
    /// What of the settings' folder is not published.
    Diff(Diff),
    Refused(String),
}

/// What of the root's folder is not published yet.
#[derive(Clone, Debug, Default, Deserialize, PartialEq, Serialize)]
pub struct Diff {
    /// Why it is held until it is confirmed; empty where it is not.
    pub held: String,
    /// The SHA-256 of the changes in [hexadecimal digits](crate::sha::is_sha256), by which they are
    /// confirmed; empty where there are none.
    pub digest: String,
    pub changes: Vec<Difference>,
}

/// A setting that would be set, to so many bytes; or be unset, where there is no number.
#[derive(Clone, Debug, Default, Deserialize, PartialEq, Serialize)]
pub struct Difference {
    pub key: String,
    pub bytes: Option<u64>,
}

/// What a root published of a key: of its value for all agents, and of those for groups.
#[derive(Clone, Debug, Default, Deserialize, PartialEq, Serialize)]
pub struct Keys {
    pub all: Key,
    pub groups: BTreeMap<String, Key>,
    /// The number since which no other group has one, at the latest.
    pub since: u64,
}

/// What a root published of a value, as [digests](crate::sha::of_setting).
#[derive(Clone, Debug, Default, Deserialize, PartialEq, Serialize)]
pub struct Key {
    /// That of its value; 0 where it is unset.
    #[serde(with = "digits")]
    pub digest: u64,
    /// The number since which it is that, at the latest.
    pub number: u64,
    /// What it was before, and since when. That is not known where the number is 0.
    #[serde(with = "digits")]
    pub old: u64,
    pub old_number: u64,
}

/// What an agent is that may be promoted.
#[derive(Clone, Copy, Debug, Default, Deserialize, Eq, PartialEq, Serialize)]
#[serde(rename_all = "kebab-case")]
pub enum Standby {
    /// It is none of these.
    #[default]
    No,
    /// An agent as any other.
    Below,
    /// The same, since it has found another root.
    StandsBy,
    /// The root, before it publishes anything: it looks for another one.
    Looks,
    /// The root.
    Root,
}

rignolda::spoils! { Diff { held, digest, changes } }
rignolda::spoils! { Difference { key, bytes } }
rignolda::spoils! { Key { digest, number, old, old_number } }
rignolda::spoils! { Keys { all, groups, since } }
rignolda::spoils_one_of! { Standby { No, Below, StandsBy, Looks, Root } }

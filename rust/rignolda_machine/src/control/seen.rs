//! What is known of an agent further above.
use super::forms::{digits, dotted, is_zero, sound};
use crate::prelude::*;
use serde::{Deserialize, Serialize};
use serde_json::Value;

/// How much of why something failed goes into a report, in characters.
pub const WHY: usize = 120;

/// How many seconds before a certificate expires it is told.
pub const SOON: u64 = 30 * 86_400;

/// An agent, as an agent above it knows it.
#[derive(Clone, Debug, Default, Deserialize, PartialEq, Serialize)]
#[serde(default)]
pub struct Seen {
    pub name: String,
    pub parent: String,
    /// The place of that in its list of parents, from 0; and how many parents it may have.
    pub place: u32,
    #[serde(skip_serializing_if = "is_zero")]
    pub parents: u32,
    /// Whether its parent has a connection with it. Where not, the rest is as it was last.
    #[serde(serialize_with = "sound::serialize")]
    pub connected: bool,
    pub sequence: u64,
    /// The last number up to which all is applied; 0 where it is not known that anything is.
    pub applied: u64,
    /// Whether it keeps files of settings, up to which number they are what bodies said, and their
    /// digest; and, where the root shows it, whether that is the digest of what it published.
    #[serde(serialize_with = "sound::serialize")]
    pub applies: bool,
    pub files: u64,
    #[serde(with = "digits")]
    pub digest: u64,
    pub compared: Compared,
    /// The groups whose values count for it, the first one's most.
    pub groups: Vec<String>,
    /// The number that is furthest ahead, of its own, that of its files, and those that connected
    /// agents below say: the root goes on above it.
    pub ahead: u64,
    /// The number of the last body that changed something.
    pub changed: u64,
    pub round: u64,
    #[serde(serialize_with = "sound::serialize")]
    pub whole: bool,
    #[serde(serialize_with = "sound::serialize")]
    pub draining: bool,
    /// Whether it may be promoted; or was the root, and stands by for another one.
    #[serde(serialize_with = "sound::serialize")]
    pub standby: bool,
    #[serde(serialize_with = "sound::serialize")]
    pub stands_by: bool,
    /// The longest backlog for a child of it, and the limit of each.
    pub backlog: u64,
    pub limit: u64,
    pub harmless: u64,
    #[serde(serialize_with = "sound::serialize")]
    pub inner: bool,
    pub strays: u64,
    pub garbage: u64,
    pub gaps: u64,
    /// Settings whose file or hook failed last, the first of them with its why, or where there is
    /// none that of a parent which refuses it; and files that were changed and put again.
    pub failing: u64,
    pub why: String,
    pub mended: u64,
    /// Its program's; 0 where that does not say it.
    #[serde(with = "dotted")]
    pub version: u32,
    /// When its certificate expires, in seconds since 1970, where that is [`SOON`].
    #[serde(skip_serializing_if = "is_zero")]
    pub expires: u32,
    /// Whether agents below it are left out, since the list was too long.
    #[serde(serialize_with = "sound::serialize")]
    pub cut: bool,
    /// How many milliseconds ago it said so.
    pub age: u64,
}

impl Seen {
    /// Each bool is [true or false](sound::is) from now on.
    pub fn settles(&mut self) {
        let Seen { connected, applies, whole, draining, standby, stands_by, inner, cut, .. } = self;
        let bools = [connected, applies, whole, draining, standby, stands_by, inner, cut];
        bools.into_iter().for_each(|it| *it = sound::is(*it));
    }

    /// Whether it has said anything of itself since its parent began. (Each agent has a limit.)
    pub fn is_heard(&self) -> bool {
        self.limit > 0 || self.sequence > 0
    }
}

/// What the root knows of an agent's files.
#[derive(Clone, Copy, Debug, Default, Deserialize, Eq, PartialEq, Serialize)]
#[serde(rename_all = "kebab-case")]
pub enum Compared {
    /// Nothing is compared: the agent keeps none, or it is not the root that shows it.
    #[default]
    Nothing,
    /// They have the digest of what was published up to the number that they are from.
    Same,
    /// They have another one.
    Differs,
    /// It has not heard from which number they are, or does not remember the digest of that.
    NotKnown,
}

/// A list as an agent sends it up: as JSON without what is 0, false or empty, since whoever reads
/// it takes what is lacking for that, and reports have little room. Nothing is compared in one.
pub fn report(list: &[Seen]) -> Vec<u8> {
    let is_nothing = |value: &Value| match value {
        Value::Bool(it) => !it,
        Value::Number(it) => it.as_u64() == Some(0),
        Value::String(it) => it.is_empty(),
        Value::Array(it) => it.is_empty(),
        _ => false,
    };
    let entry = |seen: &Seen| {
        let mut entry = serde_json::to_value(seen).expect("texts and numbers are JSON");
        let members = entry.as_object_mut().expect("an agent has names for what is known of it");
        members.retain(|name, value| name != "compared" && !is_nothing(value));
        entry
    };
    serde_json::to_vec(&list.iter().map(entry).collect::<Vec<_>>()).expect("all of it is JSON")
}

rignolda::spoils! { Seen {
    name, parent, place, parents, connected, sequence, applied, applies, files, digest, compared,
    groups, ahead, changed, round, whole, draining, standby, stands_by, backlog, limit, harmless,
    inner, strays, garbage, gaps, failing, why, mended, version, expires, cut, age
} }
rignolda::spoils_one_of! { Compared { Nothing, Same, Differs, NotKnown } }

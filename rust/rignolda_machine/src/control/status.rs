//! What an agent says of itself.
use super::forms::{digits, dotted, sound};
use super::{Compared, Seen, Standby, SOON, WHY};
use crate::prelude::*;
use serde::{Deserialize, Serialize};

/// An agent, as it is now. Counts are since its start.
#[derive(Clone, Debug, Default, Deserialize, PartialEq, Serialize)]
#[serde(default)]
pub struct Status {
    pub name: String,
    #[serde(serialize_with = "sound::serialize")]
    pub is_root: bool,
    /// What it is where it may be promoted; and the other root that it has found, for which it
    /// stands by, where that is known.
    pub standby: Standby,
    pub other_root: String,
    /// Its program's.
    pub version: String,
    /// The parent that it is connected to, and its place in the list of parents, from 0; how many
    /// there are in that; and why none could be connected to last.
    pub parent: Option<String>,
    pub place: u32,
    pub parents: u32,
    pub no_parent: String,
    /// The parents that refuse it, each with its why.
    pub refusals: Vec<String>,
    /// What its way costs, 128 and more without a root; and whose names lie on it, its own last.
    pub cost: u16,
    pub way: Vec<String>,
    /// For how many seconds it has been connected to its parent.
    pub connected_since: u64,
    /// The sequence number of the last body that came, or was published.
    pub sequence: u64,
    /// That of the last body which was applied, its hooks included.
    /// While a table that may bring older changes is lacking, or is not applied, it is 0.
    pub applied: u64,
    /// Whether it keeps files of settings; the number up to which they are what bodies said, or 0;
    /// and the digest that they had when they were written, or looked at in a round.
    #[serde(serialize_with = "sound::serialize")]
    pub applies: bool,
    pub files: u64,
    #[serde(with = "digits")]
    pub digest: u64,
    /// Where these files are, and of which groups the agent is.
    pub folder: String,
    pub groups: Vec<String>,
    /// How many of them somebody else had changed and were put again.
    pub mended: u64,
    /// The number that is furthest ahead, of its own, that of its files, and those that connected
    /// agents below say.
    pub ahead: u64,
    /// That of the last body which changed something.
    pub changed: u64,
    /// That of the last whole table which was applied.
    pub round: u64,
    /// How many milliseconds ago that was.
    pub round_age: u64,
    /// Whether nothing is known to be missing: a whole table came, and no gap since.
    #[serde(serialize_with = "sound::serialize")]
    pub whole: bool,
    /// How many settings there are.
    pub settings: u64,
    #[serde(serialize_with = "sound::serialize")]
    pub draining: bool,
    /// At the root: of how many settings a change of the folder waits until it is confirmed.
    pub held: u64,
    /// At the root: how many harmless items a round begins with now.
    pub harmless: u64,
    /// The limit of the backlog for each child.
    pub limit: u64,
    pub received: u64,
    /// Bodies that were older than the last one, and not applied.
    pub strays: u64,
    /// Bodies that did not fit their items, or have no meaning.
    pub garbage: u64,
    pub gaps: u64,
    /// Reports of children that were none.
    pub bad_reports: u64,
    pub old_frames: u64,
    pub reconnects: u64,
    /// Connections that were refused: a hello that was bad, late, or of an unknown name.
    pub refused: u64,
    /// Who was refused last, and why.
    pub last_refused: String,
    pub hook_failures: u64,
    /// Settings whose file or hook failed last; and the first of these with their whys.
    pub failing: u64,
    pub failures: Vec<String>,
    /// At the root: what of its folder cannot be published, and the first of these with their whys.
    pub unpublished: u64,
    pub faults: Vec<String>,
    /// At the root: how many agents are known, itself with them; how many of them are children of
    /// agents and connected nowhere; and how many have other settings in their files.
    pub agents: u64,
    pub away: u64,
    pub differing: u64,
    pub children: Vec<ChildStatus>,
    /// What was not taken at the last reload, and why; empty where all was.
    pub reload_failed: String,
    /// When its own certificate expires, in seconds since 1970; 0 without TLS.
    pub certificate_expires: u64,
    /// When all that was so, in seconds since 1970.
    #[serde(skip)]
    pub unix: u64,
}

/// A child, as its parent sees it.
#[derive(Clone, Debug, Default, Deserialize, PartialEq, Serialize)]
#[serde(default)]
pub struct ChildStatus {
    pub name: String,
    #[serde(serialize_with = "sound::serialize")]
    pub connected: bool,
    /// For how many milliseconds it has been connected, or away.
    pub since: u64,
    pub backlog: u64,
    /// For how many milliseconds its sender has had its item; 0 where it has none.
    pub oldest: u64,
    /// Whether what it needs next was forgotten: it begins anew when it is back.
    #[serde(serialize_with = "sound::serialize")]
    pub left_behind: bool,
    pub reconnects: u64,
    pub acknowledged: u64,
    pub ignored: u64,
    pub timeouts: u64,
    /// How often a process came back that another one of its name had replaced.
    pub clashes: u64,
}

impl Status {
    /// Whether its way is none from a root.
    pub fn is_rootless(&self) -> bool {
        self.cost >= crate::net::parents::NONE
    }

    /// What the agents above learn of this one.
    pub fn seen(&self) -> Seen {
        let why = self.failures.first().or_else(|| self.refusals.first());
        Seen {
            name: self.name.clone(),
            parent: self.parent.clone().unwrap_or_default(),
            place: self.place,
            parents: self.parents,
            connected: true,
            sequence: self.sequence,
            applied: self.applied,
            applies: self.applies,
            files: self.files,
            digest: self.digest,
            groups: self.groups.clone(),
            compared: Compared::Nothing,
            ahead: self.ahead,
            changed: self.changed,
            round: self.round,
            whole: self.whole,
            draining: self.draining,
            standby: self.standby == Standby::Below,
            stands_by: self.standby == Standby::StandsBy,
            backlog: self.children.iter().map(|child| child.backlog).max().unwrap_or(0),
            limit: self.limit,
            harmless: self.harmless,
            inner: !self.children.is_empty(),
            strays: self.strays,
            garbage: self.garbage,
            gaps: self.gaps,
            failing: self.failing,
            why: why.map_or(String::new(), |it| it.chars().take(WHY).collect()),
            mended: self.mended,
            version: dotted::read(&self.version),
            expires: u32::try_from(self.certificate_expires)
                .ok()
                .filter(|at| u64::from(*at) < self.unix + SOON)
                .unwrap_or(0),
            cut: false,
            age: 0,
        }
    }
}

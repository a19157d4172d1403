//! What is known of the agents of a tree: who lacks a change, how deep they are, and bounds.
use crate::{harmless_for, Compared, Seen};
use rignolda_machine::first_of;
use rignolda_machine::settings::is_newer;
use serde::Serialize;
use std::collections::BTreeMap;

/// What is said of an agent below which some are not known.
pub const CUT: &str = "has more agents below it than it can report";
/// What is said of one that may be of any group.
pub const NOT_HEARD: &str = "has not said yet of which groups it is";

/// Whether an agent is of a group, as far as is known: one that has said nothing may be.
pub fn is_of(seen: &Seen, group: &str) -> Option<bool> {
    let is = seen.groups.iter().any(|it| it == group);
    (is || seen.is_heard()).then_some(is)
}

/// Why an agent of a group, or who may be, has not all up to a sequence number.
pub fn lacks_of(agent: &Seen, group: &str, sequence: u64) -> Option<&'static str> {
    match is_of(agent, group) {
        None => Some(NOT_HEARD),
        Some(true) => lacks(agent, sequence),
        // (below one that is cut there may be some)
        Some(false) => Some(CUT).filter(|_| agent.cut),
    }
}

/// Why an agent has not all up to a sequence number; nothing where it has.
pub fn lacks(agent: &Seen, sequence: u64) -> Option<&'static str> {
    first_of([
        (!agent.connected, "is not connected"),
        (agent.failing > 0, "has a file or a hook that failed"),
        (!agent.whole, "waits for a whole table"),
        (is_newer(sequence, agent.applied), "has not applied it"),
        (agent.compared == Compared::Differs, "has other settings in its files"),
        (agent.compared == Compared::NotKnown, "has not said what its files are"),
        (agent.cut, CUT),
    ])
}

/// How deep each agent of a list is, the first one being at 0.
pub fn depths(list: &[Seen]) -> Vec<usize> {
    let mut by_name: BTreeMap<&str, usize> = BTreeMap::new();
    list.iter()
        .enumerate()
        .map(|(at, seen)| {
            let parent = by_name.get(seen.parent.as_str()).copied();
            let depth = if at == 0 { 0 } else { parent.map_or(1, |depth| depth + 1) };
            by_name.insert(&seen.name, depth);
            depth
        })
        .collect()
}

/// The bounds of an agent at a depth, where each link is over connections: its capacity is 1.
#[derive(Debug, PartialEq, Serialize)]
pub struct Bounds {
    pub name: String,
    pub depth: u64,
    /// At most C + E bodies that nobody published come first: those of the lines, and backlogs.
    #[serde(rename = "C")]
    pub c: u64,
    #[serde(rename = "E")]
    pub e: u64,
    /// Only some of M published ones can be missing, and by the sharper bound of N.
    #[serde(rename = "M")]
    pub m: u64,
    #[serde(rename = "N")]
    pub n: u64,
}

/// The bounds of each agent of a list that begins with the root.
pub fn bounds(list: &[Seen]) -> Vec<Bounds> {
    let mut above: BTreeMap<&str, u64> = BTreeMap::new();
    let depths = depths(list);
    list.iter()
        .zip(depths)
        .enumerate()
        .map(|(at, (seen, depth))| {
            // (what an inner agent keeps for a child, and the item that its sender is holding)
            let own = if at > 0 && seen.inner { seen.limit.saturating_add(1) } else { 0 };
            let e = above.get(seen.parent.as_str()).copied().unwrap_or(0).saturating_add(own);
            above.insert(&seen.name, e);
            let depth = depth as u64;
            let n = if depth == 0 { 0 } else { 2 * depth + 1 };
            Bounds { name: seen.name.clone(), depth, c: depth, e, m: 3 * depth, n }
        })
        .collect()
}

/// How many harmless items a round needs for these agents.
pub fn harmless_needed(list: &[Seen]) -> u64 {
    depths(list).into_iter().max().map_or(0, |depth| harmless_for(depth as u32).into())
}

/// What is wrong with the number of harmless items that the root is set up with, if something is.
pub fn too_few_harmless(list: &[Seen]) -> Option<String> {
    let (has, needs) = (list.first()?.harmless, harmless_needed(list));
    let deepest = bounds(list).into_iter().max_by_key(|bounds| bounds.depth)?.name;
    (has < needs).then(|| {
        format!(
            "a round begins with {has} harmless items (root.harmless, link.backlog), and a tree \
             so deep as at {deepest} needs {needs}: an agent that restarts can need more than one"
        )
    })
}

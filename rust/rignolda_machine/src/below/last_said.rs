//! What a child said last that is not connected: nobody says it anew, so it lies apart, as the
//! bytes of a report with a digest. What a fault of the machine's memory does to it is found
//! whenever it is read, and then it is as if the child had said nothing.
use crate::control::{self, Seen};
use crate::prelude::*;
use crate::{Sha256, Time};

/// The most bytes that a report has here, also where each of a name takes six.
const BYTES: usize = 32 << 20;

/// Bytes, and their digest.
#[derive(Debug)]
struct Proved {
    bytes: Box<[u8]>,
    digest: [u8; 32],
}

impl Proved {
    fn new(bytes: Vec<u8>, sha: Sha256) -> Proved {
        Proved { digest: sha(&[&bytes]), bytes: bytes.into() }
    }

    /// The bytes, if they are as they were.
    fn bytes(&self, sha: Sha256) -> Option<&[u8]> {
        let is_same = self.bytes.len() <= BYTES && sha(&[&self.bytes]) == self.digest;
        is_same.then_some(&self.bytes)
    }
}

#[derive(Debug)]
pub struct LastSaid {
    /// When it came.
    pub at: Time,
    /// How many agents it names, and how deep the deepest one is below who keeps this. (No digest
    /// is of them: each has a bound where it counts.)
    pub agents: u32,
    pub depth: u32,
    report: Proved,
    /// Of which groups they are, each kind once, since that is asked for more often.
    groups: Proved,
}

impl LastSaid {
    /// Keeps a list that came then.
    pub fn new(list: &[Seen], depth: u32, sha: Sha256, at: Time) -> LastSaid {
        let groups: BTreeSet<&[String]> = list.iter().map(|seen| &seen.groups[..]).collect();
        let groups = Proved::new(serde_json::to_vec(&groups).expect("texts are JSON"), sha);
        let report = Proved::new(control::report(list), sha);
        LastSaid { at, agents: list.len() as u32, depth, report, groups }
    }

    /// The list, if it is as it was.
    pub fn list(&self, sha: Sha256) -> Option<Vec<Seen>> {
        let list: Option<Vec<Seen>> = serde_json::from_slice(self.report.bytes(sha)?).ok();
        list.filter(|list| !list.is_empty())
    }

    /// Of which groups agents in it are, each kind once.
    pub fn groups(&self, sha: Sha256) -> Vec<Vec<String>> {
        let groups = self.groups.bytes(sha).and_then(|it| serde_json::from_slice(it).ok());
        groups.unwrap_or_default()
    }
}

rignolda::spoils! { Proved { bytes, digest } }
rignolda::spoils! { LastSaid { at, agents, depth, report, groups } }

//! What an agent is set up with, as far as it decides by that.
use crate::apply::Hook;
use crate::net::{Address, Setup};
use crate::prelude::*;
use crate::settings::harmless_for;
use core::time::Duration;

/// The most groups that an agent is of.
pub const GROUPS: usize = 16;
/// How deep a tree is taken to be while that is not known.
pub const DEEP: u32 = 10;

/// What an agent is set up with.
#[derive(Clone, Debug, PartialEq)]
pub struct Config {
    pub peers: Setup<Address>,
    /// Whether anybody can connect to it.
    pub listens: bool,
    /// The room of the list: a child that is more items behind is left behind, and begins anew.
    pub backlog: u64,
    pub root: Option<Root>,
    pub apply: Option<Apply>,
}

/// What the root alone has.
#[derive(Clone, Debug, PartialEq)]
pub struct Root {
    /// A folder with a file for each setting: the truth.
    pub settings: String,
    /// Whether it is an agent as any other until it is promoted.
    pub standby: bool,
    pub round: Duration,
    /// How many harmless items a round begins with: so many, or those that the tree needs.
    pub harmless: Option<u32>,
    /// Whether each change of the folder waits until it is confirmed; and how many settings it may
    /// unset without that: half of them where there is no number.
    pub hold: bool,
    pub unsets: Option<usize>,
}

impl Root {
    /// How many harmless items a round begins with in a tree that is said to be this deep: no more
    /// than after a start, since any agent can say that many are below it. A deeper one is set up.
    pub fn harmless(&self, depth: u32) -> u32 {
        self.harmless.unwrap_or(harmless_for(depth.min(DEEP)))
    }
}

/// What an agent has that keeps files of settings.
#[derive(Clone, Debug, Default, PartialEq)]
pub struct Apply {
    pub folder: String,
    /// Whether the folder is taken whatever it has.
    pub take: bool,
    /// The permissions of a setting's file.
    pub mode: u32,
    /// Whose values count before those for all agents, the first one's most.
    pub groups: Vec<String>,
    pub hook: Option<String>,
    pub hook_timeout: Duration,
    /// The hooks that have one run for many keys, in the order of the file.
    pub hooks: Vec<Hook>,
    /// Whether what is applied may be promoted.
    pub may_be_root: bool,
}

rignolda::spoils! { Config { peers, backlog, root, apply } }
rignolda::spoils! { Root { settings, standby, round, harmless, hold, unsets } }
rignolda::spoils! { Apply {
folder, take, mode, groups, hook, hook_timeout, hooks, may_be_root } copied Apply::clone }

//! What an agent asks of a store that it reaches in place of other agents, where links may lie.
//!
//! How they lie there, and which law such a link has, the module says that handles them: each agent
//! sets its own keys and gets those of its parent and its children.
use crate::prelude::*;

/// What an agent asks of a store at once: all is set or nothing, and then it is got.
///
/// Each set and each get of a store takes effect at one moment. Once a turn of an agent was done,
/// no set of an earlier one of that agent, which failed or was another process's, may be done any
/// more.
#[derive(Clone, Debug, Default, PartialEq, Eq)]
pub struct Turn {
    /// Keys, and what they are set to.
    pub sets: Vec<(String, Vec<u8>)>,
    /// Keys that are got then, and how many bytes of each at most, from its front.
    pub gets: Vec<(String, usize)>,
}

//! What an agent lacks that is to be the root.
use crate::prelude::*;
use core::fmt;

/// Who has which change, and after which number an agent has none.
#[derive(Clone, Debug, PartialEq, Eq)]
pub struct Lacks {
    pub who: String,
    pub change: u64,
    pub own: u64,
}

impl fmt::Display for Lacks {
    fn fmt(&self, to: &mut fmt::Formatter<'_>) -> fmt::Result {
        let Lacks { who, change, own } = self;
        write!(to, "{who} has change {change}, and this agent has none after {own}")
    }
}

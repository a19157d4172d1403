//! Why an agent does not do what somebody asks it for.
use crate::prelude::*;
use core::fmt;

/// Why an agent does not do what somebody asks it for.
#[derive(Clone, Debug, PartialEq, Eq)]
pub enum Refused {
    NotRoot,
    NoStandby,
    IsAsked,
    Drains,
    IsHeld,
    NothingIsHeld,
    /// There is no such setting.
    NotSet,
    /// In words that are said here alone.
    Because(String),
}

impl fmt::Display for Refused {
    fn fmt(&self, to: &mut fmt::Formatter<'_>) -> fmt::Result {
        to.write_str(match self {
            Refused::NotRoot => "it is not the root",
            Refused::NoStandby => "its [root] has no `standby`",
            Refused::IsAsked => "it is asked for that already",
            Refused::Drains => "it is draining",
            Refused::IsHeld => "a change of its folder is held: see `diff`",
            Refused::NothingIsHeld => "nothing is held",
            Refused::NotSet => "it is not set",
            Refused::Because(why) => why,
        })
    }
}

impl From<String> for Refused {
    fn from(why: String) -> Refused {
        Refused::Because(why)
    }
}

impl From<&str> for Refused {
    fn from(why: &str) -> Refused {
        Refused::Because(why.into())
    }
}

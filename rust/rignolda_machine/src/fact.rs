//! What happens to an agent and may be news to its operator: the lines of its journal, as values.
use crate::prelude::*;
use core::fmt;

/// A line of the journal: [of what kind](Fact::kind), and its words. Nobody but people reads these.
#[derive(Clone, Debug, PartialEq, Eq)]
#[non_exhaustive]
pub enum Fact {
    // ---- Connections
    /// There is a link to a child, or to the parent; and whether its count begins anew.
    Connected {
        whom: String,
        anew: bool,
    },
    /// A link is over: why, and where the other end was, if it had a connection.
    Closed {
        whom: String,
        why: String,
        place: Option<String>,
    },
    /// Two processes have the name of this child.
    Clash(String),
    /// This child lacks what is not kept any more: it gets a whole table. Why, if it was not slow.
    LeftBehind(String, Option<&'static str>),
    /// What waited for this child is dropped, since it was away too long.
    Evicted(String),
    /// Who wanted to connect was refused; it was the one of this number.
    Refused(String, u64),
    /// A child cannot be connected to: why.
    NoChild(String, String),
    /// A parent cannot be connected to, or refuses this agent: why.
    NoParent(String, String),
    /// This parent has brought no whole table for so many seconds.
    Idle(String, u64),
    /// A child has sent a report that is none, for the time of this number.
    NoReport(String, u64),
    // ---- Settings
    Applied(u64, String),
    /// What of these keys failed for one reason.
    Failed(Vec<String>, String),
    /// So many files were not as they were put, such as this one.
    Mended(usize, String),
    /// With the change of this number there would be too many settings.
    Full(u64),
    /// A change of this number is none that comes next; and the how manieth it was.
    Stray(u64, u64),
    /// An item is none of settings: its value, how many bytes it has, and the how manieth it was.
    Garbage(u32, usize, u64),
    /// Its files have a change of this number, of which its memory does not know.
    Forgot(u64),
    /// Of a folder: what is wrong with it, or what in it is left out.
    Settings(String),
    /// So many names in a folder are none of settings, as these.
    Others(usize, String),
    // ---- The root
    /// It goes on above this number: which one that is.
    GoesAbove(u64, &'static str),
    /// It is promoted although it lacks something.
    Promoted(String),
    OtherRoot(String),
    StandsBy(String),
    /// So many of its children have more than this number, which it never published.
    Outdone(usize, u64),
    /// It is the root, of this rank.
    IsRoot(u64),
    /// That it stands by could not be kept: why.
    NotKept(String),
    IsBelow,
    /// What is wrong with the file that makes it the root.
    Mark(String, &'static str),
    // ---- What repeats
    /// Before this one so many like it were not said.
    Again(Box<Fact>, u64),
    /// So many more of a kind, about the same.
    More(&'static str, String, u64),
    // ---- For trials
    /// A body of this number came, or was published.
    Received(u64),
    Published(u64),
}

impl Fact {
    /// The first word of its line.
    pub fn kind(&self) -> &'static str {
        match self {
            Fact::Connected { .. } => "connected",
            Fact::Closed { .. } => "closed",
            Fact::Clash(_) => "clash",
            Fact::LeftBehind(..) => "left-behind",
            Fact::Evicted(_) => "evicted",
            Fact::Refused(..) => "refused",
            Fact::NoChild(..) => "child",
            Fact::NoParent(..) | Fact::Idle(..) => "parent",
            Fact::NoReport(..) => "report",
            Fact::Applied(..) => "applied",
            Fact::Failed(..) => "failed",
            Fact::Mended(..) => "mended",
            Fact::Full(_) => "full",
            Fact::Stray(..) => "stray",
            Fact::Garbage(..) => "garbage",
            Fact::Forgot(_) | Fact::GoesAbove(..) => "numbers",
            Fact::Settings(_) | Fact::Others(..) => "settings",
            Fact::Again(fact, _) => fact.kind(),
            Fact::More(kind, ..) => kind,
            Fact::Received(_) => "received",
            Fact::Published(_) => "published",
            _ => "root",
        }
    }

    /// Whom it is about, as far as others make it happen at any rate: a name, or an address without
    /// its port.
    pub fn about(&self) -> &str {
        match self {
            Fact::Connected { whom, .. } | Fact::Closed { whom, .. } => whom,
            Fact::Clash(name) | Fact::LeftBehind(name, _) | Fact::Evicted(name) => name,
            Fact::NoChild(name, _) | Fact::NoParent(name, _) => name,
            Fact::Idle(name, _) | Fact::NoReport(name, _) => name,
            Fact::Refused(words, _) => words.split([' ', ':', ',']).next().unwrap_or_default(),
            _ => "",
        }
    }
}

impl fmt::Display for Fact {
    fn fmt(&self, to: &mut fmt::Formatter<'_>) -> fmt::Result {
        match self {
            Fact::Connected { whom, anew: true } => write!(to, "{whom}, a new count"),
            Fact::Connected { whom, .. } => whom.fmt(to),
            Fact::Closed { whom, why, place: None } => write!(to, "{whom}: {why}"),
            Fact::Closed { whom, why, place: Some(at) } => write!(to, "{whom}: {why}, at {at}"),
            Fact::Clash(name) => write!(to, "{name}: two processes have this name"),
            Fact::LeftBehind(name, None) | Fact::Evicted(name) => name.fmt(to),
            Fact::LeftBehind(name, Some(why)) => write!(to, "{name}: {why}"),
            Fact::NoChild(name, why) | Fact::NoParent(name, why) => write!(to, "{name}: {why}"),
            Fact::Refused(words, all) => write!(to, "{words} ({all} in all)"),
            Fact::Idle(name, seconds) => {
                write!(to, "{name} brought no whole table for {seconds} s")
            }
            Fact::NoReport(name, all) => write!(to, "{name} sent what is none ({all} in all)"),
            Fact::Applied(number, key) => write!(to, "{number} {key}"),
            Fact::Failed(keys, why) => match &keys[..] {
                [] => why.fmt(to),
                [key] => write!(to, "{key}: {why}"),
                [key, more @ ..] => write!(to, "{key} and {} more: {why}", more.len()),
            },
            Fact::Mended(count, first) => {
                write!(to, "{count} files were not as they were put, as {first}")
            }
            Fact::Full(number) => {
                write!(to, "{number} would be too much: a whole table is waited for")
            }
            Fact::Stray(number, all) => write!(to, "{number} ({all} in all)"),
            Fact::Garbage(item, bytes, all) => {
                write!(to, "item {item:08x} with {bytes} bytes ({all} in all)")
            }
            Fact::Forgot(number) => {
                write!(to, "its files have change {number}, and its memory is older")
            }
            Fact::Settings(words) => words.fmt(to),
            Fact::Others(count, first) => {
                write!(to, "{count} in the folder are none of settings, as {first}")
            }
            Fact::GoesAbove(number, which) => write!(to, "go on above {number}, {which}"),
            Fact::Promoted(lacks) => write!(to, "promoted as it is: {lacks}"),
            Fact::OtherRoot(head) => write!(to, "{head} is another root"),
            Fact::StandsBy(head) => write!(to, "{head} is another root: this one stands by"),
            Fact::Outdone(count, may) => write!(
                to,
                "{count} of its children have more than {may}, and this root never published that: \
                 another one did, and this one stands by"
            ),
            Fact::IsRoot(rank) => write!(to, "this is the root now, of rank {rank}"),
            Fact::NotKept(why) => write!(to, "its folder does not know: {why}"),
            Fact::IsBelow => to.write_str("this is an agent as any other now"),
            Fact::Mark(path, words) => write!(to, "{path} {words}"),
            Fact::Again(fact, more) => write!(to, "{fact} (and {more} more of these)"),
            Fact::More(_, about, more) => write!(to, "{about}: {more} more of these"),
            Fact::Received(number) | Fact::Published(number) => number.fmt(to),
        }
    }
}

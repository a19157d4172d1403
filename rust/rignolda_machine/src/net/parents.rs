//! The choice of a parent: whom an agent looks at, whom it takes, and what it says of its way.
//!
//! An agent says its [`Way`]: a cost, and the names from its head to itself. A root costs 0. Who
//! has no parent is a head, and costs [`NONE`]. Over a parent that says `d` the way costs `d` and
//! what that parent costs: 1 and a price, 8 for each place in the list or what the configuration
//! says.
//!
//! - Who would cost [`CIRCLE`], or whose parent's way has the agent's own name, leaves that parent.
//! - A candidate is looked at before it is taken. It is taken where the way over it is better, and
//!   costs less than [`NONE`].
//! - Who has a parent that has lost the root stays with it until a candidate has one: while the
//!   root is away nobody moves. Without a parent a candidate that has no root is taken only by an
//!   agent that has one candidate alone, or no children; and after a circle only where the head's
//!   name is smaller than its own, so that not all who left the circle come back to it.
//! - While no candidate could be better, whatever it says, nobody is looked at.
//!
//! That is decided by calls of the proved library, whose crate `rignolda_ways` has the laws. And:
//!
//! - A parent that says ways for long and brings no whole table stands still: it is left for any
//!   candidate that has a root, and not taken again for a while, which is longer each time.
//!
//! A parent that speaks version 1 says no way. It counts as a root where it is the first of the
//! list, or the agent has no children, and else as one that has lost the root.
use super::error::error;
use super::proved::{rignolda_way_over, WayAsked};
use crate::prelude::*;
use core::time::Duration;

/// The cost of who has no parent. Less than this is a way to a root.
pub const NONE: u16 = 128;
/// Who would cost so much lies on a circle, or too deep.
pub const CIRCLE: u16 = 256;
/// How many names a way has at most.
pub const NAMES: usize = 128;
/// How often a parent says its way again.
pub const BEAT: Duration = Duration::from_secs(2);
/// A parent of which nothing whole came for so long is left.
pub const SILENCE: Duration = Duration::from_secs(8);
/// The price of each place in the list.
const PLACE: u16 = 8;
/// How often a candidate is looked at: usually, where there is no root, and the parent itself
/// where it speaks version 1, since it may have become a newer one.
const LOOKS: Duration = Duration::from_secs(5);
const LOOKS_SOON: Duration = Duration::from_millis(500);
const LOOKS_AT_OLD: Duration = Duration::from_secs(60);

/// The way from a head to an agent, as that agent says it.
#[derive(Clone, Debug, Default, PartialEq, Eq)]
pub struct Way {
    /// What it costs: less than [`NONE`] where the head is a root.
    pub cost: u16,
    /// Who lies on it, the head first and the agent last.
    pub names: Vec<String>,
}

error! {
    /// Why a candidate is not taken, or a parent is left.
    ParentError {
        /// Its place is none of the list.
        Unknown = "it is no parent",
        /// The way over it has the agent's own name.
        Circle = "its way leads over this agent",
        /// The way over it costs [too much](CIRCLE), or has too many names.
        LongWay = "its way is too long",
        /// It has lost the root.
        NoRoot = "it has no root",
        /// It is not better than the parent that there is.
        NoBetter = "another parent is connected",
    }
}

/// The candidates of an agent, in the order of its list, and the one that is its parent.
#[derive(Clone, Debug)]
pub struct Parents {
    name: String,
    /// What it costs to come to each.
    costs: Vec<u16>,
    has_children: bool,
    /// Which candidate is the parent, or is tried.
    at: usize,
    /// What the parent said last; nothing where there is none.
    heard: Option<Way>,
    says: Way,
    has_news: bool,
    /// Whether the agent has left a circle, and has had no root since.
    was_in_circle: bool,
}

impl Parents {
    /// An agent of this name without a parent; a root where there are no candidates. Each has the
    /// price that is said, or that of its place.
    ///
    /// ```
    /// use rignolda_machine::net::{Parents, Way};
    ///
    /// let mut rack = Parents::new("rack1", [None, None]).with_children();
    /// let way = |cost, names: &[&str]| Way {
    ///     cost,
    ///     names: names.iter().map(|name| name.to_string()).collect(),
    /// };
    /// assert_eq!(rack.says(), &way(128, &["rack1"]));
    /// // (the second candidate is taken while the first one is away, and left when it is back)
    /// assert_eq!(rack.looked(1, &way(1, &["hub", "rack2"])), Ok(()));
    /// rack.took(1, way(1, &["hub", "rack2"]));
    /// assert_eq!(rack.says(), &way(10, &["hub", "rack2", "rack1"]));
    /// assert_eq!(rack.looked(0, &way(0, &["hub"])), Ok(()));
    /// ```
    pub fn new(name: &str, prices: impl IntoIterator<Item = Option<u16>>) -> Parents {
        let prices = prices.into_iter().enumerate();
        let prices = prices.map(|(at, it)| it.unwrap_or((at as u16).saturating_mul(PLACE)));
        let costs: Vec<u16> = prices.map(|price| price.saturating_add(1)).collect();
        let mut parents = Parents {
            name: name.into(),
            costs,
            has_children: false,
            at: 0,
            heard: None,
            says: Way::default(),
            has_news: false,
            was_in_circle: false,
        };
        parents.say();
        parents
    }

    /// The same agent, where others may have it as their parent.
    #[must_use]
    pub fn with_children(mut self) -> Parents {
        self.has_children = true;
        self
    }

    /// The same agent with another list, in which its parent has this place, if it has one.
    pub fn set(&mut self, prices: impl IntoIterator<Item = Option<u16>>, at: Option<usize>) {
        let new = Parents::new(&self.name, prices);
        let old = core::mem::replace(self, new);
        self.has_children = old.has_children;
        if let (Some(at), Some(heard)) = (at, old.heard) {
            self.took(at, heard);
        }
        self.has_news = true;
    }

    /// Whether it has this name and these candidates.
    pub(super) fn are(&self, name: &str, prices: impl IntoIterator<Item = Option<u16>>) -> bool {
        let Parents { costs, .. } = Parents::new(name, prices);
        self.name == name && self.costs == costs && self.at < costs.len().max(1)
    }

    /// Whether there are agents that may have this one as their parent.
    pub fn set_children(&mut self, has_children: bool) {
        self.has_children = has_children;
    }

    // ---- What is said

    /// The agent's own way.
    pub fn says(&self) -> &Way {
        &self.says
    }

    /// Whether it is another one than when this was asked last.
    pub fn has_news(&mut self) -> bool {
        core::mem::take(&mut self.has_news)
    }

    /// Says again what follows from what was heard.
    pub(super) fn say(&mut self) {
        let (cost, mut names) = match &self.heard {
            _ if self.costs.is_empty() => (0, Vec::new()),
            Some(way) => (self.cost(self.at, way), way.names.clone()),
            None => (NONE, Vec::new()),
        };
        names.push(self.name.clone());
        let says = Way { cost, names };
        self.has_news |= says != self.says;
        self.was_in_circle &= says.cost >= NONE;
        self.says = says;
    }

    // ---- Who is taken

    /// Which candidate is the parent, or is tried.
    pub fn at(&self) -> usize {
        self.at
    }

    /// There is no parent, and this candidate is tried.
    pub fn tries(&mut self, at: usize) {
        self.at = at;
        self.heard = None;
        self.say();
    }

    /// This candidate has become the parent, and says this.
    pub fn took(&mut self, at: usize, way: Way) {
        self.at = at;
        self.heard = Some(way);
        self.say();
    }

    /// The parent says this.
    ///
    /// # Errors
    ///
    /// Why it is to be left.
    pub fn hears(&mut self, way: Way) -> Result<(), ParentError> {
        let asked = WayAsked { is_parent: true, ..self.asked(self.at, &way) };
        asked.answer().inspect_err(|_| self.was_in_circle = true)?;
        self.heard = Some(way);
        self.say();
        Ok(())
    }

    /// What the way over a candidate costs that says this.
    fn cost(&self, at: usize, way: &Way) -> u16 {
        rignolda_way_over(way.cost, self.price(at))
    }

    fn price(&self, at: usize) -> u16 {
        self.costs.get(at).copied().unwrap_or(CIRCLE)
    }

    /// What it knows when a candidate says this.
    fn asked(&self, at: usize, way: &Way) -> WayAsked {
        WayAsked {
            names: way.names.len(),
            said: way.cost,
            price: self.price(at),
            own: self.says.cost,
            has_own_name: way.names.contains(&self.name),
            has_parent: self.heard.is_some(),
            is_parent: self.heard.is_some() && at == self.at,
            is_sole: self.costs.len() == 1,
            has_children: self.has_children,
            was_in_circle: self.was_in_circle,
            head_is_smaller: way.names.first() < Some(&self.name),
        }
    }

    /// A candidate was looked at, or connected itself, and says this: it is to be taken now.
    ///
    /// # Errors
    ///
    /// Why it is not.
    pub fn looked(&self, at: usize, way: &Way) -> Result<(), ParentError> {
        match self.costs.get(at) {
            Some(_) => self.asked(at, way).answer(),
            None => Err(ParentError::Unknown),
        }
    }

    /// Whether there is a parent that has a root.
    pub fn has_root(&self) -> bool {
        self.heard.is_some() && self.says.cost < NONE
    }

    /// A candidate says this: whether it may be taken in place of a parent that is to be left.
    ///
    /// # Errors
    ///
    /// Why it may not.
    pub fn replaces(&self, at: usize, way: &Way) -> Result<(), ParentError> {
        self.asked(at, way).is_fit()
    }

    /// How a candidate counts that speaks version 1.
    pub fn old(&self, at: usize) -> Way {
        let is_root = at == 0 || !self.has_children;
        let (cost, names) = (if is_root { 0 } else { NONE }, Vec::new());
        Way { cost, names }
    }

    // ---- Who is looked at

    /// Whether a candidate is to be looked at beside the parent, which speaks version 1 or not.
    pub fn looks_at(&self, at: usize, is_old: bool) -> bool {
        let is_better = self.price(at) < self.says.cost;
        self.heard.is_some() && (if at == self.at { is_old } else { is_better })
    }

    /// After how long a candidate is looked at again.
    pub fn pause(&self, at: usize) -> Duration {
        match self.says.cost {
            _ if at == self.at && self.heard.is_some() => LOOKS_AT_OLD,
            NONE.. => LOOKS_SOON,
            _ => LOOKS,
        }
    }
}

rignolda::spoils! { Way { cost, names } }
rignolda::spoils! { Parents {
    name, costs, has_children, at, heard, says, has_news, was_in_circle
} }

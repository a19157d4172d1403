//! Reports of what changed. Behind a whole list an agent sends its parent only what is other than
//! in the last report on the same connection, and after a while the whole list again.
//!
//! Such a report is `'C' | base | changes`. The base is the first 16 bytes of the SHA-256 of the
//! report before it. The changes are JSON, `[gone, [[names, members]..]]`: the names of agents that
//! are gone; and of those that are new or other, names, and members that they all have now. Other
//! members are as before, or nothing at a new agent, and ages have grown. Who reports has the age
//! 0, and stays first. Then each agent is below its parent, and those of one parent are in the
//! order of their names, as in each list that an agent makes.
use crate::control::{self, Seen};
use crate::net::wire::REPORT_BYTES;
use crate::prelude::*;
use crate::{Sha256, Time};
use core::time::Duration;
use serde_json::value::{to_value, RawValue, Value};

/// How often an agent reports all in any case.
pub const WHOLE: Duration = Duration::from_secs(30);
/// To how many milliseconds an age is right that is not said.
const RIGHT_TO: u64 = 1_000;
/// What a report of changes begins with.
const CHANGES: u8 = b'C';
/// The fewest bytes that an agent has in a list, besides its name.
const LEAST: usize = r#"{"name":""},"#.len();

/// The most bytes that it has there, besides its texts.
const MOST: usize = 1_024;

/// By which a report is known: the first bytes of its SHA-256.
pub type Id = [u8; 16];

/// By which this report is known.
pub fn id(report: &[u8], sha: Sha256) -> Id {
    let [a, b, c, d, e, f, g, h, i, j, k, l, m, n, o, p, ..] = sha(&[report]);
    [a, b, c, d, e, f, g, h, i, j, k, l, m, n, o, p]
}

/// What is known of an agent, but its name, its age, and what the root alone says of it.
macro_rules! members {
    ($($member:ident)*) => {
        /// In which members two agents differ.
        fn differing(one: &Seen, other: &Seen) -> Vec<&'static str> {
            // (each of them is here)
            let Seen { name: _, age: _, compared: _, $($member: _),* } = one;
            let all = [$((stringify!($member), one.$member != other.$member)),*];
            all.into_iter().filter(|(_, differs)| *differs).map(|(member, _)| member).collect()
        }

        /// Gives an agent a member of another one.
        fn set(to: &mut Seen, from: &Seen, member: &str) {
            match member {
                "age" => to.age = from.age,
                $(stringify!($member) => to.$member.clone_from(&from.$member),)*
                _ => (),
            }
        }
    };
}

members! {
    parent place parents connected sequence applied applies files digest groups ahead changed round
    whole draining standby stands_by backlog limit harmless inner strays garbage gaps failing why
    mended version expires cut
}

/// What the parent was told last by a connection on which it reads changes, if there is one.
#[derive(Debug, Default)]
pub struct Told(Option<Last>);

#[derive(Debug)]
struct Last {
    connection: u64,
    id: Id,
    /// When the whole list was told.
    whole: Time,
    /// As of when the ages are.
    at: Time,
    list: Vec<Seen>,
}

/// The names of agents, by what they all have now; and the list that is known then.
type Others<'a> = (BTreeMap<String, Vec<&'a str>>, Vec<Seen>);

impl Last {
    /// Who is new or other in this list, so many milliseconds later.
    fn others<'a>(&self, list: &'a [Seen], millis: u64) -> Option<Others<'a>> {
        let old: BTreeMap<&str, &Seen> = self.list.iter().map(|it| (&*it.name, it)).collect();
        let (mut others, mut told) = (BTreeMap::<String, Vec<&str>>::new(), Vec::new());
        for (at, seen) in list.iter().enumerate() {
            let nobody = Seen::default();
            let before = old.get(&*seen.name).copied();
            let mut members = differing(before.unwrap_or(&nobody), seen);
            let grown = before.map_or(0, |it| it.age.saturating_add(millis));
            let grown = if at == 0 { 0 } else { grown };
            let mut seen = seen.clone();
            let is_right = seen.age.abs_diff(grown) <= RIGHT_TO;
            seen.age = match seen.age {
                _ if is_right => grown,
                age => age * u64::from(age > RIGHT_TO),
            };
            members.extend((!is_right).then_some("age"));
            if !members.is_empty() || before.is_none() {
                others.entry(written(&seen, &members)?).or_default().push(&*list[at].name);
            }
            told.push(seen);
        }
        Some((others, told))
    }

    /// Whether what changed is enough for now. (What is ahead of now is spoiled.)
    fn is_fresh(&self, now: Time) -> bool {
        self.whole <= self.at && self.at <= now && now < self.whole + WHOLE
    }
}

impl Told {
    /// When the whole list is to be told again.
    pub fn again(&self) -> Option<Time> {
        Some(self.0.as_ref()?.whole + WHOLE)
    }

    /// It was told this whole list in this report.
    pub fn tells(&mut self, connection: u64, list: Vec<Seen>, id: Id, now: Time) {
        self.0 = Some(Last { connection, id, whole: now, at: now, list });
    }

    /// The report of what is other in this list, if that is shorter than the list, and the parent
    /// can read it: then it counts as told. Else nothing does.
    pub fn changes(
        &mut self,
        connection: u64,
        list: &[Seen],
        sha: Sha256,
        now: Time,
    ) -> Option<Vec<u8>> {
        let last = self.0.take()?;
        if last.connection != connection || !last.is_fresh(now) {
            return None;
        }
        let millis = now.since(last.at).as_millis() as u64;
        let (others, told) = last.others(list, millis)?;
        let names: BTreeSet<&str> = list.iter().map(|it| &*it.name).collect();
        let gone = last.list.iter().map(|it| &*it.name).filter(|name| !names.contains(name));
        let gone: Vec<&str> = gone.collect();
        let others = others
            .into_iter()
            .map(|(members, names)| Some((names, RawValue::from_string(members).ok()?)));
        let others: Vec<_> = others.collect::<Option<_>>()?;
        let changes = serde_json::to_vec(&(gone, others)).ok()?;
        let report = [&[CHANGES], &last.id[..], &changes].concat();
        // (the list itself is made where it may be shorter, or too long for a report)
        let least: usize = names.iter().map(|name| name.len() + LEAST).sum();
        let most: usize = list.iter().map(most_bytes).sum();
        if report.len() > least || most > REPORT_BYTES {
            let whole = control::report(list).len();
            if report.len() >= whole || whole > REPORT_BYTES {
                return None;
            }
        }
        // (what is less than a millisecond counts at the next one)
        let at = last.at + Duration::from_millis(millis);
        self.0 = Some(Last { id: id(&report, sha), at, list: told, ..last });
        Some(report)
    }
}

/// How many bytes an agent has in a list at most. (In JSON a byte may take six.)
fn most_bytes(seen: &Seen) -> usize {
    let groups: usize = seen.groups.iter().map(|it| it.len() + 3).sum();
    MOST + 6 * (seen.name.len() + seen.parent.len() + seen.why.len()) + groups
}

/// Members of an agent, as JSON: also those that say nothing.
fn written(seen: &Seen, members: &[&str]) -> Option<String> {
    let Value::Object(mut all) = to_value(seen).ok()? else { return None };
    let zero = || Value::from(0);
    let member = |it: &&str| (it.to_string(), all.remove(*it).unwrap_or_else(zero));
    let members: BTreeMap<String, Value> = members.iter().map(member).collect();
    serde_json::to_string(&members).ok()
}

/// The base and the changes of a report, if it is one of changes.
pub fn parts(report: &[u8]) -> Option<(&[u8], &[u8])> {
    let rest = report.strip_prefix(&[CHANGES])?;
    Some(rest.split_at(rest.len().min(size_of::<Id>())))
}

/// Agents that are new or other, and what they have now.
#[derive(Debug)]
struct Other {
    names: Vec<String>,
    members: Vec<String>,
    seen: Seen,
    /// How many bytes that has.
    bytes: usize,
}

/// What changed in a list.
#[derive(Debug)]
pub struct Changes {
    gone: Vec<String>,
    others: Vec<Other>,
}

impl Changes {
    /// Reads changes, if they are some. What each agent has is given to `bounds`.
    pub fn read(bytes: &[u8], bounds: impl Fn(&mut Seen)) -> Option<Changes> {
        type Read<'a> = (Vec<String>, Vec<(Vec<String>, &'a RawValue)>);
        let (gone, others): Read<'_> = serde_json::from_slice(bytes).ok()?;
        let other = |(names, text): (Vec<String>, &RawValue)| {
            let members: BTreeMap<String, &RawValue> = serde_json::from_str(text.get()).ok()?;
            let mut seen: Seen = serde_json::from_str(text.get()).ok()?;
            bounds(&mut seen);
            let (members, bytes) = (members.into_keys().collect(), text.get().len());
            Some(Other { names, members, seen, bytes })
        };
        Some(Changes { gone, others: others.into_iter().map(other).collect::<Option<_>>()? })
    }

    /// How many agents they name.
    pub fn agents(&self) -> usize {
        self.gone.len() + self.others.iter().map(|it| it.names.len()).sum::<usize>()
    }

    /// How many bytes they add to a list at most.
    pub fn bytes(&self) -> usize {
        let bytes = |it: &Other| it.names.iter().map(|name| name.len() + it.bytes).sum::<usize>();
        self.others.iter().map(bytes).sum()
    }

    /// Whether agents may be of other groups with them.
    pub fn may_change_groups(&self) -> bool {
        !self.gone.is_empty() || self.is_of("groups") || self.is_of("parent")
    }

    fn is_of(&self, member: &str) -> bool {
        self.others.iter().any(|it| it.members.iter().any(|it| it == member))
    }

    /// The list to which these changes lead from one that was told this many milliseconds before,
    /// and whether nobody had to be left out. Whoever is first there stays so.
    pub fn apply(&self, mut list: Vec<Seen>, millis: u64) -> (Vec<Seen>, bool) {
        let places: BTreeMap<&str, usize> =
            list.iter().zip(0..).map(|(it, at)| (&*it.name, at)).collect();
        let place = |name: &String| places.get(&**name).copied();
        let gone: BTreeSet<usize> =
            self.gone.iter().filter_map(place).filter(|it| *it > 0).collect();
        let others = self.others.iter().flat_map(|it| it.names.iter().map(move |name| (it, name)));
        let others: Vec<_> = others.map(|(it, name)| (it, name, place(name))).collect();
        let is_other = |(_, _, place): &(&Other, &String, Option<usize>)| place.is_none();
        let moves = !gone.is_empty() || self.is_of("parent") || others.iter().any(is_other);
        list.iter_mut().for_each(|it| it.age = it.age.saturating_add(millis));
        list.first_mut().into_iter().for_each(|it| it.age = 0);
        for (other, name, place) in others {
            let at = place.unwrap_or_else(|| {
                list.push(Seen { name: name.clone(), ..Seen::default() });
                list.len() - 1
            });
            let members = other.members.iter();
            members.for_each(|member| set(&mut list[at], &other.seen, member));
        }
        if !moves {
            return (list, true);
        }
        let mut at = 0..;
        list.retain(|_| at.next().is_some_and(|at| !gone.contains(&at)));
        let count = list.len();
        let list = in_order(list);
        let is_all = list.len() == count;
        (list, is_all)
    }
}

/// The same agents, each below its parent, and those of one parent in the order of their names.
/// Who is not below the first one is left out.
fn in_order(list: Vec<Seen>) -> Vec<Seen> {
    let (mut list, mut below) = (list.into_iter(), BTreeMap::<String, Vec<Seen>>::new());
    let mut next: Vec<Seen> = list.next().into_iter().collect();
    list.for_each(|it| below.entry(it.parent.clone()).or_default().push(it));
    let mut ordered = Vec::new();
    while let Some(seen) = next.pop() {
        let mut children = below.remove(&seen.name).unwrap_or_default();
        children.sort_by(|one, other| other.name.cmp(&one.name));
        next.extend(children);
        ordered.push(seen);
    }
    ordered
}

rignolda::spoils! { Last { connection, id, whole, at, list } }
rignolda::spoils! { Told { 0 } }

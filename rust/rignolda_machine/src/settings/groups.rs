//! Settings that have another value for some groups of agents.
use super::{is_key, KEY_BYTES};
use crate::prelude::*;
use alloc::borrow::Cow;
use alloc::collections::BTreeMap;

/// What stands between a key and a group in a body, whose keys have no other letters.
const BETWEEN: &str = "..";

/// Whether this may be the name of a group: that of a [key](is_key), without two dots together.
pub fn is_group(text: &str) -> bool {
    is_key(text) && !text.contains(BETWEEN)
}

/// The key that a setting is published by, where this is the name of one: `KEY`, or for the agents
/// of a group `KEY@GROUP`, which is published by `KEY..GROUP`.
///
/// ```
/// use rignolda_machine::settings::{parts, published_by, shown};
///
/// let key = published_by("colour@canary").expect("it is one");
/// assert_eq!(key, "colour..canary");
/// assert_eq!(shown(&key), "colour@canary");
/// assert_eq!(parts(&key), ("colour", Some("canary")));
/// assert_eq!(published_by("colour..canary"), None);
/// ```
pub fn published_by(name: &str) -> Option<String> {
    match name.split_once('@') {
        None => Some(name.to_owned()).filter(|key| is_group(key)),
        Some((key, group)) => Some(of_group(key, group))
            .filter(|it| is_group(key) && is_group(group) && it.len() <= KEY_BYTES),
    }
}

/// The key that files have, and the group for whose agents alone this one is, if it is for one.
pub fn parts(key: &str) -> (&str, Option<&str>) {
    match key.rsplit_once(BETWEEN) {
        Some((key, group)) if is_group(key) && is_group(group) => (key, Some(group)),
        _ => (key, None),
    }
}

/// The key by which a value for a group is published.
pub fn of_group(file: &str, group: &str) -> String {
    [file, BETWEEN, group].concat()
}

/// All that there is of a key that files have: for all agents, and for groups.
pub fn values_of<'a, V>(
    all: &'a BTreeMap<String, V>,
    file: &'a str,
) -> impl Iterator<Item = (&'a String, &'a V)> {
    let front = of_group(file, "");
    let groups = all.range(front.clone()..);
    let groups = groups.take_while(move |(key, _)| key.starts_with(&front));
    let groups = groups.filter(move |(key, _)| parts(key).0 == file);
    all.get_key_value(file).into_iter().chain(groups)
}

/// A key as people write it.
pub fn shown(key: &str) -> Cow<'_, str> {
    match parts(key) {
        (key, Some(group)) => [key, "@", group].concat().into(),
        _ => key.into(),
    }
}

/// The value of a key that counts for an agent of these groups: that for the first of them which
/// has one, else the one for all.
///
/// ```
/// let value = |group: Option<&str>| match group {
///     Some("canary") => Some("blue"),
///     Some("eu") => Some("white"),
///     Some(_) => None,
///     None => Some("green"),
/// };
/// let counts = |groups: &[&str]| rignolda_machine::settings::that_counts(groups, value);
/// assert_eq!(counts(&["canary", "eu"]), Some("blue"));
/// assert_eq!(counts(&["eu", "canary"]), Some("white"));
/// assert_eq!(counts(&["us"]), Some("green"));
/// ```
pub fn that_counts<V>(
    groups: &[impl AsRef<str>],
    value: impl Fn(Option<&str>) -> Option<V>,
) -> Option<V> {
    let of_group = groups.iter().find_map(|group| value(Some(group.as_ref())));
    of_group.or_else(|| value(None))
}

//! What an agent says, as text.
use crate::files::{File, Holder};
use crate::tree::{bounds, depths, Bounds};
use crate::{dotted, unix_now, ChildStatus, Compared, Diff, Difference, Seen, Standby, Status};
use rignolda_machine::settings::is_newer;
use std::fmt::{Display, Write as _};

/// The longest line of a terminal.
const LINE: usize = 79;
/// The largest lag that is shown: what is more is a jump of the numbers, and no count of bodies.
const LAG: u64 = 1 << 30;

/// How many agents of a tree have a change, and who lacks it, in a line of a terminal.
pub fn progress(agents: usize, lacking: &[String]) -> String {
    let mut line = format!("{} of {agents} agents have it", agents - lacking.len());
    for (at, one) in lacking.iter().enumerate() {
        let more = format!(", and {} more", lacking.len() - at);
        if at > 0 && line.len() + 2 + one.len() + more.len() > LINE {
            return line + &more;
        }
        line += if at == 0 { ": " } else { ", " };
        line.extend(one.chars().take(LINE - 40));
    }
    line
}

/// A text in which nothing but ends of lines tells a terminal something: what other control
/// characters are in it is written as in JSON.
pub fn plain(text: &str) -> String {
    let is_plain = |c: char| c == '\n' || !c.is_control();
    let code = |c: char| if is_plain(c) { c.into() } else { format!("\\u{:04x}", u32::from(c)) };
    text.chars().map(code).collect()
}

/// The same where it is to stay on its line: what is in it may come from a name of a file, say.
pub fn one_line(text: &str) -> String {
    plain(&text.replace('\n', "\\n"))
}

/// A table with a head, each column as wide as its widest word; numbers stand to the right.
fn table(rows: &[Vec<String>]) -> String {
    let columns = rows.iter().map(Vec::len).max().unwrap_or(0);
    let column = |at: usize| rows.iter().filter_map(move |row| row.get(at));
    let widths: Vec<usize> =
        (0..columns).map(|at| column(at).map(String::len).max().unwrap_or(0)).collect();
    let is_number = |word: &String| word.starts_with(|c: char| c.is_ascii_digit());
    let right: Vec<bool> = (0..columns).map(|at| column(at).skip(1).all(is_number)).collect();
    let mut text = String::new();
    for row in rows {
        let mut line = String::new();
        for (at, word) in row.iter().enumerate() {
            let (wide, between) = (widths[at], if at == 0 { "" } else { "  " });
            let _ = match right[at] {
                true => write!(line, "{between}{word:>wide$}"),
                false => write!(line, "{between}{word:<wide$}"),
            };
        }
        let _ = writeln!(text, "{}", line.trim_end());
    }
    text
}

fn row<const COLUMNS: usize>(words: [&dyn Display; COLUMNS]) -> Vec<String> {
    words.iter().map(ToString::to_string).collect()
}

/// The tree, an agent a line, each under its parent.
pub fn tree_text(list: &[Seen]) -> String {
    // (what is harmless, or a table that changes nothing, is no lag)
    let newest = list.first().map_or(0, |root| root.changed);
    let head: [&dyn Display; 11] = [
        &"agent", &"groups", &"lag", &"backlog", &"strays", &"garbage", &"gaps", &"mended",
        &"files", &"version", &"state",
    ];
    let mut rows = vec![row(head)];
    for (seen, depth) in list.iter().zip(depths(list)) {
        let state = if !seen.connected && seen.sequence == 0 {
            "never heard of".to_owned()
        } else if !seen.connected {
            format!("away for {}", age(seen.age))
        } else if seen.failing > 0 && seen.why.is_empty() {
            format!("{} failing", seen.failing)
        } else if seen.failing > 0 {
            format!("{} failing, {}", seen.failing, one_line(&seen.why))
        } else if !seen.whole {
            "waits for a whole table".into()
        } else if seen.stands_by {
            "stands by: another root is there".into()
        } else if seen.draining {
            "drains".into()
        } else {
            up(seen)
        };
        let state = match seen.connected && seen.failing == 0 && !seen.why.is_empty() {
            true => format!("{state}, refused by {}", one_line(&seen.why)),
            false => state,
        };
        let name = format!("{}{}", "  ".repeat(depth), seen.name);
        let lag = match seen.applied {
            0 => "-".into(),
            applied if is_newer(newest, applied) => match newest.wrapping_sub(applied) {
                lag if lag > LAG => "many".into(),
                lag => lag.to_string(),
            },
            _ => "0".into(),
        };
        let backlog = format!("{}/{}", seen.backlog, seen.limit);
        let files = match seen.compared {
            Compared::Nothing => "-",
            Compared::Same => "same",
            Compared::Differs => "differ",
            Compared::NotKnown => "not known",
        };
        let Seen { strays, garbage, gaps, mended, .. } = seen;
        let version = if seen.version == 0 { "-".into() } else { dotted::text(seen.version) };
        let groups = seen.groups.join(",");
        rows.push(row([
            &name, &groups, &lag, &backlog, strays, garbage, gaps, mended, &files, &version, &state,
        ]));
    }
    if list.iter().all(|seen| seen.groups.is_empty()) {
        rows.iter_mut().for_each(|row| drop(row.remove(1)));
    }
    table(&rows)
}

/// What is said of an agent that is up.
fn up(seen: &Seen) -> String {
    let mut text = if seen.standby { "up, standby" } else { "up" }.to_string();
    if seen.place > 0 {
        let _ = write!(text, ", at its parent {}", seen.place.saturating_add(1));
    }
    if seen.expires > 0 {
        let days = u64::from(seen.expires).saturating_sub(unix_now()) / 86_400;
        let _ = write!(text, ", certificate for {days} d");
    }
    text
}

/// An agent's settings.
pub fn list_text(files: &[File]) -> String {
    let mut rows = vec![row([&"key", &"bytes", &"digest"])];
    rows.extend(files.iter().map(|it| row([&it.key, &it.bytes, &it.digest])));
    table(&rows)
}

/// Which value of a key each agent has.
pub fn holders_text(holders: &[Holder]) -> String {
    let mut rows = vec![row([&"agent", &"digest", &""])];
    let digest = |it: &Holder| if it.digest.is_empty() { "-".into() } else { it.digest.clone() };
    rows.extend(holders.iter().map(|it| row([&it.agent, &digest(it), &it.note])));
    table(&rows)
}

/// What of the root's folder is not published.
pub fn diff_text(diff: &Diff) -> String {
    let mut text = String::new();
    for Difference { key, bytes } in &diff.changes {
        let _ = match bytes {
            Some(bytes) => writeln!(text, "set   {key} ({bytes} bytes)"),
            None => writeln!(text, "unset {key}"),
        };
    }
    if !diff.held.is_empty() {
        let _ = writeln!(text, "{} {}", diff.held, diff.digest);
    }
    text
}

/// A time in words.
pub fn age(milliseconds: u64) -> String {
    match milliseconds {
        0..=9_999 => format!("{}.{} s", milliseconds / 1_000, milliseconds % 1_000 / 100),
        10_000..=599_999 => format!("{} s", milliseconds / 1_000),
        600_000..=35_999_999 => format!("{} min", milliseconds / 60_000),
        _ => format!("{} h", milliseconds / 3_600_000),
    }
}

/// An agent, a fact a line, and its children.
pub fn status_text(status: &Status) -> String {
    let mut text = String::new();
    let mut fact = |name: &str, value: &dyn Display| {
        let _ = writeln!(text, "{name:<14} {}", one_line(&value.to_string()));
    };
    fact("name", &status.name);
    fact("version", &status.version);
    match &status.parent {
        _ if status.is_root => fact("parent", &"none: it is the root"),
        Some(parent) => {
            fact("parent", &format!("{parent}, for {}", age(status.connected_since * 1_000)));
        }
        None if status.no_parent.is_empty() => fact("parent", &"not connected"),
        None => fact("parent", &format!("not connected: {}", plain(&status.no_parent))),
    }
    status.refusals.iter().for_each(|why| fact("refused by", &plain(why)));
    let lacks = if status.is_rootless() { "no root: " } else { "" };
    fact("way", &format!("{lacks}{}, costs {}", status.way.join(" > "), status.cost));
    let other = if status.other_root.is_empty() { "another one" } else { &*status.other_root };
    match status.standby {
        Standby::No => (),
        Standby::Below => fact("standby", &"yes, see `promote`"),
        Standby::Looks => fact("standby", &"it looks for another root before it publishes"),
        Standby::StandsBy => {
            fact("standby", &format!("it was the root, and stands by for {other}: see `demote`"));
        }
        Standby::Root if status.other_root.is_empty() => fact("standby", &"promoted"),
        Standby::Root => fact("standby", &format!("promoted, and {other} is another root")),
    }
    fact("sequence", &status.sequence);
    fact("applied", &status.applied);
    match status.round {
        0 => fact("last round", &"none yet"),
        _ => fact("last round", &format!("{} ago", age(status.round_age))),
    }
    fact("complete", if status.whole { &"yes" } else { &"no: a round will bring it" });
    fact("settings", &status.settings);
    if !status.groups.is_empty() {
        fact("groups", &status.groups.join(" "));
    }
    if !status.folder.is_empty() {
        fact("folder", &status.folder);
        fact("mended", &status.mended);
    }
    fact("failing", &status.failing);
    status.failures.iter().for_each(|why| fact("fails", why));
    fact("hook failures", &status.hook_failures);
    fact("received", &status.received);
    fact("strays", &status.strays);
    fact("garbage", &status.garbage);
    fact("gaps", &status.gaps);
    fact("bad reports", &status.bad_reports);
    fact("old frames", &status.old_frames);
    fact("reconnects", &status.reconnects);
    match status.refused {
        0 => fact("refused", &0),
        all => fact("refused", &format!("{all}, at last {}", plain(&status.last_refused))),
    }
    if status.certificate_expires > 0 {
        let left = status.certificate_expires.saturating_sub(unix_now());
        fact("certificate", &format!("expires in {}", age(left * 1_000)));
    }
    if !status.reload_failed.is_empty() {
        fact("reload", &status.reload_failed);
    }
    if status.draining {
        fact("draining", &"yes");
    }
    if status.held > 0 {
        fact("held", &format!("{} settings, until `confirm`", status.held));
    }
    if status.is_root {
        fact("agents", &format!("{}, and {} of them away", status.agents, status.away));
    }
    status.faults.iter().for_each(|why| fact("not published", why));
    if !status.children.is_empty() {
        let head: [&dyn Display; 7] =
            [&"child", &"backlog", &"item for", &"reconnects", &"ignored", &"timeouts", &"state"];
        let mut rows = vec![row(head)];
        rows.extend(status.children.iter().map(child_row));
        let _ = write!(text, "\n{}", table(&rows));
    }
    text
}

fn child_row(child: &ChildStatus) -> Vec<String> {
    let state = match (child.connected, child.left_behind) {
        (true, false) => "up",
        (true, true) => "begins anew",
        (false, false) => "away",
        (false, true) => "away, its backlog dropped",
    };
    let ChildStatus { name, backlog, reconnects, ignored, timeouts, .. } = child;
    row([name, backlog, &age(child.oldest), reconnects, ignored, timeouts, &state])
}

/// The bounds of each agent.
pub fn bounds_text(list: &[Seen]) -> String {
    let mut rows = vec![row([&"agent", &"depth", &"C", &"E", &"M", &"N"])];
    for Bounds { name, depth, c, e, m, n } in bounds(list) {
        rows.push(row([&name, &depth, &c, &e, &m, &n]));
    }
    table(&rows)
}

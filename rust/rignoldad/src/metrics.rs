//! What an agent counts, as text for Prometheus, on a local address.
use rignoldactl::{ChildStatus, Standby, Status};
use std::fmt::Write;

/// A number of an agent: its name, its kind, what it is, and how to get it.
type Number<T> = (&'static str, &'static str, &'static str, fn(&T) -> u64);

const OF_AGENT: [Number<Status>; 31] = [
    ("connected", "gauge", "Whether the agent has its parent; 1 at the root.", |s| {
        u64::from(s.parent.is_some() || s.is_root)
    }),
    ("way_cost", "gauge", "Cost of the way from the root.", |s| s.cost.into()),
    ("rootless", "gauge", "Whether there is no way from a root.", |s| u64::from(s.is_rootless())),
    ("root", "gauge", "Whether it is the root.", |s| u64::from(s.is_root)),
    ("stands_by", "gauge", "Whether it was the root, and has found another one.", |s| {
        u64::from(s.standby == Standby::StandsBy)
    }),
    ("other_root", "gauge", "At the root: whether it has found another one.", |s| {
        u64::from(s.is_root && !s.other_root.is_empty())
    }),
    ("sequence", "gauge", "Sequence number of the last body.", |s| s.sequence),
    ("applied_sequence", "gauge", "That of the last one applied.", |s| s.applied),
    ("round_sequence", "gauge", "That of the last whole table.", |s| s.round),
    ("round_age_seconds", "gauge", "How long ago that came.", |s| s.round_age),
    ("whole", "gauge", "Whether nothing is known to be missing.", |s| u64::from(s.whole)),
    ("settings", "gauge", "How many settings there are.", |s| s.settings),
    ("draining", "gauge", "Whether the root publishes nothing.", |s| u64::from(s.draining)),
    ("held", "gauge", "Settings whose change the root holds back.", |s| s.held),
    ("backlog_limit", "gauge", "The limit of the backlog for each child.", |s| s.limit),
    ("received_total", "counter", "Bodies that came, or were published.", |s| s.received),
    ("strays_total", "counter", "Bodies older than the last one.", |s| s.strays),
    ("garbage_total", "counter", "Bodies that did not fit their items.", |s| s.garbage),
    ("gaps_total", "counter", "Gaps in the sequence numbers.", |s| s.gaps),
    ("bad_reports_total", "counter", "Reports of children that were none.", |s| s.bad_reports),
    ("old_frames_total", "counter", "Frames that were not fresh.", |s| s.old_frames),
    ("reconnects_total", "counter", "Connections made to parents.", |s| s.reconnects),
    ("refused_total", "counter", "Connections that were refused.", |s| s.refused),
    ("hook_failures_total", "counter", "Hooks that failed.", |s| s.hook_failures),
    ("failing", "gauge", "Settings whose file or hook failed last.", |s| s.failing),
    ("mended_total", "counter", "Files that were changed and put again.", |s| s.mended),
    ("unpublished", "gauge", "What the root cannot publish.", |s| s.unpublished),
    ("agents", "gauge", "At the root: agents that it knows, itself with them.", |s| s.agents),
    ("agents_away", "gauge", "At the root: those that are connected nowhere.", |s| s.away),
    ("agents_differing", "gauge", "At the root: those with other settings.", |s| s.differing),
    ("reload_failed", "gauge", "Whether the last reload was not taken whole.", |s| {
        u64::from(!s.reload_failed.is_empty())
    }),
];

const OF_CHILD: [Number<ChildStatus>; 9] = [
    ("connected", "gauge", "Whether the child has a connection.", |c| u64::from(c.connected)),
    ("backlog", "gauge", "Items that the child has not acknowledged.", |c| c.backlog),
    ("item_age_seconds", "gauge", "How long its sender has had its item.", |c| c.oldest),
    ("left_behind", "gauge", "Whether it begins anew.", |c| u64::from(c.left_behind)),
    ("reconnects_total", "counter", "Connections with the child.", |c| c.reconnects),
    ("acknowledged_total", "counter", "Acknowledgements taken.", |c| c.acknowledged),
    ("ignored_total", "counter", "Acknowledgements that changed nothing.", |c| c.ignored),
    ("timeouts_total", "counter", "Connections left for want of an answer.", |c| c.timeouts),
    ("clashes_total", "counter", "Connections of one of two with its name.", |c| c.clashes),
];

/// All counts of an agent.
pub fn text(status: &Status) -> String {
    let mut text = String::new();
    head(&mut text, "", "build_info", "gauge", "The program's version.");
    let _ = writeln!(text, "rignolda_build_info{{version=\"{}\"}} 1", env!("CARGO_PKG_VERSION"));
    for (name, kind, help, value) in OF_AGENT {
        head(&mut text, "", name, kind, help);
        let _ = writeln!(text, "rignolda_{name} {}", number(name, value(status)));
    }
    if status.certificate_expires > 0 {
        let name = "certificate_expires_timestamp_seconds";
        head(&mut text, "", name, "gauge", "When the agent's own certificate expires.");
        let _ = writeln!(text, "rignolda_{name} {}", status.certificate_expires);
    }
    for (name, kind, help, value) in OF_CHILD {
        head(&mut text, "child_", name, kind, help);
        for child in &status.children {
            // (a name has no character that would have to be escaped)
            let (child, value) = (&child.name, number(name, value(child)));
            let _ = writeln!(text, "rignolda_child_{name}{{child=\"{child}\"}} {value}");
        }
    }
    text
}

/// A count; a time, which is kept in milliseconds, in seconds.
fn number(name: &str, value: u64) -> String {
    match name.ends_with("_seconds") {
        true => format!("{}.{:03}", value / 1_000, value % 1_000),
        false => value.to_string(),
    }
}

fn head(text: &mut String, whose: &str, name: &str, kind: &str, help: &str) {
    let _ = writeln!(text, "# HELP rignolda_{whose}{name} {help}");
    let _ = writeln!(text, "# TYPE rignolda_{whose}{name} {kind}");
}

/// The answer to a request for what there is not.
pub const NOTHING: &str = "HTTP/1.1 404 Not Found\r\nContent-Type: text/plain\r\n\
    Content-Length: 46\r\nConnection: close\r\n\r\nThe counts are at /metrics, the tree is at /.\n";

/// The answer to a request by a name that is none of this machine.
pub const ELSEWHERE: &str = "HTTP/1.1 421 Misdirected Request\r\nContent-Type: text/plain\r\n\
    Content-Length: 36\r\nConnection: close\r\n\r\nAsk by localhost or by its address.\n";

/// The answer to a request for the counts.
pub fn answer(status: &Status) -> String {
    let text = text(status);
    format!(
        "HTTP/1.1 200 OK\r\nContent-Type: text/plain; version=0.0.4\r\n\
         Content-Length: {}\r\nConnection: close\r\n\r\n{text}",
        text.len()
    )
}

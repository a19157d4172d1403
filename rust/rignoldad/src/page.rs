//! The tree below an agent as a page for people. It has no script, and nothing on it is fetched.
use rignolda_machine::settings::is_newer;
use rignoldactl::text::age;
use rignoldactl::{dotted, unix_now, Compared, Seen};
use std::collections::BTreeMap;
use std::fmt::Write;

/// The longest page, in bytes. Agents for which there is no room are counted.
const BYTES: usize = 40_000;
/// How often it updates itself, in seconds.
const EVERY: u64 = 5;
/// How deep lists stand in one another at most: what is deeper is counted.
const DEPTH: usize = 32;

const STYLE: &str = "\
:root{color-scheme:light dark;--b:#fff;--t:#1c2024;--q:#5c6670;--l:#c3cad1;--g:#18794e;--r:#c0232c;\
--y:#8a5a00}\
@media(prefers-color-scheme:dark){:root{--b:#15181b;--t:#e6e9ec;--q:#9aa5b1;--l:#3b444d;\
--g:#4cc38a;--r:#ff8589;--y:#f0b849}}\
*{box-sizing:border-box}\
body{margin:0 auto;padding:.8rem;max-width:75rem;background:var(--b);color:var(--t);\
font:1rem/1.45 system-ui,sans-serif;overflow-wrap:anywhere}\
h1{font-size:1.3rem;margin:0}p{margin:.3rem 0}small,i{color:var(--q);font-style:normal;\
font-size:.85rem}\
dl{display:flex;flex-wrap:wrap;gap:.4rem;margin:.6rem 0 1rem}\
dl div{border:1px solid var(--l);border-radius:.4rem;padding:.1rem .6rem;min-width:4.6rem}\
dt{font-size:.8rem;color:var(--q)}dd{margin:0;font-size:1.25rem;font-weight:600}\
ul{list-style:none;margin:0 0 0 .35rem;padding:0 0 0 .8rem;border-left:1px solid var(--l)}\
body>ul{margin:0;padding:0;border:0}\
.e{display:flex;flex-wrap:wrap;gap:0 1.1rem}\
li:before{content:\"\\25cf\";color:var(--g);margin-right:.35em}\
.y:before,.y>b,dd.y{color:var(--y)}.r:before,.r>b,dd.r{color:var(--r)}\
.r:before{content:\"\\25c6\"}.y:before{content:\"\\25b2\"}\
.e>li{min-width:6rem}b{font-size:.85rem}.m:before{content:\"\"}";

/// What there is to say of an agent besides that it is up.
struct State {
    notes: Vec<String>,
    /// Whether somebody has to look, and whether at once.
    is_odd: bool,
    is_bad: bool,
}

/// How many agents are so.
#[derive(Default)]
struct Counts(BTreeMap<&'static str, u64>);

impl Counts {
    /// Notes of an agent that it is so; it is said of it in these words.
    fn add(
        &mut self,
        state: &mut State,
        what: &'static str,
        is: bool,
        is_bad: bool,
        words: String,
    ) {
        let count = self.0.entry(what).or_default();
        if is {
            *count += 1;
            state.notes.push(words);
            (state.is_odd, state.is_bad) = (true, state.is_bad || is_bad);
        }
    }

    /// What is said of an agent, where the root's last change has this number and its program this
    /// version.
    fn state(&mut self, seen: &Seen, newest: u64, version: u32, now: u64) -> State {
        let mut state = State { notes: Vec::new(), is_odd: false, is_bad: false };
        let (up, has_been) = (seen.connected, seen.sequence != 0);
        let words =
            if has_been { format!("away {}", age(seen.age)) } else { "never heard of".into() };
        self.add(&mut state, "away", !up, true, words);
        let is_behind = up && seen.whole && is_newer(newest, seen.applied);
        let lag = newest.wrapping_sub(seen.applied);
        let words = if seen.applied == 0 { "behind".into() } else { format!("{lag} behind") };
        self.add(&mut state, "behind", is_behind, false, words);
        self.add(&mut state, "waiting", up && !seen.whole, false, "waits for a table".into());
        let differs = seen.compared == Compared::Differs;
        self.add(&mut state, "differing", up && differs, true, "files differ".into());
        let words = format!("{} failing", seen.failing);
        self.add(&mut state, "failing", up && seen.failing > 0, true, words);
        let words = format!("parent {}", seen.place.saturating_add(1));
        self.add(&mut state, "moved", up && seen.place > 0, false, words);
        let days = u64::from(seen.expires).saturating_sub(now) / 86_400;
        let words = format!("certificate {days} d");
        self.add(&mut state, "expiring", up && seen.expires > 0, days < 7, words);
        if up && seen.draining {
            state.notes.push("drains".into());
        }
        if seen.version != version && seen.version != 0 {
            state.notes.push(dotted::text(seen.version));
        }
        state
    }
}

/// A text in which nothing is markup.
fn escaped(text: &str) -> String {
    let letter = |c: char| match c {
        '&' => "&amp;".into(),
        '<' => "&lt;".into(),
        '>' => "&gt;".into(),
        '"' => "&quot;".into(),
        '\'' => "&#39;".into(),
        c => c.to_string(),
    };
    text.chars().map(letter).collect()
}

/// The agents of a list, each under its parent.
struct Tree {
    lines: Vec<String>,
    below: Vec<Vec<usize>>,
}

impl Tree {
    fn new(list: &[Seen], states: &[State]) -> Tree {
        let places: BTreeMap<_, _> = list.iter().zip(0..).map(|(it, at)| (&*it.name, at)).collect();
        let mut below = vec![Vec::new(); list.len()];
        for (at, seen) in list.iter().enumerate().skip(1) {
            let up = places.get(&*seen.parent).copied().filter(|up| *up < at).unwrap_or(0);
            below[up].push(at);
        }
        let lines = list.iter().zip(states).map(|(seen, state)| line(seen, state)).collect();
        Tree { lines, below }
    }

    /// Writes the agents below one, while there is room: how many there were.
    fn write(&self, text: &mut String, at: usize, depth: usize) -> usize {
        let (inner, leaves): (Vec<usize>, _) =
            self.below[at].iter().partition(|at| !self.below[**at].is_empty());
        let mut written = 0;
        for (all, head) in [(inner, "<ul>"), (leaves, "<ul class=e>")] {
            if all.is_empty() || text.len() >= BYTES {
                continue;
            }
            text.push_str(head);
            for below in all {
                // (what is open has to be closed, and something is said at the end)
                if text.len() + self.lines[below].len() + 300 + 5 * DEPTH > BYTES {
                    break;
                }
                text.push_str(&self.lines[below]);
                written += 1;
                if depth < DEPTH {
                    written += self.write(text, below, depth + 1);
                }
            }
            text.push_str("</ul>");
        }
        written
    }
}

fn line(seen: &Seen, state: &State) -> String {
    let class = match state {
        State { is_bad: true, .. } => " class=r",
        State { is_odd: true, .. } => " class=y",
        _ => "",
    };
    let mut line = format!("<li{class}>{}", escaped(&seen.name));
    if !seen.groups.is_empty() {
        let _ = write!(line, " <i>{}</i>", escaped(&seen.groups.join(" ")));
    }
    if !state.notes.is_empty() {
        let _ = write!(line, " <b>{}</b>", escaped(&state.notes.join(", ")));
    }
    line
}

/// The page of a list of agents, of which the first one shows it.
pub fn page(list: &[Seen], now: u64) -> String {
    let Some(first) = list.first() else { return String::new() };
    let mut counts = Counts::default();
    let state = |seen| counts.state(seen, first.changed, first.version, now);
    let states: Vec<State> = list.iter().map(state).collect();
    let up = list.iter().filter(|seen| seen.connected).count();
    let odd = states.iter().filter(|state| state.is_odd).count();
    let (name, all) = (escaped(&first.name), list.len());
    let mut text = format!(
        "<!doctype html><html lang=en><meta charset=utf-8>\
         <meta name=viewport content=\"width=device-width,initial-scale=1\">\
         <meta http-equiv=refresh content={EVERY}><title>{name}: {odd} of {all} to look at</title>\
         <style>{STYLE}</style><h1>{name}</h1>\
         <p><small>rignoldad {}, {}, anew each {EVERY} s</small>\
         <dl><div><dt>agents<dd id=agents>{all}</div><div><dt>up<dd id=up>{up}</div>",
        dotted::text(first.version),
        time(now)
    );
    for (what, count) in counts.0 {
        let class = match (count, what) {
            (0, _) => "",
            (_, "away" | "differing" | "failing") => " class=r",
            _ => " class=y",
        };
        let _ = write!(text, "<div><dt>{what}<dd id={what}{class}>{count}</div>");
    }
    let tree = Tree::new(list, &states);
    let _ = write!(text, "</dl><ul>{}", tree.lines[0]);
    let written = 1 + tree.write(&mut text, 0, 0);
    text.push_str("</ul>");
    if written < list.len() {
        let _ = write!(text, "<p id=more>and {} more", list.len() - written);
    }
    if list.iter().any(|seen| seen.cut) {
        text.push_str("<p>below some there are more than they can report");
    }
    text.push('\n');
    text
}

/// A time as people write it, in UTC: the day by the rule of Gregory's calendar.
fn time(now: u64) -> String {
    let (days, rest) = (now / 86_400, now % 86_400);
    // (days are counted from the first of March of the year 0, so that a leap day is the last one
    // of its year)
    let days = days + 719_468;
    let (era, day) = (days / 146_097, days % 146_097);
    let year = (day - day / 1_460 + day / 36_524 - day / 146_096) / 365;
    let day = day - (365 * year + year / 4 - year / 100);
    let month = (5 * day + 2) / 153;
    let (date, month) = (day - (153 * month + 2) / 5 + 1, (month + 2) % 12 + 1);
    let year = era * 400 + year + u64::from(month <= 2);
    let (hour, minute, second) = (rest / 3_600, rest / 60 % 60, rest % 60);
    format!("{year}-{month:02}-{date:02} {hour:02}:{minute:02}:{second:02} UTC")
}

/// The answer to a request for the page, on which no script runs, whatever it has.
pub fn answer(list: &[Seen]) -> String {
    let page = page(list, unix_now());
    format!(
        "HTTP/1.1 200 OK\r\nContent-Type: text/html; charset=utf-8\r\n\
         Content-Security-Policy: default-src 'none'; style-src 'unsafe-inline'; base-uri 'none'; \
         form-action 'none'; frame-ancestors 'none'\r\nX-Content-Type-Options: nosniff\r\n\
         Referrer-Policy: no-referrer\r\nCache-Control: no-store\r\n\
         Content-Length: {}\r\nConnection: close\r\n\r\n{page}",
        page.len()
    )
}

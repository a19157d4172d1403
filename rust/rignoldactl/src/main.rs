//! Asks a running agent, over its control socket.
#![forbid(unsafe_code)]
use clap::Parser;
use rignolda_machine::settings::{is_newer, VALUE_BYTES};
use rignoldactl::ask::{self, Agent};
use rignoldactl::files::{self, File};
use rignoldactl::{text, tree, Request, Response, Seen, Status};
use serde::Serialize;
use serde_json::json;
use std::io::{ErrorKind, IsTerminal, Read, Write};
use std::path::PathBuf;
use std::process::ExitCode;
use std::time::{Duration, Instant};

mod arguments;

use arguments::{Arguments, Child, Command};

/// How often a command that waits asks.
const PAUSE: Duration = Duration::from_millis(50);
/// How long the table of a round is waited for.
const ROUND: Duration = Duration::from_secs(30);

/// Why a command was not done, and the status to end with.
struct Failed(u8, String);

impl From<std::io::Error> for Failed {
    fn from(error: std::io::Error) -> Failed {
        Failed(3, format!("the agent does not answer: {error}"))
    }
}

fn main() -> ExitCode {
    let arguments = Arguments::parse();
    let done = run(&arguments).map(|text| {
        // (a reader that went away is no fault of the command)
        let _ = std::io::stdout().write_all(text::plain(&text).as_bytes());
    });
    match done {
        Ok(()) => ExitCode::SUCCESS,
        Err(Failed(status, error)) => {
            if arguments.json && !error.is_empty() {
                let _ = writeln!(std::io::stdout(), "{}", json!({ "error": error }));
            }
            if !error.is_empty() {
                let _ = writeln!(std::io::stderr(), "rignoldactl: {}", text::plain(&error));
            }
            ExitCode::from(status)
        }
    }
}

/// Does a command: what to print.
fn run(arguments: &Arguments) -> Result<String, Failed> {
    let mut agent = Agent::connect(&arguments.socket)
        .map_err(|error| Failed(3, ask::no_agent(&arguments.socket, &error)))?;
    let (agent, is_json) = (&mut agent, arguments.json);
    let request = match &arguments.command {
        Command::Publish { key, value } => {
            Request::Publish { key: key.clone(), value: value_of(value.as_deref())? }
        }
        Command::Unset { key } => Request::Unset { key: key.clone() },
        Command::PromoteValue { key } => Request::PromoteValue { key: key.clone() },
        Command::Confirm { digest } => {
            Request::Confirm { digest: digest.clone().unwrap_or_default() }
        }
        Command::Promote { as_is } => Request::Promote { as_is: *as_is },
        Command::Demote => Request::Demote,
        Command::Resume => Request::Resume,
        Command::Child { what: Child::Add { name } } => Request::ChildAdd { name: name.clone() },
        Command::Child { what: Child::Remove { name } } => {
            Request::ChildRemove { name: name.clone() }
        }
        Command::Forget { name } => Request::Forget { name: name.clone() },
        Command::Round => {
            let Some(sequence) = round(agent, ROUND)? else {
                return Ok(shown(is_json, &json!({ "done": true }), nothing));
            };
            return Ok(shown(is_json, &json!({ "sequence": sequence }), |_| numbered(sequence)));
        }
        Command::Status { probe } => {
            let status = status(agent)?;
            let text = shown(is_json, &status, text::status_text);
            let Some(why) = probe.fails(&status) else { return Ok(text) };
            let _ = std::io::stdout().write_all(text::plain(&text).as_bytes());
            let _ = writeln!(std::io::stderr(), "rignoldactl: {}", text::plain(&why));
            return Err(Failed(4, String::new()));
        }
        Command::Tree => {
            let is_root = status(agent)?.is_root;
            let list = tree(agent)?;
            if let Some(warning) = tree::too_few_harmless(&list).filter(|_| is_root) {
                eprintln!("rignoldactl: {warning}");
            }
            return Ok(shown(is_json, &list, |list| text::tree_text(list)));
        }
        Command::List => {
            let folder = folder(agent)?;
            let (files, faults) = files::list(&folder)
                .map_err(|e| Failed(1, format!("{}: {e}", folder.display())))?;
            for fault in faults {
                let _ = writeln!(std::io::stderr(), "rignoldactl: {}", text::plain(&fault));
            }
            return Ok(shown(is_json, &files, |files| text::list_text(files)));
        }
        Command::Get { key, everywhere: false } => {
            let (value, file) = files::get(&folder(agent)?, key).map_err(|why| Failed(1, why))?;
            return Ok(said(is_json, &value, &file));
        }
        Command::Get { key, everywhere: true } => {
            let Response::Key(known) = asked(agent, &Request::Key { key: key.clone() })? else {
                return something_else();
            };
            let mut holders = files::holders(&tree(agent)?, &known);
            // (who may read the value here is shown its digest; of others there are labels)
            let own = folder(agent).ok().and_then(|it| files::get(&it, key).ok());
            files::name(&mut holders, own.map(|(_, file)| file));
            return Ok(shown(is_json, &holders, |holders| text::holders_text(holders)));
        }
        Command::Diff => {
            let Response::Diff(diff) = asked(agent, &Request::Diff)? else {
                return something_else();
            };
            return Ok(shown(is_json, &diff, text::diff_text));
        }
        Command::Bounds => {
            if !status(agent)?.is_root {
                let why = "ask the root: an agent does not know how deep it is";
                return Err(Failed(1, why.into()));
            }
            let list = tree(agent)?;
            return Ok(shown(is_json, &tree::bounds(&list), |_| text::bounds_text(&list)));
        }
        Command::Wait { sequence, now, everywhere, group, timeout } => {
            let begun = Instant::now();
            let mut sequence = match sequence {
                Some(sequence) => known(agent, *sequence)?,
                None => newest(agent, *timeout)?,
            };
            if *now {
                let round = round(agent, timeout.saturating_sub(begun.elapsed()))?;
                let old = "this agent is of an older release: its rounds have no number";
                sequence = round.ok_or_else(|| Failed(1, old.into()))?;
            }
            let whom = match group {
                Some(group) => Whom::Group(group),
                None if *everywhere => Whom::All,
                None => Whom::This,
            };
            wait(agent, sequence, whom, timeout.saturating_sub(begun.elapsed()))?;
            return Ok(shown(is_json, &json!({ "applied": sequence }), nothing));
        }
        Command::Drain { timeout } => {
            asked(agent, &Request::Drain)?;
            let Err(Failed(status, why)) = drained(agent, *timeout) else {
                return Ok(shown(is_json, &json!({ "drained": true }), nothing));
            };
            // (whoever goes on after this must not find that nothing is published)
            asked(agent, &Request::Resume)?;
            return Err(Failed(status, format!("{why}: it publishes again")));
        }
    };
    Ok(match asked(agent, &request)? {
        Response::Published(sequence) => {
            shown(is_json, &json!({ "sequence": sequence }), |_| numbered(sequence))
        }
        Response::Said(words) => {
            let _ = writeln!(std::io::stderr(), "rignoldactl: {}", text::plain(&words));
            shown(is_json, &json!({ "done": true, "said": words }), nothing)
        }
        _ => shown(is_json, &json!({ "done": true }), nothing),
    })
}

/// What is shown of a value: JSON, or its text.
fn shown<T: Serialize>(is_json: bool, value: &T, text: impl FnOnce(&T) -> String) -> String {
    match is_json {
        true => serde_json::to_string(value).expect("texts, numbers and lists are JSON") + "\n",
        false => text(value),
    }
}

/// What is shown of a value. Where it is no JSON, and no person who reads it, these are its very
/// bytes, which are written at once.
fn said(is_json: bool, value: &[u8], file: &File) -> String {
    let text = String::from_utf8_lossy(value);
    match is_json {
        true => {
            let value: String = value.iter().map(|byte| format!("{byte:02x}")).collect();
            let all = json!({
                "key": file.key, "bytes": file.bytes, "digest": file.digest, "value": value,
            });
            format!("{all}\n")
        }
        false if std::io::stdout().is_terminal() => format!("{}\n", text.trim_end_matches('\n')),
        false => {
            let _ = std::io::stdout().write_all(value);
            String::new()
        }
    }
}

fn nothing<T>(_: &T) -> String {
    String::new()
}

fn numbered(sequence: u64) -> String {
    format!("{sequence}\n")
}

/// The value to publish.
fn value_of(word: Option<&str>) -> Result<Vec<u8>, Failed> {
    let mut value = Vec::new();
    match word {
        Some(word) if word != "-" => value.extend_from_slice(word.as_bytes()),
        _ => {
            let input = std::io::stdin().lock();
            input
                .take(VALUE_BYTES as u64 + 1)
                .read_to_end(&mut value)
                .map_err(|error| Failed(1, format!("the standard input: {error}")))?;
        }
    }
    match value.len() > VALUE_BYTES {
        true => Err(Failed(1, format!("a value has at most {VALUE_BYTES} bytes"))),
        false => Ok(value),
    }
}

fn asked(agent: &mut Agent, request: &Request) -> Result<Response, Failed> {
    match agent.ask(request)? {
        Response::Refused(why) => Err(Failed(1, ask::refusal(why))),
        response => Ok(response),
    }
}

fn something_else<T>() -> Result<T, Failed> {
    Err(Failed(3, "the agent answers something else".into()))
}

fn status(agent: &mut Agent) -> Result<Status, Failed> {
    match asked(agent, &Request::Status)? {
        Response::Status(status) => Ok(*status),
        _ => something_else(),
    }
}

fn tree(agent: &mut Agent) -> Result<Vec<Seen>, Failed> {
    match asked(agent, &Request::Tree)? {
        Response::Tree(list) => Ok(list),
        _ => something_else(),
    }
}

/// Where the agent's files are.
fn folder(agent: &mut Agent) -> Result<PathBuf, Failed> {
    match status(agent)?.folder {
        none if none.is_empty() => Err(Failed(1, "this agent keeps no files of settings".into())),
        folder => Ok(folder.into()),
    }
}

/// The number of the last body, after the root has looked at its folder.
fn newest(agent: &mut Agent, timeout: Duration) -> Result<u64, Failed> {
    let status = status(agent)?;
    match status.is_root.then(|| agent.ask_within(timeout, &Request::Look)) {
        None => Ok(status.sequence),
        Some(answer) => in_time(answer, "not all of its folder is published"),
    }
}

/// The number of what is published, where that came in time.
fn in_time(answer: std::io::Result<Response>, late: &str) -> Result<u64, Failed> {
    match answer {
        Ok(Response::Published(sequence)) => Ok(sequence),
        Ok(Response::Refused(why)) => Err(Failed(1, ask::refusal(why))),
        Err(e) if matches!(e.kind(), ErrorKind::WouldBlock | ErrorKind::TimedOut) => {
            Err(Failed(1, format!("the time is up: {late}")))
        }
        Err(error) => Err(error.into()),
        Ok(_) => something_else(),
    }
}

/// Has the root publish a round: the number of its table, which one of an older release does not
/// say.
fn round(agent: &mut Agent, timeout: Duration) -> Result<Option<u64>, Failed> {
    match agent.ask_within(timeout, &Request::Round) {
        Ok(Response::Done) => Ok(None),
        answer => in_time(answer, "the round's table is not published").map(Some),
    }
}

/// The same number, unless it is ahead by more than half of all numbers: then it would count as an
/// older one.
fn known(agent: &mut Agent, sequence: u64) -> Result<u64, Failed> {
    let last = status(agent)?.sequence;
    match sequence > last && is_newer(last, sequence) {
        true => Err(Failed(1, format!("{sequence} is no number of a change: the last is {last}"))),
        false => Ok(sequence),
    }
}

/// Asks for the tree until there is nothing that it `lacks`, which it says in words.
fn until(
    agent: &mut Agent,
    timeout: Duration,
    mut lacks: impl FnMut(Vec<Seen>) -> Option<String>,
) -> Result<(), Failed> {
    let until = Instant::now() + timeout;
    while let Some(words) = lacks(tree(agent)?) {
        if Instant::now() >= until {
            return Err(Failed(1, format!("the time is up: {words}")));
        }
        std::thread::sleep(PAUSE);
    }
    Ok(())
}

/// Which agents of the tree are waited for.
#[derive(Clone, Copy)]
enum Whom<'a> {
    This,
    All,
    Group(&'a str),
}

fn wait(agent: &mut Agent, sequence: u64, whom: Whom, timeout: Duration) -> Result<(), Failed> {
    let shows = !matches!(whom, Whom::This) && std::io::stderr().is_terminal();
    let done = until(agent, timeout, |mut list| {
        match whom {
            Whom::This => list.truncate(1),
            Whom::All => (),
            Whom::Group(group) => list.retain(|it| tree::is_of(it, group) != Some(false) || it.cut),
        }
        if let (Whom::Group(group), []) = (whom, &list[..]) {
            return Some(format!("no agent is known that is of `{group}`"));
        }
        let lacks = |seen: &Seen| match whom {
            Whom::Group(group) => tree::lacks_of(seen, group, sequence),
            _ => tree::lacks(seen, sequence),
        };
        let lacking = list.iter().filter_map(|seen| Some((seen, lacks(seen)?)));
        let lacking: Vec<String> =
            lacking.map(|(seen, why)| format!("{} {why}", seen.name)).collect();
        if shows {
            show(&text::progress(list.len(), &lacking));
        }
        (!lacking.is_empty() || list.is_empty()).then(|| lacking.join(", "))
    });
    if shows {
        show("");
    }
    done
}

/// Shows a line on the terminal in the place of the one before.
fn show(line: &str) {
    let _ = write!(std::io::stderr(), "\r\x1b[K{}", text::plain(line));
}

/// Waits until each agent that is connected has what its parent has, and no backlog, and that twice
/// in turn: for the lists of the agents come up one after the other. Who is away is named.
fn drained(agent: &mut Agent, timeout: Duration) -> Result<(), Failed> {
    let (mut before, mut away) = (false, String::new());
    until(agent, timeout, |list| {
        let newest = list.first().map_or(0, |root| root.sequence);
        let full = |seen: &&Seen| {
            let lags = seen.sequence != newest && is_newer(newest, seen.sequence);
            seen.connected && (seen.backlog > 0 || lags || seen.cut)
        };
        let names = |is: &dyn Fn(&&Seen) -> bool| -> Vec<String> {
            list.iter().filter(is).map(|seen| seen.name.clone()).collect()
        };
        let full = names(&full);
        away = names(&|seen| !seen.connected).join(", ");
        let twice = std::mem::replace(&mut before, full.is_empty()) && full.is_empty();
        (!twice).then(|| format!("not drained at {}", full.join(", ")))
    })?;
    if !away.is_empty() {
        let _ = writeln!(std::io::stderr(), "rignoldactl: not connected: {}", text::plain(&away));
    }
    Ok(())
}

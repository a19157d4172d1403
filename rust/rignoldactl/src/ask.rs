//! The other end of the control socket: asks an agent.
use crate::{Request, Response};
use std::io::ErrorKind::{
    BrokenPipe, ConnectionRefused, ConnectionReset, NotFound, PermissionDenied, TimedOut,
    WouldBlock,
};
use std::io::{self, BufRead, BufReader, Write};
use std::os::unix::fs::MetadataExt;
use std::os::unix::net::UnixStream;
use std::path::{Path, PathBuf};
use std::time::{Duration, Instant};

/// How long the answer to most may take.
const ANSWER: Duration = Duration::from_secs(10);

/// After how long an agent that had no room for one more client is asked again.
const AGAIN: Duration = Duration::from_millis(20);

/// Who asks an agent. It is connected while it asks, and not in between: an agent has room for a
/// few clients, and drives out who is connected and asks for nothing.
#[derive(Debug)]
pub struct Agent {
    path: PathBuf,
    stream: Option<UnixStream>,
}

impl Agent {
    pub fn connect(path: &Path) -> io::Result<Agent> {
        let stream = Some(UnixStream::connect(path)?);
        Ok(Agent { path: path.into(), stream })
    }

    /// Asks for what may be answered after a while, but within this time. Where the agent has no
    /// room, it has read nothing: so it is asked again.
    pub fn ask_within(&mut self, time: Duration, request: &Request) -> io::Result<Response> {
        let until = Instant::now() + time;
        let mut line = line_of(request, true)?;
        loop {
            let connected = self.stream.take().map_or_else(|| UnixStream::connect(&self.path), Ok);
            let answer = connected.and_then(|it| asked(it, &line, until));
            let is_full = |e: &io::Error| matches!(e.kind(), BrokenPipe | ConnectionReset);
            match answer {
                Err(error) if is_full(&error) && Instant::now() < until => {
                    std::thread::sleep(AGAIN);
                }
                Err(error) if is_full(&error) => {
                    let why = "it has too many clients, and was asked for nothing";
                    return Err(io::Error::new(error.kind(), why));
                }
                answer => match serde_json::from_str(&answer?)? {
                    // (one of an older release: what it does not know, it has not done)
                    Response::Refused(why) if why.contains("unknown field `by`") => {
                        line = line_of(request, false)?;
                    }
                    response => return Ok(response),
                },
            }
        }
    }

    pub fn ask(&mut self, request: &Request) -> io::Result<Response> {
        self.ask_within(ANSWER, request)
    }
}

/// The line that asks for this, and says by whom, where something is to be done.
fn line_of(request: &Request, says_who: bool) -> io::Result<Vec<u8>> {
    let mut value = serde_json::to_value(request)?;
    let only_asks = matches!(
        request,
        Request::Status | Request::Tree | Request::Look | Request::Diff | Request::Key { .. }
    );
    if let Some(all) = value.as_object_mut().filter(|_| says_who && !only_asks) {
        all.insert("by".into(), who().into());
    }
    let mut line = serde_json::to_vec(&value)?;
    line.push(b'\n');
    Ok(line)
}

/// Who runs this process: its user, and who became that by sudo.
fn who() -> String {
    let user = std::fs::metadata("/proc/self").map_or(String::new(), |it| it.uid().to_string());
    match std::env::var("SUDO_UID") {
        Ok(before) => format!("uid {user}, by sudo of uid {before}"),
        Err(_) => format!("uid {user}"),
    }
}

/// The answer to a line that is asked over this connection.
fn asked(stream: UnixStream, line: &[u8], until: Instant) -> io::Result<String> {
    let left = || Some(until.saturating_duration_since(Instant::now()).max(AGAIN));
    stream.set_write_timeout(left())?;
    (&stream).write_all(line)?;
    stream.set_read_timeout(left())?;
    let mut answer = String::new();
    let unknown = "it is not known whether it was done";
    match BufReader::new(stream).read_line(&mut answer) {
        Ok(0) => Err(io::Error::other(format!("it ended, and {unknown}"))),
        Err(e) if matches!(e.kind(), WouldBlock | TimedOut) => {
            Err(io::Error::new(e.kind(), format!("not in time, and {unknown}")))
        }
        Err(error) => Err(error),
        Ok(_) => Ok(answer),
    }
}

/// What is said where nobody answers at a control socket.
pub fn no_agent(path: &Path, error: &io::Error) -> String {
    let path = path.display();
    let another = "--socket or RIGNOLDA_CONTROL names another one";
    match error.kind() {
        NotFound | ConnectionRefused => {
            format!("no agent runs with its socket at {path}: {another}")
        }
        PermissionDenied => format!(
            "{path}: {error}: who may ask is in the group of that file, and goes through its folder"
        ),
        _ => format!("{path}: {error}"),
    }
}

/// Why an agent refuses something: an older one does not know each request.
pub fn refusal(why: String) -> String {
    let unknown = why.strip_prefix("unknown variant ").and_then(|rest| rest.split(", ").next());
    let of_older = |it: &str| format!("the agent's release does not know {it}: it is an older one");
    unknown.map(of_older).unwrap_or(why)
}

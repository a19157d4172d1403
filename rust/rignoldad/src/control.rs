//! The sockets at which a running agent is asked: by an operator, and for its
//! [counts](crate::metrics) and [page](crate::page).
use crate::config::Address;
use crate::serve;
use rignolda_machine::settings::VALUE_BYTES;
use rignolda_tls::Listener;
use rignoldactl::{Request, Response};
use serde_json::Value;
use std::io;
use std::net::{IpAddr, SocketAddr};
use std::path::Path;
use std::time::Duration;

/// The longest request: the hexadecimal digits of the longest value, and its key.
const REQUEST_BYTES: usize = 2 * VALUE_BYTES + 4_096;
/// How much of who asks is said.
const WHO: usize = 64;
/// How long a connection may be without a request.
const IDLE: Duration = Duration::from_secs(30);
/// The same of those who ask for the counts.
const COUNTS_BYTES: usize = 8_192;
const COUNTS_IDLE: Duration = Duration::from_secs(5);

/// What is asked for.
pub enum Asked {
    /// Something of an operator, or why it is no request; and who asks, as he says.
    Request(Result<Request, String>, String),
    /// Something for whoever watches.
    Shown(Shown),
}

/// What is shown at the address for metrics.
pub enum Shown {
    Counts,
    Page,
    Nothing,
    /// It was asked for by a name that is none of this machine.
    Elsewhere,
}

impl Shown {
    /// What this request is for.
    pub fn of(request: &[u8]) -> Shown {
        let is_for = |text: &str| request.starts_with(text.as_bytes());
        if is_for("GET /metrics ") || is_for("GET /metrics?") {
            Shown::Counts
        } else if is_for("GET / ") {
            Shown::Page
        } else {
            Shown::Nothing
        }
    }
}

pub type Server = serve::Server<Asked, Listener>;

/// Listens for an operator at a socket of this path, for whom its file lets in.
pub fn server(path: &Path) -> io::Result<Server> {
    let listener = Listener::new(&Address::Unix(path.display().to_string()), Some(0o660))?;
    Ok(Server::new(listener, REQUEST_BYTES, IDLE, asked))
}

/// What a request asks for that is whole, and where it ends.
fn asked(bytes: &[u8], seen: usize) -> Option<(Asked, usize)> {
    let end = seen + bytes[seen..].iter().position(|b| *b == b'\n')?;
    let (request, by) = read(&bytes[..end]);
    Some((Asked::Request(request.map_err(|e| why(&e.to_string())), by), end + 1))
}

/// Makes a server anew that listens for operators, or else at this address for whoever asks for the
/// counts: nothing is believed that was remembered of it, and its clients stay.
pub fn begins_anew(server: &mut Server, counts: Option<SocketAddr>) -> io::Result<()> {
    match counts {
        None => server.begins_anew(REQUEST_BYTES, IDLE, asked),
        Some(address) => server.begins_anew(COUNTS_BYTES, COUNTS_IDLE, parse_at(address)),
    }
    server.listener_mut().begins_anew()
}

/// What is asked for by a line, and by whom, where it says that.
fn read(line: &[u8]) -> (serde_json::Result<Request>, String) {
    let by = br#""by""#;
    if !line.windows(by.len()).any(|it| it == by) {
        return (serde_json::from_slice(line), String::new());
    }
    let mut by = String::new();
    let request = serde_json::from_slice(line).and_then(|mut value: Value| {
        let said = value.as_object_mut().and_then(|all| all.remove("by"));
        by.extend(said.iter().filter_map(Value::as_str).flat_map(|it| it.chars().take(WHO)));
        serde_json::from_value(value)
    });
    (request, by)
}

/// Why what somebody asks for is no request.
fn why(error: &str) -> String {
    match error.starts_with("unknown variant") || error.starts_with("unknown field") {
        true => format!("this agent does not know that, it is of {}", env!("CARGO_PKG_VERSION")),
        false => error.into(),
    }
}

/// Listens at an address for whoever asks for the counts, or the page.
pub fn counts(address: SocketAddr) -> io::Result<Server> {
    let listener = Listener::new(&Address::Tcp(address.to_string()), None)?;
    Ok(Server::new(listener, COUNTS_BYTES, COUNTS_IDLE, parse_at(address)))
}

/// What reads a request of somebody who asks for the counts at this address.
fn parse_at(address: SocketAddr) -> serve::Parse<Asked> {
    if address.ip().is_loopback() {
        shown_here
    } else {
        shown
    }
}

/// What a request asks for that is whole, and where it ends.
fn shown(bytes: &[u8], seen: usize) -> Option<(Asked, usize)> {
    let from = seen.saturating_sub(3);
    let end = from + bytes[from..].windows(4).position(|four| four == b"\r\n\r\n")?;
    Some((Asked::Shown(Shown::of(bytes)), end + 4))
}

/// The same of a request on this machine alone. A browser there also asks for what a page from
/// elsewhere wants, by a name that leads here.
fn shown_here(bytes: &[u8], seen: usize) -> Option<(Asked, usize)> {
    let (asked, end) = shown(bytes, seen)?;
    match is_here(&bytes[..end]) {
        true => Some((asked, end)),
        false => Some((Asked::Shown(Shown::Elsewhere), end)),
    }
}

/// Whether a request names no host but this machine: `localhost`, or an address.
fn is_here(request: &[u8]) -> bool {
    let text = String::from_utf8_lossy(request);
    let heads = text.lines().skip(1).filter_map(|line| line.split_once(':'));
    let mut hosts = heads.filter(|(head, _)| head.trim().eq_ignore_ascii_case("host"));
    hosts.all(|(_, host)| {
        let is_port = |it: &(&str, &str)| it.1.bytes().all(|byte| byte.is_ascii_digit());
        let name = host.trim().rsplit_once(':').filter(is_port).map_or(host.trim(), |it| it.0);
        let name = name.trim_start_matches('[').trim_end_matches(']');
        name.eq_ignore_ascii_case("localhost") || name.parse::<IpAddr>().is_ok()
    })
}

/// The bytes of an answer to an operator.
pub fn answer(response: &Response) -> Vec<u8> {
    let mut line = serde_json::to_vec(response).expect("texts, numbers and lists are JSON");
    line.push(b'\n');
    line
}

#[cfg(test)]
mod tests {
    use super::*;

    #[test]
    fn a_page_from_elsewhere_is_shown_nothing() {
        let rows = [
            ("GET / HTTP/1.0", true),
            ("GET / HTTP/1.1\r\nHost: 127.0.0.1:9464", true),
            ("GET / HTTP/1.1\r\nhost:LOCALHOST", true),
            ("GET / HTTP/1.1\r\nAccept: a:b\r\nHost: [::1]:9464", true),
            ("GET / HTTP/1.1\r\nHost: [::1]", true),
            ("GET / HTTP/1.1\r\nHost: evil.example:9464", false),
            ("GET / HTTP/1.1\r\nHost: 127.0.0.1.evil.example", false),
            ("GET / HTTP/1.1\r\nHost: localhost\r\nHost: evil.example", false),
            ("GET / HTTP/1.1\r\nHost:", false),
        ];
        for (head, expected) in rows {
            let request = format!("{head}\r\n\r\n");
            let (asked, end) = shown_here(request.as_bytes(), 0).unwrap();
            let is_shown = matches!(asked, Asked::Shown(Shown::Page));
            assert_eq!((is_shown, end), (expected, request.len()), "{head}");
            // (where anybody may read it, by any name)
            let asked = shown(request.as_bytes(), request.len() - 1).unwrap().0;
            assert!(matches!(asked, Asked::Shown(Shown::Page)), "{head}");
        }
    }
}

//! The small server of an agent's loop: what it waits for, and that no request is left unread.
use rignolda_machine::{Ticket, Time};
use rignolda_tls::serve::Server;
use std::collections::HashSet;
use std::io::{Read, Write};
use std::net::Shutdown;
use std::os::unix::net::{UnixListener, UnixStream};
use std::time::Duration;

const IDLE: Duration = Duration::from_secs(30);

mod common;
use common::time;

/// A server whose requests are single bytes, and a client of it.
fn server(name: &str) -> (Server<u8, UnixListener>, UnixStream) {
    let name = format!("rignolda-serves-{}-{}", name, std::process::id());
    let path = std::env::temp_dir().join(name);
    let _ = std::fs::remove_file(&path);
    let listener = UnixListener::bind(&path).unwrap();
    listener.set_nonblocking(true).unwrap();
    let client = UnixStream::connect(&path).unwrap();
    std::fs::remove_file(&path).unwrap();
    client.set_read_timeout(Some(Duration::from_secs(9))).unwrap();
    (Server::new(listener, 8, IDLE, |bytes, _| Some((*bytes.first()?, 1))), client)
}

/// The requests that came where all fires that is waited for.
fn asked(server: &mut Server<u8, UnixListener>, now: Time) -> Vec<(Ticket, u8)> {
    let fired: HashSet<_> = server.descriptors().map(|(fd, ..)| fd).collect();
    server.ready(&fired, now)
}

#[test]
fn requests_that_come_together_are_answered_one_after_the_other() {
    let (mut server, mut client) = server("together");
    let now = time();
    client.write_all(b"abc").unwrap();
    client.shutdown(Shutdown::Write).unwrap();
    let mut requests = asked(&mut server, now);
    for (number, byte) in (0_u32..3).zip(*b"abc") {
        assert_eq!(requests.iter().map(|it| it.1).collect::<Vec<_>>(), [byte]);
        server.answer(requests[0].0, &[byte]);
        // (nothing more comes, so nothing fires: what is left is due by itself)
        let is_due = server.deadline().is_some_and(|at| at <= now);
        assert_eq!(is_due, number < 2, "{number}");
        requests = server.ready(&HashSet::new(), now + Duration::from_secs(u64::from(number)));
    }
    assert!(requests.is_empty() && asked(&mut server, now).is_empty());
    let mut answers = String::new();
    client.read_to_string(&mut answers).unwrap();
    assert_eq!(answers, "abc");
}

#[test]
fn what_was_looked_at_is_not_looked_at_again() {
    let path = std::env::temp_dir().join(format!("rignolda-once-{}", std::process::id()));
    let _ = std::fs::remove_file(&path);
    let listener = UnixListener::bind(&path).unwrap();
    listener.set_nonblocking(true).unwrap();
    // (a request ends with a point, and is how many bytes were looked at for it last)
    let mut server = Server::new(listener, 1 << 20, IDLE, |bytes, seen| {
        let end = bytes[seen..].iter().position(|byte| *byte == b'.')?;
        Some((bytes.len() - seen, seen + end + 1))
    });
    let mut client = UnixStream::connect(&path).unwrap();
    std::fs::remove_file(&path).unwrap();
    let ready = |server: &mut Server<usize, UnixListener>| -> Vec<(Ticket, usize)> {
        let fired: HashSet<_> = server.descriptors().map(|(fd, ..)| fd).collect();
        server.ready(&fired, time())
    };
    client.write_all(&[b'x'; 10_000]).unwrap();
    assert!(ready(&mut server).is_empty());
    for _ in 0..100 {
        client.write_all(b"y").unwrap();
        assert!(ready(&mut server).is_empty());
    }
    client.write_all(b"..").unwrap();
    let asked = ready(&mut server);
    assert_eq!(asked.iter().map(|it| it.1).collect::<Vec<_>>(), [2]);
    // (of what follows, everything)
    server.answer(asked[0].0, b"!");
    let asked = ready(&mut server);
    assert_eq!(asked.iter().map(|it| it.1).collect::<Vec<_>>(), [1]);
}

#[test]
fn nothing_is_waited_for_that_changes_nothing() {
    let (mut server, mut client) = server("waits");
    let now = time();
    let clients = |server: &Server<u8, UnixListener>| -> Vec<bool> {
        server.descriptors().skip(1).map(|(_, _, writes)| writes).collect()
    };
    client.write_all(b"a").unwrap();
    client.shutdown(Shutdown::Write).unwrap();
    let requests = asked(&mut server, now);
    // (the client has closed its end, which can be read all the time, and nobody is to read it)
    assert!(clients(&server).is_empty());
    let (answer, ticket) = (vec![b'!'; 4 << 20], requests[0].0);
    server.answer(ticket, &answer);
    assert_eq!(clients(&server), [true], "until it can be written, and not read");
    let mut got = vec![0; answer.len()];
    for part in got.chunks_mut(1 << 16) {
        client.read_exact(part).unwrap();
        assert!(asked(&mut server, now).is_empty());
    }
    assert!(got == answer && clients(&server).is_empty(), "it has gone");
}

#[test]
fn clients_without_a_request_keep_no_other_out() {
    let path = std::env::temp_dir().join(format!("rignolda-serves-idle-{}", std::process::id()));
    let _ = std::fs::remove_file(&path);
    let listener = UnixListener::bind(&path).unwrap();
    listener.set_nonblocking(true).unwrap();
    let mut server: Server<u8, _> =
        Server::new(listener, 8, IDLE, |bytes, _| Some((*bytes.first()?, 1)));
    let begun = time();
    let at = |milliseconds| begun + Duration::from_millis(milliseconds);
    let mut idle: Vec<UnixStream> = Vec::new();
    for round in 0..3_u64 {
        idle.extend((0..16).map(|_| UnixStream::connect(&path).unwrap()));
        assert!(asked(&mut server, at(round * 10)).is_empty());
        let mut client = UnixStream::connect(&path).unwrap();
        client.write_all(b"?").unwrap();
        // (where more come at once than there is room for, the next turn has those that are left)
        let mut requests = Vec::new();
        for turn in 1..4 {
            requests.extend(asked(&mut server, at(round * 10 + turn)));
        }
        assert_eq!(requests.len(), 1, "{round}");
        server.answer_last(requests[0].0, b"!");
        let mut answer = Vec::new();
        client.read_to_end(&mut answer).unwrap();
        assert_eq!(answer, b"!", "{round}");
    }
    assert!(server.descriptors().count() <= 17);
    // (one whose request waits for its answer stays)
    let mut waits = UnixStream::connect(&path).unwrap();
    waits.write_all(b"?").unwrap();
    let request = asked(&mut server, at(100));
    idle.extend((0..40).map(|_| UnixStream::connect(&path).unwrap()));
    for turn in 1..9 {
        assert!(asked(&mut server, at(100 + turn)).is_empty());
    }
    server.answer_last(request[0].0, b"!");
    let mut answer = Vec::new();
    waits.read_to_end(&mut answer).unwrap();
    assert_eq!(answer, b"!");
    std::fs::remove_file(path).unwrap();
}

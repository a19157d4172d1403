//! What the fuzzer calls: each target reads bytes as the daemon does, and panics where what comes
//! out is not what the format says.
use rignolda_machine::below::{reports, Below};
use rignolda_machine::net::parents::NAMES;
use rignolda_machine::net::wire::{self, take, Expect, Message, REPORT_BYTES, WAY_BYTES};
use rignolda_machine::net::{
    Body, Children, End, Output, Parent, Parents, Peers, Setup, Way, BODY_BYTES, NAME_BYTES,
};
use rignolda_machine::settings::{Meaning, Table};
use rignolda_machine::{Ticket, Time};
use rignoldactl::text::{bounds_text, tree_text};
use rignoldactl::{sha256, ChildStatus, Request, Response, Status};
use rignoldad::config::Config;
use rignoldad::control::{self, Asked, Server};
use std::cell::RefCell;
use std::collections::BTreeMap;
use std::io::{Read, Write};
use std::net::Shutdown;
use std::os::unix::net::UnixStream;
use std::path::PathBuf;
use std::time::Duration;

thread_local! {
    static INPUT: RefCell<Vec<u8>> = const { RefCell::new(Vec::new()) };
    static CONTROL: RefCell<Option<(Server, PathBuf)>> = const { RefCell::new(None) };
}

/// One more byte of the input. (So no pointer goes from the fuzzer to the daemon's code.)
#[no_mangle]
pub extern "C" fn rignolda_fuzz_byte(byte: u8) {
    INPUT.with(|input| input.borrow_mut().push(byte));
}

/// Tries the input with a target: its place in the list of harness.c.
#[no_mangle]
pub extern "C" fn rignolda_fuzz_run(target: u32) {
    let input = INPUT.with(|input| std::mem::take(&mut *input.borrow_mut()));
    match target {
        0 => messages(&input),
        1 => body(&input),
        2 => configuration(&input),
        3 => requests(&input),
        _ => agent(&input),
    }
}

/// A number in big-endian order, if all its bytes are there.
fn number(bytes: &[u8], at: usize, length: usize) -> Option<u64> {
    let bytes = bytes.get(at..at + length)?;
    Some(bytes.iter().fold(0, |number, byte| number * 256 + u64::from(*byte)))
}

/// Whether a text is the name of an agent.
fn is_name(text: &str) -> bool {
    let good = |c| matches!(c, 'a'..='z' | 'A'..='Z' | '0'..='9' | '.' | '_' | '-');
    let first = text.chars().next();
    text.chars().all(good) && !matches!(first, None | Some('.' | '-')) && text.len() <= 64
}

/// What each end may expect, which the first byte chooses.
const EXPECT: [Expect; 4] = [Expect::Hello, Expect::Way, Expect::Frames, Expect::Acks];

/// Where the length of what follows lies in each kind of message, how many bytes it has, and the
/// most that it may be.
const LENGTHS: [(u8, usize, usize, usize); 4] = [
    (b'F', 7, 4, BODY_BYTES),
    (b'D', 7, 4, BODY_BYTES),
    (b'W', 3, 2, WAY_BYTES),
    (b'R', 1, 4, REPORT_BYTES),
];

/// The bytes of a message. It is one that an agent may say.
fn written(message: &Message) -> Vec<u8> {
    match message {
        Message::Hello(hello) | Message::Look(hello) => {
            let is_look = matches!(message, Message::Look(_));
            // (of looks, version 1 knows nothing)
            assert!(hello.version > u8::from(is_look));
            assert!(is_name(&hello.from) && (hello.to.is_empty() || is_name(&hello.to)));
            if is_look {
                hello.look()
            } else {
                hello.bytes()
            }
        }
        Message::Way(way) => {
            assert!(way.names.len() <= NAMES && way.names.iter().all(|name| is_name(name)));
            wire::way(way)
        }
        Message::Frame(label, body) => [wire::frame(*label, body), body.bytes.clone()].concat(),
        Message::Reference(label, it) => wire::reference(*label, it),
        Message::Lacks(label) => wire::lacks(*label),
        Message::Ack(label) => wire::ack(*label),
        Message::Report(json) => wire::report(json),
        Message::ReportRequest => wire::REPORT_REQUEST.to_vec(),
        Message::Goodbye => wire::GOODBYE.to_vec(),
        other => panic!("{other:?}"),
    }
}

/// Messages, one behind the other: what is taken of them is just what is written of it. (That all
/// is taken which may be, the tests of the library say.)
fn messages(bytes: &[u8]) {
    let Some((first, bytes)) = bytes.split_first() else { return };
    let (expect, now) = (EXPECT[usize::from(first % 4)], Time::default());
    let mut chooses = Parents::new("inner", [None, Some(3)]).with_children();
    let (mut input, mut at) = (bytes.to_vec(), 0);
    // (in words, and never of what is a whole message)
    if let Some(why) = wire::refused(bytes, expect) {
        assert!(!why.to_string().is_empty() && take(&mut bytes.to_vec(), expect) == Ok(None));
        assert!([wire::refusal(why), wire::last_refusal(why)].iter().all(|it| it.len() <= 7));
    }
    loop {
        let (rest, taken) = (&bytes[at..], take(&mut input, expect));
        // (a hello begins as a report does)
        let is_long = LENGTHS.iter().any(|(kind, place, digits, most)| {
            first % 4 != 0
                && rest.first() == Some(kind)
                && number(rest, *place, *digits).is_some_and(|it| it > *most as u64)
        });
        match taken {
            Ok(Some(message)) => {
                let own = written(&message);
                assert!(!is_long && rest.starts_with(&own), "{message:?}");
                at += own.len();
                assert_eq!(input, bytes[at..]);
                match message {
                    Message::Way(way) => told(&mut chooses, at % 2, way),
                    Message::Report(json) => heard(&json, now),
                    Message::Frame(_, body) => drop(body.meaning()),
                    _ => (),
                }
            }
            // (no hello has more bytes: so what is kept of one is bounded)
            Ok(None) => {
                let most = if first % 4 == 0 { 17 + 2 * NAME_BYTES } else { usize::MAX };
                return assert!(!is_long && rest.len() < most);
            }
            Err(_) => return,
        }
    }
}

/// A candidate says a way, and is taken where it may be: what the agent then says is a way as well.
fn told(chooses: &mut Parents, candidate: usize, way: Way) {
    if chooses.looked(candidate, &way).is_ok() {
        chooses.took(candidate, way);
    }
    let says = chooses.says().clone();
    assert_eq!(says.names.last().map(String::as_str), Some("inner"));
    let read = take(&mut wire::way(&says), Expect::Way);
    assert_eq!(read, Ok(Some(Message::Way(says))));
}

/// What an agent tells its parent of a report is one as well, and of changes behind another one.
fn heard(json: &[u8], now: Time) {
    let base = br#"[{"name":"child"},{"name":"leaf","parent":"child"}]"#;
    let changes = [b"C", &reports::id(base, sha256)[..], json].concat();
    passed_on(&[json], now);
    passed_on(&[base, &changes], now);
}

/// Reports come from a child, and what follows is passed on.
fn passed_on(reports: &[&[u8]], now: Time) {
    let (mut below, mut now) = (Below::new(sha256), now);
    for report in reports {
        if !below.heard("child", report, now) {
            return;
        }
        now += Duration::from_secs(1);
    }
    let children =
        ["child", "other"].map(|name| ChildStatus { name: name.into(), ..ChildStatus::default() });
    let status = Status { name: "inner".into(), children: children.into(), ..Status::default() };
    let report = below.report(&status, now);
    assert!(report.len() <= REPORT_BYTES);
    assert!(Below::new(sha256).heard("inner", &report, now));
    let list = below.tree(&status, now);
    // (what is kept of who is away is the same)
    below.learns([("child", false)].into_iter());
    below.keeps(now);
    assert_eq!(below.tree(&status, now), list);
    let text = tree_text(&list) + &bounds_text(&list);
    assert!(text.contains("child"));
}

/// The checksum as its definition says it: the remainder of a division, bit by bit.
fn checksum(bytes: &[u8]) -> u32 {
    !bytes.iter().fold(u32::MAX, |sum, byte| {
        (0..8).fold(sum ^ u32::from(*byte), |sum, _| {
            if sum & 1 == 1 {
                sum >> 1 ^ 0xedb8_8320
            } else {
                sum >> 1
            }
        })
    })
}

fn body(bytes: &[u8]) {
    let other = Body { item: !checksum(bytes), bytes: bytes.to_vec() };
    assert_eq!(other.meaning(), None);
    let body = Body { item: checksum(bytes), bytes: bytes.to_vec() };
    if let Some((sequence, meaning)) = body.meaning() {
        assert_eq!(*Body::new(sequence, &meaning), body);
        let mut table = Table::default();
        // (an agent begins as if it had number 0, so that a body of this number is no newer one)
        let is_newer = table.takes(sequence, &meaning) && table.heard.applies;
        assert_eq!(is_newer, sequence != 0);
        let keys: Vec<&str> = match &meaning {
            Meaning::Table(entries) => entries.iter().map(|entry| entry.0).collect(),
            Meaning::Changes(entries) => {
                entries.iter().filter_map(|entry| entry.1.map(|_| entry.0)).collect()
            }
            Meaning::Harmless => Vec::new(),
        };
        assert!(!is_newer || table.keys.keys().eq(keys));
        assert!(!table.takes(sequence, &meaning));
        table.takes(sequence ^ 1, &meaning);
    }
}

fn configuration(bytes: &[u8]) {
    let Ok(text) = std::str::from_utf8(bytes) else { return };
    match Config::parse(text) {
        Ok(config) => {
            let peers = &config.agent.peers;
            let parents = peers.parents.iter().filter_map(|parent| parent.name.as_ref());
            let children = match &peers.children {
                Children::Named(children) => children.keys().collect(),
                Children::Any => Vec::new(),
            };
            let mut names = parents.chain(children).chain([&peers.name]);
            assert!(names.all(|name| is_name(name)));
            assert_eq!(config.agent.root.is_some(), peers.parents.is_empty());
            assert!(config.clone().take(config.clone()).is_empty());
        }
        Err(faults) => {
            assert!(!faults.is_empty());
            for fault in faults {
                assert!(!fault.text.is_empty());
                assert!(fault.line <= 1 + text.matches('\n').count());
            }
        }
    }
}

/// What has come at the control socket.
fn ready(server: &mut Server) -> Vec<(Ticket, Result<Request, String>)> {
    let fired = server.descriptors().map(|(descriptor, ..)| descriptor).collect();
    let asked = server.ready(&fired, Time::default()).into_iter();
    asked
        .map(|(ticket, asked)| match asked {
            Asked::Request(request, _) => (ticket, request),
            Asked::Shown(_) => panic!("they are asked for elsewhere"),
        })
        .collect()
}

/// A client of the control socket, that sends these bytes and no more.
fn requests(bytes: &[u8]) {
    CONTROL.with(|control| {
        let mut control = control.borrow_mut();
        let (server, path) = control.get_or_insert_with(|| {
            let name = format!("rignolda-fuzz-{}", std::process::id());
            let path = std::env::temp_dir().join(name);
            (control::server(&path).expect("a socket"), path)
        });
        let mut client = UnixStream::connect(path).expect("a connection");
        client.write_all(bytes).expect("the socket takes it");
        client.shutdown(Shutdown::Write).expect("an end");
        let end = bytes.iter().rposition(|byte| *byte == b'\n').map_or(0, |end| end + 1);
        let mut answers = String::new();
        for line in bytes[..end].split_inclusive(|byte| *byte == b'\n') {
            let expected = serde_json::from_slice::<Request>(line).ok();
            let requests = ready(server);
            assert_eq!(requests.len(), 1);
            for (ticket, request) in requests {
                let request = request.map_err(Response::Refused);
                assert_eq!(request.as_ref().ok(), expected.as_ref());
                let response = request.map_or_else(
                    |refused| refused,
                    |request| {
                        let again = serde_json::to_vec(&request).expect("a request is JSON");
                        assert_eq!(serde_json::from_slice::<Request>(&again).ok(), Some(request));
                        Response::Done
                    },
                );
                server.answer(ticket, &control::answer(&response));
            }
        }
        for _ in 0..2 {
            assert!(ready(server).is_empty());
        }
        client.read_to_string(&mut answers).expect("answers, and the end");
        let lines = bytes[..end].split_inclusive(|byte| *byte == b'\n').count();
        assert_eq!(answers.lines().count(), lines);
        assert_eq!(server.descriptors().count(), 1);
    });
}

const CHILDREN: [(&str, Option<&str>); 3] =
    [("leaf", None), ("far", Some("line")), ("kept", Some("store"))];
/// What others set in the store, and what the agent sets, which they may spoil.
const KEYS: [&str; 6] = [
    "hub3:inner:way",
    "hub3:inner:down",
    "hub3:inner:up",
    "inner:kept:up",
    "inner:kept:report",
    "inner:kept:down",
];

/// An agent with parents and children of each kind. Of each piece of the input the first byte says
/// by which line it comes, at which key of the store it lies, or that time goes by; and the second
/// one how long it is.
fn agent(bytes: &[u8]) {
    let parent =
        |name: &str, address| Parent { name: Some(name.to_string()), address, price: None };
    let setup = Setup {
        name: "inner".into(),
        rank: None,
        parents: vec![
            parent("hub1", None),
            parent("hub2", Some("line")),
            parent("hub3", Some("store")),
        ],
        children: Children::Named(CHILDREN.map(|(name, at)| (name.to_string(), at)).into()),
        ack_timeout: Duration::from_millis(500),
        evict: Duration::from_secs(60),
        poll: Duration::from_millis(50),
    };
    let (mut now, mut below) = (Time::default(), Below::new(sha256));
    let (mut peers, mut store) = (Peers::new(setup, 7, 16, now), BTreeMap::new());
    let (mut rest, mut made) = (bytes, 0);
    while let [first, length, after @ ..] = rest {
        let (piece, after) = after.split_at(after.len().min(usize::from(*length)));
        rest = after;
        match usize::from(first % 8) {
            7 => {
                now += Duration::from_millis(u64::from(*length) * 10);
                assert_eq!(peers.check(false, now), Ok(()));
                let children = peers.relay().children();
                below.learns(children.map(|(name, link)| (&**name, link.is_connected())));
                below.keeps(now);
            }
            6 => {
                let key = KEYS[usize::from(first / 8) % KEYS.len()];
                store.insert(key.to_string(), piece.to_vec());
            }
            at => {
                if peers.lines().nth(at).is_none() {
                    made += 1;
                    peers.accept(made, End::default(), now);
                }
                let id = peers.lines().take(at + 1).last().expect("there is one");
                peers.bytes(id, piece, now);
            }
        }
        turn(&mut peers, &mut below, &mut store, &mut made, now);
        assert_eq!(peers.fault(), None);
    }
    // All that is due now gets done: no loop would turn without end.
    let is_done = (0..16).any(|_| {
        turn(&mut peers, &mut below, &mut store, &mut made, now);
        peers.deadline().is_none_or(|at| at > now)
    });
    assert!(is_done);
    assert!(peers.lines().count() <= 64 + 2 * CHILDREN.len() + 3);
    assert_eq!(peers.way().names.last().map(String::as_str), Some("inner"));
    assert!(peers.way().names.len() <= NAMES);
}

/// Does what comes out; and all that is sent is with the system at once.
fn acts(peers: &mut Peers<&'static str>, below: &mut Below, now: Time) {
    while let Some(output) = peers.output() {
        match output {
            Output::Item(body) => {
                let is_table = matches!(body.meaning(), Some((_, Meaning::Table(_))));
                peers.takes(is_table, now);
            }
            Output::Send(id, chunk) => {
                assert!(chunk.from(0).iter().any(|part| !part.is_empty()));
                peers.sent(id, now);
            }
            Output::Report(child, report) => {
                assert!(CHILDREN.iter().any(|(name, _)| *name == child));
                below.heard(&child, &report, now);
            }
            Output::Gone(child) => below.forget(&child),
            Output::Fact(fact) => assert!(!fact.to_string().is_empty()),
            _ => (),
        }
    }
}

/// Does what is due.
fn turn(
    peers: &mut Peers<&'static str>,
    below: &mut Below,
    store: &mut BTreeMap<String, Vec<u8>>,
    made: &mut u64,
    now: Time,
) {
    acts(peers, below, now);
    peers.tick(now);
    while let Some(call) = peers.next_call(now) {
        match call.address {
            "store" => peers.in_store(call, now),
            _ => {
                *made += 1;
                peers.called(call, Ok((*made, End::default())), now);
            }
        }
    }
    for (place, turn) in peers.turns(now) {
        store.extend(turn.sets);
        let shown = |(key, most): &(String, usize)| {
            let bytes = store.get(key).map_or(&[][..], Vec::as_slice);
            bytes[..bytes.len().min(*most)].to_vec()
        };
        let got = turn.gets.iter().map(shown).collect();
        peers.turned(&place, Ok(got), now);
    }
    acts(peers, below, now);
}

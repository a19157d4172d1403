//! The lines of an agent over real sockets: what the system tells of them, whose turn it is, and
//! that nothing is left behind.
use rignolda_machine::machine::Input;
use rignolda_machine::net::{Address, Call, Chunk, Whom};
use rignolda_tls::Own;
use rignoldad::config::Config;
use rignoldad::lines::Lines;
use rignoldad::system::time;
use std::io::{Read, Write};
use std::os::unix::io::AsRawFd;
use std::os::unix::net::{UnixListener, UnixStream};
use std::time::Duration;

/// What does not come on a machine with much else to do does not come at all.
const LONG: Duration = Duration::from_secs(60);

/// The lines of an agent.
fn lines() -> Lines {
    let config = Config::parse("name = \"a\"\nlisten = [\"127.0.0.1:7464\"]\nparents = [\"b\"]");
    Lines::new(&config.unwrap(), &Own::default()).unwrap()
}

/// A new line of these, and its other end.
fn line(lines: &mut Lines) -> (u64, UnixStream) {
    line_after(lines, || ())
}

/// The same, right before which something is done.
fn line_after(lines: &mut Lines, does: impl FnOnce()) -> (u64, UnixStream) {
    static MADE: std::sync::atomic::AtomicU64 = std::sync::atomic::AtomicU64::new(0);
    let made = MADE.fetch_add(1, std::sync::atomic::Ordering::Relaxed);
    let name = format!("rignoldad-lines-{}-{made}", std::process::id());
    let path = std::env::temp_dir().join(name);
    let _ = std::fs::remove_file(&path);
    let listener = UnixListener::bind(&path).unwrap();
    let address = Address::Unix(path.display().to_string());
    does();
    let called = lines.call(Call { whom: Whom::Parent, address, failed: 0 });
    std::fs::remove_file(path).unwrap();
    match called {
        Some(Input::Called(_, Ok((id, _)))) => (id, listener.accept().unwrap().0),
        _ => panic!("there is no line"),
    }
}

/// What came by a line: its bytes, and whether it is over.
fn read(lines: &mut Lines, id: u64) -> (Vec<u8>, bool) {
    let (mut came, mut is_over) = (Vec::new(), false);
    lines.read(id, |input| {
        match input {
            Input::Bytes(_, bytes) => came.extend_from_slice(bytes),
            Input::Over(..) => is_over = true,
            _ => (),
        }
        true
    });
    (came, is_over)
}

/// Waits until the system tells of this line.
fn fires(lines: &mut Lines, id: u64) {
    let until = time() + LONG;
    while !lines.wait(|_| false, Vec::new(), until, LONG).unwrap().ready.contains(&id) {
        assert!(time() < until, "the system tells nothing of it");
    }
}

/// Where the system tells of the bytes and of the end at once, it tells of the end no second time.
#[test]
fn an_end_that_comes_with_the_last_bytes_is_seen() {
    let mut lines = lines();
    let (id, mut other) = line(&mut lines);
    other.write_all(b"RGND").unwrap();
    drop(other);
    fires(&mut lines, id);
    assert_eq!(read(&mut lines, id), (b"RGND".to_vec(), true));
}

/// A line that is full is waited for until it can be written; then all goes, and that is told.
#[test]
fn what_does_not_fit_is_written_once_there_is_room() {
    let mut lines = lines();
    let (id, mut other) = line(&mut lines);
    let length = 4 << 20;
    lines.send(id, Chunk::Bytes(vec![7; length]));
    assert!(lines.written().is_empty(), "it fits at once");
    other.set_read_timeout(Some(LONG)).unwrap();
    let mut came = 0;
    let mut space = vec![0; 1 << 20];
    while came < length {
        came += other.read(&mut space).unwrap();
        if came < length {
            fires(&mut lines, id);
            lines.write(id);
        }
    }
    let written = lines.written();
    assert_eq!(
        written.iter().map(|(it, done)| (*it, done.is_ok())).collect::<Vec<_>>(),
        [(id, true)]
    );
    // (and what comes is told of as before)
    other.write_all(b"well").unwrap();
    fires(&mut lines, id);
    assert_eq!(read(&mut lines, id).0, b"well");
}

/// No line has a number that another one has, or had.
#[test]
fn no_line_has_the_number_of_another_one() {
    let mut lines = lines();
    let (first, one) = line(&mut lines);
    let (second, two) = line(&mut lines);
    assert_ne!(first, second);
    lines.close(first);
    let (third, three) = line(&mut lines);
    assert!(third > second);
    lines.begin_anew();
    assert!(line(&mut lines).0 > third);
    drop((one, two, three));
}

/// An operator's connection that is over, say, gives its descriptor's number to the next line.
#[test]
fn a_line_is_waited_for_whatever_its_descriptor_was_before() {
    let mut lines = lines();
    for _ in 0..100 {
        let (gone, _other) = UnixStream::pair().unwrap();
        let others = vec![(gone.as_raw_fd(), 1, false)];
        lines.wait(|_| false, others, time(), LONG).unwrap();
        let (id, mut other) = line_after(&mut lines, || drop(gone));
        other.write_all(b"RGND").unwrap();
        fires(&mut lines, id);
        lines.close(id);
    }
}

/// As what tells of changes in a folder, where the agent begins anew.
#[test]
fn what_is_made_anew_is_waited_for_though_it_has_the_same_descriptor() {
    let mut lines = lines();
    for _ in 0..100 {
        let (one, _other) = UnixStream::pair().unwrap();
        let fd = one.as_raw_fd();
        lines.wait(|_| false, vec![(fd, 0, false)], time(), LONG).unwrap();
        drop(one);
        lines.begin_anew();
        let (one, mut other) = UnixStream::pair().unwrap();
        if one.as_raw_fd() == fd {
            other.write_all(b"?").unwrap();
            let until = time() + LONG;
            let fired = lines.wait(|_| false, vec![(fd, 0, false)], until, LONG).unwrap();
            assert!(fired.others.contains(&fd), "the system tells nothing of it");
        }
    }
}

#[test]
fn whoever_waits_is_read_although_others_are_always_ready() {
    let mut lines = lines();
    // (40 of whom nobody knows whose they are, behind one that is known)
    let ready: Vec<u64> = (1..=41).collect();
    let is_greeting = |id| id != 41;
    let mut seen = std::collections::BTreeSet::new();
    let first = lines.in_turn(&ready, is_greeting);
    assert!(first.contains(&41) && first.len() < 20, "{first:?}");
    seen.extend(first);
    // (the first ones are ready again and again)
    for _ in 0..10 {
        seen.extend(lines.in_turn(&[1, 2, 3, 4, 5, 6, 7, 8], is_greeting));
    }
    assert!(ready.iter().all(|id| seen.contains(id)), "{seen:?}");
}

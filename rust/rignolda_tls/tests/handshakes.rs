//! Handshakes in threads of their own: what somebody sends whom nobody knows costs the thread that
//! reads and writes lines next to nothing, and holds nobody else up.
use openssl::bn::BigNum;
use rignolda_machine::net::{Origin, Shown};
use rignolda_tls::{Handshakes, Line, Maker};
use std::fs;
use std::io::{ErrorKind, Read, Write};
use std::net::{SocketAddr, TcpListener, TcpStream};
use std::sync::Arc;
use std::thread::{self, JoinHandle};
use std::time::{Duration, Instant};

mod common;
use common::{accept, certificate, listen, maker, time, Folder, TIMEOUT};

/// A value of DER: its tag, and what it is made of.
fn der(tag: u8, parts: &[&[u8]]) -> Vec<u8> {
    let inside = parts.concat();
    let length = match inside.len() as u16 {
        it @ 0..=127 => vec![it as u8],
        it => [&[0x82][..], &it.to_be_bytes()].concat(),
    };
    [&[tag][..], &length, &inside].concat()
}

/// A certificate that nobody signed, whose key costs a fifth of a second to read: it is on a curve
/// of its own, over a prime `p` of which `p - 1` is divisible by 2 to the power of 300, and its
/// point is compressed. So its other half is a square root modulo `p`.
fn hard_certificate() -> Vec<u8> {
    let (one, mut factor, mut prime) =
        (BigNum::from_u32(1).unwrap(), BigNum::new().unwrap(), BigNum::new().unwrap());
    factor.lshift(&one, 360).unwrap();
    factor.add_word(347).unwrap();
    prime.lshift(&factor, 300).unwrap();
    prime.add_word(1).unwrap();
    let oid = |bytes: &[u8]| der(6, &[bytes]);
    let number = |it: u8| der(2, &[&[it]]);
    let sequence = |parts: &[&[u8]]| der(0x30, parts);
    // (of y^2 = x^3 + 49 x + 49 the point whose x is 0)
    let point = [&[2][..], &[0; 83]].concat();
    let field =
        sequence(&[&oid(&[0x2a, 0x86, 0x48, 0xce, 0x3d, 1, 1]), &der(2, &[&prime.to_vec()])]);
    let curve = sequence(&[&der(4, &[&[1]]), &der(4, &[&[49]])]);
    let curve = sequence(&[&number(1), &field, &curve, &der(4, &[&point]), &number(7)]);
    let kind = sequence(&[&oid(&[0x2a, 0x86, 0x48, 0xce, 0x3d, 2, 1]), &curve]);
    let key = sequence(&[&kind, &der(3, &[&[0], &point])]);
    let signs = sequence(&[&oid(&[0x2a, 0x86, 0x48, 0xce, 0x3d, 4, 3, 2])]);
    let name = der(0x31, &[&sequence(&[&oid(&[0x55, 4, 3]), &der(12, &[b"x"])])]);
    let name = sequence(&[&name]);
    let times = sequence(&[&der(0x17, &[b"250101000000Z"]), &der(0x17, &[b"450101000000Z"])]);
    let signed = sequence(&[&number(1), &signs, &name, &times, &name, &key]);
    let signature = der(3, &[&[0], &sequence(&[&number(1), &number(1)])]);
    sequence(&[&signed, &signs, &signature])
}

/// A message of a handshake of TLS 1.2, in its record.
fn message(kind: u8, inside: &[u8]) -> Vec<u8> {
    let length = (inside.len() as u32).to_be_bytes();
    let message = [&[kind][..], &length[1..], inside].concat();
    [&[22, 3, 3][..], &(message.len() as u16).to_be_bytes(), &message].concat()
}

/// The certificates of either end of a handshake, each of which is hard to read.
fn hard_message(count: usize) -> Vec<u8> {
    let one = hard_certificate();
    let length = |count: usize| (count as u32).to_be_bytes()[1..].to_vec();
    let all = [length(one.len()), one].concat().repeat(count);
    message(11, &[length(all.len()), all].concat())
}

/// Answers an agent that calls it so.
fn answer(listener: &TcpListener, count: usize) -> TcpStream {
    let mut line = listener.accept().unwrap().0;
    let mut head = [0; 5];
    line.read_exact(&mut head).unwrap();
    let length = u16::from_be_bytes([head[3], head[4]]);
    line.read_exact(&mut vec![0; length.into()]).unwrap();
    let extensions = [0, 11, 0xff, 1, 0, 1, 0, 0, 11, 0, 2, 1, 0];
    let hello = [&[3, 3][..], &[7; 32], &[0, 0xc0, 0x2b, 0], &extensions].concat();
    line.write_all(&message(2, &hello)).unwrap();
    line.write_all(&hard_message(count)).unwrap();
    line
}

/// Connects to an agent without any key, and sends it as many certificates as a client's.
fn attack(address: SocketAddr, count: usize) -> TcpStream {
    let mut line = TcpStream::connect(address).unwrap();
    let extension = |kind: u16, inside: &[u8]| {
        [&kind.to_be_bytes()[..], &(inside.len() as u16).to_be_bytes(), inside].concat()
    };
    let extensions = [
        extension(10, &[0, 4, 0, 29, 0, 23]),
        extension(11, &[1, 0]),
        extension(13, &[0, 4, 4, 3, 8, 4]),
        extension(0xff01, &[0]),
    ];
    let extensions = extensions.concat();
    let hello = [
        &[3, 3][..],
        &[7; 32],
        &[0, 0, 4, 0xc0, 0x2b, 0xc0, 0x2f, 1, 0],
        &(extensions.len() as u16).to_be_bytes(),
        &extensions,
    ];
    line.write_all(&message(1, &hello.concat())).unwrap();
    let (mut seen, mut space) = (Vec::new(), [0; 4_096]);
    while !seen.ends_with(&[14, 0, 0, 0]) {
        let count = line.read(&mut space).unwrap();
        assert!(count > 0, "{seen:?}");
        seen.extend_from_slice(&space[..count]);
    }
    line.write_all(&hard_message(count)).unwrap();
    line
}

/// How much of a processor's time this thread has used.
fn used() -> Duration {
    let text = fs::read_to_string("/proc/thread-self/schedstat").unwrap();
    Duration::from_nanos(text.split_whitespace().next().unwrap().parse().unwrap())
}

/// Reads a line until it fails, and returns what the dearest turn of this thread cost: how many
/// turns there are is up to the machine.
fn dearest_turn(line: &mut Line, handshakes: &mut Handshakes) -> Duration {
    let end = Instant::now() + TIMEOUT;
    let mut dearest = Duration::ZERO;
    loop {
        let begun = used();
        handshakes.go_on(time(), |_| false);
        handshakes.ended(time());
        let what = line.read(&mut [0; 9]);
        dearest = dearest.max(used() - begun);
        match what {
            Ok(_) => panic!("it was read"),
            Err(e) if e.kind() != ErrorKind::WouldBlock => return dearest,
            Err(_) => assert!(Instant::now() < end, "nothing came in time"),
        }
        thread::sleep(Duration::from_millis(1));
    }
}

fn threads() -> Handshakes {
    Handshakes::new(Arc::new(|| ()))
}

/// The maker of an agent of this name, and its folder.
fn agent(folder: &Folder, name: &str) -> Maker {
    let authority = certificate("authority", &[], None, 9);
    let own = certificate(name, &[name], Some(&authority), 9);
    maker(&folder.0, name, &own, &authority.0)
}

#[test]
fn what_costs_much_before_its_sender_is_known_costs_the_reader_nothing() {
    let folder = Folder::new("hard");
    // How much a turn costs the thread that reads a line.
    let cost = |maker: &Maker, handshakes: &mut Handshakes, is_called: bool| {
        let (mut line, attack) = if is_called {
            let listener = TcpListener::bind("127.0.0.1:0").unwrap();
            let address = listener.local_addr().unwrap();
            let attack = thread::spawn(move || answer(&listener, 2));
            (maker.connect(&address.into()).unwrap(), attack)
        } else {
            let (listener, address) = listen();
            let attack = thread::spawn(move || attack(address, 2));
            (accept(maker, &listener), attack)
        };
        let cost = dearest_turn(&mut line, handshakes);
        drop(line);
        drop(attack.join().unwrap());
        cost
    };
    for is_called in [false, true] {
        let (maker, mut handshakes) = (agent(&folder, "root"), threads());
        let by_itself = cost(&maker, &mut handshakes, is_called);
        let maker = maker.with_handshakes(&handshakes);
        let by_others = cost(&maker, &mut handshakes, is_called);
        assert!(by_itself > Duration::from_millis(100), "it is not hard: {by_itself:?}");
        assert!(by_others < by_itself / 5, "{by_others:?} of {by_itself:?}");
    }
}

#[test]
fn who_can_show_its_name_gets_in_while_others_cost_much() {
    let folder = Folder::new("beside");
    let mut handshakes = threads();
    let maker = agent(&folder, "root").with_handshakes(&handshakes);
    let (listener, address) = listen();
    let attacks: Vec<JoinHandle<_>> =
        (0..3).map(|_| thread::spawn(move || attack(address, 2))).collect();
    let mut lines: Vec<Line> = attacks.iter().map(|_| accept(&maker, &listener)).collect();
    assert_eq!(lines[0].end().origin, Origin::V4([127, 0, 0, 1]));
    let end = Instant::now() + TIMEOUT;
    let mut honest: Option<[Line; 2]> = None;
    let is_over = |line: &mut Line| match line.read(&mut [0; 9]) {
        Err(e) => e.kind() != ErrorKind::WouldBlock,
        Ok(_) => true,
    };
    loop {
        assert!(Instant::now() < end, "the honest one does not get in");
        handshakes.go_on(time(), |_| false);
        handshakes.ended(time());
        lines.retain_mut(|line| !is_over(line));
        // (the attacks have begun where one of them is over)
        if lines.len() < 3 && honest.is_none() {
            let down = maker.connect(&address.into()).unwrap();
            honest = Some([accept(&maker, &listener), down]);
        }
        if let Some([up, down]) = &mut honest {
            let _ = (down.write(b"x"), up.write(b"x"), down.read(&mut [0; 9]));
            if matches!(up.read(&mut [0; 9]), Ok(1)) {
                assert_eq!(up.shown(), Shown::Certificate);
                break;
            }
        }
        thread::sleep(Duration::from_millis(1));
    }
    attacks.into_iter().for_each(|it| drop(it.join().unwrap()));
}

#[test]
fn a_line_that_is_left_is_closed_though_a_thread_has_it() {
    let folder = Folder::new("left");
    let mut handshakes = threads();
    let maker = agent(&folder, "root").with_handshakes(&handshakes);
    let (listener, address) = listen();
    let attack = thread::spawn(move || attack(address, 1));
    let mut line = accept(&maker, &listener);
    let end = Instant::now() + TIMEOUT;
    while line.shown() == Shown::Nothing {
        assert!(Instant::now() < end, "no step has begun");
        let _ = line.read(&mut [0; 9]);
    }
    // (whether its step waits, is under way or is done)
    drop(line);
    handshakes.go_on(time(), |_| false);
    let mut other = match attack.join() {
        Ok(other) => other,
        // (it was closed before the attack could be sent)
        Err(_) => return,
    };
    other.set_read_timeout(Some(TIMEOUT)).unwrap();
    assert!(!matches!(other.read(&mut [0; 9]), Ok(1..)));
}

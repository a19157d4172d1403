//! What the daemon makes of streams: each line of the input has what may come and the pieces that
//! come, in hexadecimal digits; its answer has the messages, and what becomes of the bytes that are
//! left. `BUT` stands behind a message that is not written as it came.
use super::wire::{self, Expect, Hello, Message};
use super::{is_name, proved};
use std::fmt::Write;

fn bytes(digits: &str) -> Vec<u8> {
    let pairs = (0..digits.len()).step_by(2);
    pairs.map(|at| u8::from_str_radix(&digits[at..at + 2], 16).unwrap()).collect()
}

fn digits(bytes: &[u8]) -> String {
    bytes.iter().map(|it| format!("{it:02x}")).collect()
}

fn hello(it: &Hello) -> String {
    let (versions, Hello { version, life, label, from, to }) = (it.versions(), it);
    format!("{version} {life} {label} {from} [{to}] {versions:?}")
}

/// What a message says, and its bytes.
fn said(message: &Message) -> (String, Vec<u8>) {
    match message {
        Message::Hello(it) => (format!("hello {}", hello(it)), it.bytes()),
        Message::Look(it) => (format!("look {}", hello(it)), it.look()),
        Message::Way(it) => (format!("way {} {}", it.cost, it.names.join(" ")), wire::way(it)),
        Message::Frame(label, it) => (
            format!("frame {label} {} [{}]", it.item, digits(&it.bytes)),
            [&wire::frame(*label, it), &it.bytes[..]].concat(),
        ),
        Message::Reference(label, it) => {
            let (head, digest) = (digits(&it.head), digits(&it.digest));
            let says = format!("reference {label} {} {} {head} {digest}", it.item, it.length);
            (says, wire::reference(*label, it))
        }
        Message::ReportRequest => ("request".into(), wire::REPORT_REQUEST.into()),
        Message::Ack(label) => (format!("ack {label}"), wire::ack(*label)),
        Message::Lacks(label) => (format!("lacks {label}"), wire::lacks(*label)),
        Message::Report(it) => (format!("report [{}]", digits(it)), wire::report(it)),
        Message::Goodbye => ("goodbye".into(), wire::GOODBYE.into()),
    }
}

/// Whether a word of a store shows just this hello, and what is behind it.
fn is_word(message: &Message, front: &[u8], rest: &[u8]) -> bool {
    let Message::Hello(hello) = message else { return wire::word(front).is_none() };
    let up = wire::up(hello, 0x0102_0304);
    up == [hello.bytes(), vec![1, 2, 3, 4]].concat()
        && wire::word(&up).and_then(|(_, rest)| wire::reports(rest)) == Some(0x0102_0304)
        && wire::word(front) == Some((hello.clone(), rest))
}

fn answer(expect: Expect, pieces: &[&str]) -> String {
    let (mut input, mut told) = (Vec::new(), String::new());
    'all: for piece in pieces {
        input.extend(bytes(piece));
        loop {
            let front = input.clone();
            match wire::take(&mut input, expect) {
                Ok(None) => break,
                Err(why) => {
                    write!(told, "{why:?}; ").unwrap();
                    break 'all;
                }
                Ok(Some(message)) => {
                    let ((says, own), used) = (said(&message), front.len() - input.len());
                    let is_well = own == front[..used] && is_word(&message, &front, &input);
                    write!(told, "{says}{}; ", if is_well { "" } else { " BUT" }).unwrap();
                }
            }
        }
    }
    let why = wire::refused(&input, expect).map(|it| it as u8);
    let name = std::str::from_utf8(&input).is_ok_and(is_name);
    format!("{told}{} {why:?} {:?} {name}", digits(&input), wire::head(&input))
}

extern "C" {
    fn rignolda_message_read(
        expect: u8,
        bytes: *const u8,
        length: usize,
        it: &mut proved::Message,
    ) -> u8;
}

/// What the archive makes of a stream of version 5, which the daemon does not speak yet: of each
/// message its kind, numbers and texts, and at last what the archive answered.
fn newest(expect: u8, pieces: &[&str]) -> String {
    let (mut input, mut told, mut code) = (Vec::new(), String::new(), 1);
    for piece in pieces {
        input.extend(bytes(piece));
        loop {
            let mut it = proved::Message::default();
            // SAFETY: the bytes and the message are lent for the call.
            code = unsafe { rignolda_message_read(expect, input.as_ptr(), input.len(), &mut it) };
            if code != 0 {
                break;
            }
            let texts = it.texts.map(|[at, length]| input[at..at + length].to_vec());
            let [first, second, signature] = [0, 1, 2].map(|at: usize| &texts[at][..]);
            let mut head = vec![0; it.end];
            let end = proved::write(&mut head, &it, [first, second, signature]);
            let tail: &[u8] = if matches!(it.kind, b'V' | b'S') { first } else { &[] };
            let is_well = [&head[..end], tail].concat() == input[..it.end];
            let [one, other, vouches] = [first, second, signature].map(digits);
            let proved::Message { label, item, body_length: length, .. } = it;
            let says = match it.kind {
                b'V' => {
                    let names = String::from_utf8_lossy(first).replace('\n', " ");
                    format!("numbered-way {} {label} {names}", it.table)
                }
                b'S' => format!("signed-frame {label} {item} [{vouches}] [{one}]"),
                b'B' => {
                    format!("signed-reference {label} {item} {length} {one} {other} [{vouches}]")
                }
                b'E' => format!("filler {label}"),
                _ => "request".into(),
            };
            write!(told, "{says}{}; ", if is_well { "" } else { " BUT" }).unwrap();
            input.drain(..it.end);
        }
        if code != 1 {
            break;
        }
    }
    format!("{told}{code} {}", digits(&input))
}

pub fn main() {
    for line in std::io::stdin().lines().map(Result::unwrap) {
        let (expect, pieces) = line.split_once(' ').unwrap();
        let of_newest = [("NumberedWay", b'V'), ("SignedFrames", b'S')];
        if let Some((_, byte)) = of_newest.iter().find(|it| it.0 == expect) {
            println!("{}", newest(*byte, &pieces.split(' ').collect::<Vec<_>>()));
            continue;
        }
        let all = [Expect::Hello, Expect::Way, Expect::Frames, Expect::Acks];
        let expect = all.into_iter().find(|it| format!("{it:?}") == expect).unwrap();
        println!("{}", answer(expect, &pieces.split(' ').collect::<Vec<_>>()));
    }
}

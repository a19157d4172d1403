//! Messages and bodies: what is written is read again, and whatever else comes does no harm.
use rignolda_machine::net::wire::{
    ack, frame, lacks, reference, report, take, way, Expect, Hello, Message, Reference,
};
use rignolda_machine::net::wire::{
    WireError, FIRST, GOODBYE, OLD, REPORT_BYTES, REPORT_REQUEST, WAY_BYTES,
};
use rignolda_machine::net::{Body, Way, BODY_BYTES};
use rignolda_machine::settings::{entry_bytes, is_key, published_by, Meaning, VALUE_BYTES};

mod common;
use common::Random;

fn hello() -> Hello {
    Hello {
        version: OLD,
        life: 0x0102_0304_0506_0708,
        label: 255,
        from: "host31".into(),
        to: "rack3".into(),
    }
}

/// Why it was refused, in words.
fn words(got: Result<Vec<u8>, WireError>) -> String {
    got.expect_err("it is no message").to_string()
}

/// All messages that come before the first error, and the bytes that are left.
fn all(mut input: Vec<u8>, expect: Expect) -> (Vec<Message>, Result<Vec<u8>, WireError>) {
    let mut messages = Vec::new();
    loop {
        match take(&mut input, expect) {
            Ok(Some(message)) => messages.push(message),
            Ok(None) => return (messages, Ok(input)),
            Err(why) => return (messages, Err(why)),
        }
    }
}

#[test]
fn the_bytes_are_these() {
    let expected = b"RGND\x01\x01\x02\x03\x04\x05\x06\x07\x08\x00\xff\x06host31\x05rack3";
    assert_eq!(hello().bytes(), expected);
    assert_eq!(ack(0x0102), b"A\x01\x02");
    assert_eq!(report(b"[]"), b"R\x00\x00\x00\x02[]");
    assert_eq!(REPORT_REQUEST, b"Q");
    let body = Body::new(7, &Meaning::Changes(vec![("a", Some(b"xy")), ("b", None)]));
    let bytes = b"C\0\0\0\0\0\0\0\x07\0\0\0\x02S\x01a\0\0\0\x02xyU\x01b";
    assert_eq!(body.bytes, bytes);
    // (the checksum of another program: zlib's crc32)
    assert_eq!(Body::new(1, &Meaning::Harmless).bytes, b"H\0\0\0\0\0\0\0\x01");
    assert_eq!(Body::new(1, &Meaning::Harmless).item, CRC_OF_HARMLESS);
    let head = frame(3, &Body { item: 0x0a0b_0c0d, bytes: vec![9; 5] });
    assert_eq!(head, b"F\x00\x03\x0a\x0b\x0c\x0d\x00\x00\x00\x05");
    let it = referred();
    let bytes =
        [&b"D\x00\x03\x0a\x0b\x0c\x0d\x00\x00\x00\x05T\0\0\0\0\0\0\0\x09"[..], &[6; 32]].concat();
    assert_eq!(reference(3, &it), bytes);
    assert_eq!(lacks(0x0102), b"N\x01\x02");
    assert_eq!(all(bytes.clone(), Expect::Frames).0, [Message::Reference(3, it)]);
    assert_eq!(all(lacks(9), Expect::Acks).0, [Message::Lacks(9)]);
    let mut long = bytes;
    long[7..11].copy_from_slice(&(BODY_BYTES as u32 + 1).to_be_bytes());
    assert_eq!(all(long, Expect::Frames).1, Err(WireError::LongBody));
    assert_eq!(Hello::range(1..=3), 0x0103);
}

fn referred() -> Reference {
    Reference { item: 0x0a0b_0c0d, length: 5, head: *b"T\0\0\0\0\0\0\0\x09", digest: [6; 32] }
}

fn long_way(names: usize) -> Way {
    let names = (0..names).map(|at| format!("{at:0>64}")).collect();
    Way { cost: 258, names }
}

/// The bytes of a way, of whatever length.
fn spelled(way: &Way) -> Vec<u8> {
    let (cost, names) = (way.cost.to_be_bytes(), way.names.join("\n"));
    [b"W", &cost[..], &(names.len() as u16).to_be_bytes(), names.as_bytes()].concat()
}

#[test]
fn a_way_is_bounded_and_has_names() {
    let names = vec!["hub".into(), "rack1".into()];
    let usual = Way { cost: 258, names };
    assert_eq!(way(&usual), b"W\x01\x02\x00\x09hub\nrack1");
    for expect in [Expect::Frames, Expect::Way] {
        assert_eq!(all(way(&usual), expect).0, [Message::Way(usual.clone())]);
    }
    // (a frame is none of a candidate's)
    assert!(all(b"F".to_vec(), Expect::Way).1.is_err());
    assert!(all(way(&usual), Expect::Acks).1.is_err());
    assert_eq!(way(&long_way(128)).len(), 5 + WAY_BYTES - 1);
    assert_eq!(way(&long_way(128)), spelled(&long_way(128)));
    assert_eq!(way(&long_way(130)), b"", "what is too long is not written");
    assert_eq!(all(way(&long_way(128)), Expect::Way).0, [Message::Way(long_way(128))]);
    let head = |length: u16| [b"W\x00\x01", &length.to_be_bytes()[..]].concat();
    let many = [head(2 * 129 - 1), "a\n".repeat(128).into_bytes(), b"a".to_vec()].concat();
    for (bytes, why) in [
        (head(WAY_BYTES as u16 + 1), "a way is too long"),
        (spelled(&long_way(129)), "a way is too long"),
        (many, "a way is too long"),
        (head(0), "a name of a way is none"),
        ([head(3), b"a\n\n".to_vec()].concat(), "a name of a way is none"),
        ([head(1), b"\xff".to_vec()].concat(), "a name of a way is none"),
    ] {
        assert_eq!(words(all(bytes, Expect::Way).1), why);
    }
    let look = Hello { version: FIRST, ..hello() };
    assert_eq!(&look.look()[..5], b"RGNL\x02");
    assert_eq!(all(look.look(), Expect::Hello).0, [Message::Look(look)]);
    assert!(all(hello().look(), Expect::Hello).1.is_err(), "of looks, version 1 knows nothing");
    assert_eq!(all(GOODBYE.to_vec(), Expect::Acks).0, [Message::Goodbye]);
}

const CRC_OF_HARMLESS: u32 = 0xf444_8527;

#[test]
fn messages_come_in_any_pieces() {
    let body = Body::new(5, &Meaning::Table(vec![("a", Some(b"1")), ("b", Some(b""))]));
    let mut frames = frame(9, &body);
    frames.extend_from_slice(&body.bytes);
    frames.extend(frame(10, &Body { item: 4, bytes: vec![] }));
    let mut acks = ack(9);
    frames.extend(REPORT_REQUEST);
    acks.extend(report(b"[1]"));
    acks.extend(ack(10));
    for (stream, expect, count) in
        [(hello().bytes(), Expect::Hello, 1), (frames, Expect::Frames, 3), (acks, Expect::Acks, 3)]
    {
        let (whole, left) = all(stream.clone(), expect);
        assert_eq!((whole.len(), left), (count, Ok(vec![])));
        let (mut input, mut pieces) = (Vec::new(), Vec::new());
        for byte in stream {
            input.push(byte);
            pieces.extend(take(&mut input, expect).unwrap());
        }
        assert_eq!(pieces, whole);
    }
}

#[test]
fn what_is_too_long_is_refused_before_it_comes() {
    let long = |kind: &[u8], length: u32| [kind, &length.to_be_bytes()].concat();
    let frame = long(b"F\0\0\0\0\0\0", BODY_BYTES as u32 + 1);
    assert_eq!(all(frame, Expect::Frames).1, Err(WireError::LongBody));
    assert!(all(long(b"F\0\0\0\0\0\0", BODY_BYTES as u32), Expect::Frames).1.is_ok());
    let report = long(b"R", REPORT_BYTES as u32 + 1);
    assert_eq!(all(report, Expect::Acks).1, Err(WireError::LongReport));
}

#[test]
fn a_hello_of_another_kind_is_refused() {
    let good = hello().bytes();
    assert_eq!(all(b"GET / HTTP/1.1\r\n".to_vec(), Expect::Hello).1, Err(WireError::NoHello));
    let mut other = good.clone();
    other[4] = 0;
    let why = "its version of the protocol is none";
    assert_eq!(words(all(other.clone(), Expect::Hello).1), why);
    // (a later one has this form too, so that its versions can be named)
    other[4] = 255;
    assert_eq!(all(other, Expect::Hello).0.len(), 1);
    for name in ["", "a/b", ".a", "-a", "\u{e9}"] {
        let bytes = Hello { from: name.into(), ..hello() }.bytes();
        assert_eq!(all(bytes, Expect::Hello).1, Err(WireError::NoName), "{name}");
    }
    // (a child that was not told the name of its parent says none)
    let unknown = Hello { to: String::new(), ..hello() };
    assert_eq!(all(unknown.bytes(), Expect::Hello).0, [Message::Hello(unknown)]);
}

#[test]
fn drawn_bytes_do_no_harm() {
    let mut random = Random(7);
    let good = [
        hello().bytes(),
        [frame(1, &Body::new(1, &Meaning::Harmless)), b"H\0\0\0\0\0\0\0\x01".to_vec()].concat(),
        ack(3),
        lacks(3),
        reference(3, &referred()),
        report(b"[]"),
        REPORT_REQUEST.to_vec(),
        way(&Way { cost: 3, names: vec!["hub".into(), "rack1".into()] }),
        Body::new(5, &Meaning::Table(vec![("a", Some(b"1")), ("b", Some(b"2"))])).bytes.clone(),
    ];
    for round in 0..200_000 {
        let mut bytes = match round % 2 {
            0 => {
                let length = random.below(65);
                (0..length).map(|_| random.number() as u8).collect()
            }
            _ => good[random.below(good.len())].clone(),
        };
        if round % 2 == 1 {
            for _ in 0..1 + random.below(3) {
                let at = random.below(bytes.len());
                bytes[at] = random.number() as u8;
            }
        }
        for expect in [Expect::Hello, Expect::Way, Expect::Frames, Expect::Acks] {
            if let (messages, Ok(left)) = all(bytes.clone(), expect) {
                assert!(messages.len() <= bytes.len() && left.len() <= bytes.len());
            }
        }
        // (under the right checksum, so that the rest is read)
        let body = Body::of(bytes);
        if let Some((sequence, meaning)) = body.meaning() {
            assert_eq!(*Body::new(sequence, &meaning), body, "one body says one thing");
        }
    }
}

#[test]
fn a_body_that_does_not_fit_its_item_says_nothing() {
    let body = Body::new(5, &Meaning::Changes(vec![("a", Some(b"1"))]));
    assert!(body.meaning().is_some());
    for bit in 0..body.bytes.len() * 8 {
        let mut bytes = body.bytes.clone();
        bytes[bit / 8] ^= 1 << (bit % 8);
        assert_eq!(Body { item: body.item, bytes }.meaning(), None);
    }
    for bit in 0..32 {
        assert_eq!(Body { item: body.item ^ 1 << bit, bytes: body.bytes.clone() }.meaning(), None);
    }
}

#[test]
fn bodies_that_nobody_writes_say_nothing() {
    let says = |bytes: &[u8]| Body::of(bytes.to_vec()).meaning().is_some();
    assert!(says(b"T\0\0\0\0\0\0\0\x05\0\0\0\0"));
    assert!(!says(b""), "nothing");
    assert!(!says(b"X\0\0\0\0\0\0\0\x05"), "another kind");
    assert!(!says(b"H\0\0\0\0\0\0\0\x05 "), "more behind it");
    assert!(!says(b"T\0\0\0\0\0\0\0\x05\xff\xff\xff\xff"), "more entries than there are");
    assert!(!says(b"T\0\0\0\0\0\0\0\x05\0\0\0\x01U\x01a"), "a table unsets nothing");
    assert!(!says(b"C\0\0\0\0\0\0\0\x05\0\0\0\x02U\x01bU\x01a"), "in another order");
    assert!(!says(b"C\0\0\0\0\0\0\0\x05\0\0\0\x02U\x01aU\x01a"), "a key twice");
    assert!(!says(b"C\0\0\0\0\0\0\0\x05\0\0\0\x01U\x03a/b"), "a key that leaves the folder");
    assert!(!says(b"C\0\0\0\0\0\0\0\x05\0\0\0\x01U\x02.a"), "a key of a hidden file");
    assert!(!says(b"C\0\0\0\0\0\0\0\x05\0\0\0\x01S\x01a\xff\xff\xff\xffx"), "a value that is cut");
    let long = vec![0; VALUE_BYTES + 1];
    let long = Body::new(1, &Meaning::Changes(vec![("a", Some(&long))]));
    assert_eq!(long.meaning(), None, "a value that is too long");
    let most = vec![0; VALUE_BYTES];
    let entry = ("a", Some(most.as_slice()));
    let most = Body::new(1, &Meaning::Changes(vec![entry]));
    assert!(most.meaning().is_some());
    assert_eq!(most.bytes.len(), 13 + entry_bytes(&entry));
}

#[test]
fn keys_are_names_of_plain_files() {
    for good in ["a", "nginx.conf", "A-1_b", &"k".repeat(128)] {
        assert!(is_key(good), "{good}");
    }
    for bad in ["", ".", "..", ".new", "a/b", "-r", "a b", "a\n", "ä", "a\0", &"k".repeat(129)] {
        assert!(!is_key(bad), "{bad:?}");
    }
    // (and of one for a group both parts are)
    for bad in ["a@b@c", "a..b", "a@.b", "@b", "a@", "a@b..c", &format!("a@{}", "b".repeat(126))] {
        assert_eq!(published_by(bad), None, "{bad:?}");
    }
    let long = format!("a@{}", "b".repeat(125));
    assert_eq!(published_by(&long), Some(long.replace('@', "..")));
}

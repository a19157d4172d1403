//! Bodies beside an independent reader: what the library reads of drawn bytes is what this reader
//! in plain Rust says, which knows the format alone.
use rignolda_machine::net::{Body, BODY_BYTES};
use rignolda_machine::settings::{Meaning, SETTINGS, VALUE_BYTES};

mod common;
use common::Random;

type Entries = Vec<(String, Option<Vec<u8>>)>;

/// The checksum CRC-32, bit by bit.
fn sum_of(bytes: &[u8]) -> u32 {
    !bytes.iter().fold(!0, |sum: u32, byte| {
        (0..8).fold(sum ^ u32::from(*byte), |sum, _| (sum >> 1) ^ ((sum & 1) * 0xedb8_8320))
    })
}

/// What is still to be read.
struct Rest<'a>(&'a [u8]);

impl<'a> Rest<'a> {
    fn take(&mut self, length: usize) -> Option<&'a [u8]> {
        let taken = self.0.get(..length)?;
        self.0 = &self.0[length..];
        Some(taken)
    }

    fn number(&mut self, bytes: usize) -> Option<u64> {
        let digits = self.take(bytes)?.iter();
        Some(digits.fold(0, |number, byte| number << 8 | u64::from(*byte)))
    }

    fn key(&mut self) -> Option<String> {
        let length = self.number(1)? as usize;
        let key = std::str::from_utf8(self.take(length)?).ok()?;
        let is_one = (1..=128).contains(&key.len())
            && !key.starts_with(['.', '-'])
            && key.chars().all(|c| c.is_ascii_alphanumeric() || "._-".contains(c));
        is_one.then(|| key.to_owned())
    }

    fn entry(&mut self) -> Option<(String, Option<Vec<u8>>)> {
        let mark = self.number(1)?;
        let key = self.key()?;
        if mark == u64::from(b'U') {
            return Some((key, None));
        }
        let length = self.number(4)? as usize;
        let is_one = mark == u64::from(b'S') && length <= VALUE_BYTES;
        Some((key, Some(self.take(length).filter(|_| is_one)?.to_vec())))
    }
}

/// The kind, the number and the entries of these bytes.
fn read(bytes: &[u8]) -> Option<(u8, u64, Entries)> {
    let mut rest = Rest(bytes);
    let (kind, number) = (rest.number(1)? as u8, rest.number(8)?);
    let mut entries = Vec::new();
    if kind != b'H' {
        let count = Some(rest.number(4)?).filter(|it| *it <= SETTINGS as u64)?;
        for _ in 0..count {
            entries.push(rest.entry()?);
        }
    }
    let is_one = b"CTH".contains(&kind)
        && rest.0.is_empty()
        && bytes.len() <= BODY_BYTES
        && entries.windows(2).all(|two| two[0].0 < two[1].0)
        && (kind != b'T' || entries.iter().all(|it| it.1.is_some()));
    is_one.then_some((kind, number, entries))
}

/// The same of a body, by the library.
fn said(body: &Body) -> Option<(u8, u64, Entries)> {
    let (number, meaning) = body.meaning()?;
    let (kind, entries) = match meaning {
        Meaning::Changes(entries) => (b'C', entries),
        Meaning::Table(entries) => (b'T', entries),
        Meaning::Harmless => (b'H', Vec::new()),
    };
    let owned = |(key, value): (&str, Option<&[u8]>)| (key.to_owned(), value.map(<[u8]>::to_vec));
    Some((kind, number, entries.into_iter().map(owned).collect()))
}

/// Bytes that are a body mostly, or nearly one.
fn drawn(random: &mut Random) -> Vec<u8> {
    const KEYS: [&[u8]; 12] = [
        b"a",
        b"a.b",
        b"b-1",
        b"long_key.with-bytes",
        b"zz",
        b"A",
        b"-x",
        b".y",
        b"",
        b"a b",
        b"\xc3\xa9",
        b"a/b",
    ];
    let mut bytes = vec![b"CTHCTHCTX"[random.below(9)]];
    bytes.extend_from_slice(&random.number().to_be_bytes());
    if bytes[0] == b'H' && random.below(4) > 0 {
        return bytes;
    }
    let is_right = random.below(3) > 0;
    let mut keys: Vec<&[u8]> =
        (0..random.below(5)).map(|_| KEYS[random.below(if is_right { 6 } else { 12 })]).collect();
    if is_right {
        keys.sort_unstable();
        keys.dedup();
    }
    let more = usize::from(random.below(16) == 0);
    bytes.extend_from_slice(&((keys.len() + more) as u32).to_be_bytes());
    for key in keys {
        let is_set = random.below(4) > 0 || is_right && bytes[0] == b'T';
        bytes.extend_from_slice(&[if is_set { b'S' } else { b'U' }, key.len() as u8]);
        bytes.extend_from_slice(key);
        if is_set {
            let length = random.below(20);
            bytes.extend_from_slice(&(length as u32).to_be_bytes());
            bytes.extend((0..length).map(|_| random.number() as u8));
        }
    }
    bytes
}

#[test]
fn the_library_reads_what_the_format_says() {
    let mut random = Random(88_172_645_463_325_252);
    let (mut read_well, mut unfit) = (0, 0);
    for _ in 0..400_000 {
        let mut bytes = drawn(&mut random);
        match random.below(8) {
            0 => bytes.truncate(random.below(1 + bytes.len())),
            1 => bytes.push(random.number() as u8),
            2 => {
                let at = random.below(bytes.len());
                bytes[at] = random.number() as u8;
            }
            _ => (),
        }
        let mut body = Body::of(bytes);
        assert_eq!(body.item, sum_of(&body.bytes), "{body:?}");
        let expected = read(&body.bytes);
        assert_eq!(said(&body), expected, "{body:?}");
        if let Some((kind, number, entries)) = &expected {
            read_well += 1;
            let lent = entries.iter().map(|(key, value)| (key.as_str(), value.as_deref()));
            let meaning = match kind {
                b'C' => Meaning::Changes(lent.collect()),
                b'T' => Meaning::Table(lent.collect()),
                _ => Meaning::Harmless,
            };
            assert_eq!(*Body::new(*number, &meaning), body, "written again");
        }
        body.item ^= 1 << random.below(32);
        assert_eq!(body.meaning(), None, "another item");
        unfit += 1;
    }
    assert!(read_well > 100_000 && read_well < 350_000, "{read_well} of {unfit}");
}

#[test]
fn each_limit_is_where_the_format_has_it() {
    // (a table whose last value has so many bytes more that it is as long as is asked for)
    let table = |length: usize| {
        let (key, value) = ("k".repeat(128), vec![b'v'; VALUE_BYTES]);
        let keys: Vec<String> = (0..16).map(|at| format!("{key:.126}{at:02}")).collect();
        let last = length - 13 - 15 * (134 + VALUE_BYTES) - 134;
        let values = keys.iter().enumerate().map(|(at, key)| {
            let length = if at == 15 { last } else { VALUE_BYTES };
            (key.as_str(), Some(&value[..length]))
        });
        Body::new(9, &Meaning::Table(values.collect()))
    };
    for (length, fits) in [(BODY_BYTES, true), (BODY_BYTES + 1, false)] {
        let body = table(length);
        assert_eq!(body.bytes.len(), length);
        assert_eq!(read(&body.bytes).is_some(), fits);
        assert_eq!(said(&body).is_some(), fits);
    }
    for (key, value) in [("k".repeat(129), 1), ("k".repeat(128), VALUE_BYTES + 1)] {
        let value = vec![0; value];
        let body = Body::new(9, &Meaning::Changes(vec![(&key, Some(&value))]));
        assert_eq!((body.bytes.len(), said(&body)), (0, None), "nothing is written");
    }
}

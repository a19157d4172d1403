//! What goes over a connection, numbers in big-endian order.
//!
//! First each end says a hello: `"RGND" | version u8 | life u64 | label u16`, and then the length,
//! in one byte, and the bytes of its own name and of the other's. Then a parent sends frames,
//! `'F' | label u16 | item u32 | length u32 | body`, and a child acknowledgements,
//! `'A' | label u16`, and reports, `'R' | length u32 | bytes`. The messages of
//! the link are the frames and the acknowledgements. Each length is bounded before anything is kept
//! for it. A report is what there is to watch, and more: the root goes on above the furthest number
//! that it names, and sends as many harmless items as the depth that it names needs, so recovery
//! rests on it.
//!
//! Where both ends speak version 2, a parent also says its way, behind its hello and then now and
//! again: `'W' | cost u16 | length u16 | names`, the names with a line feed between two. A child
//! that takes another parent says so, `'G'`. And before all that an end may look at a candidate, by
//! a hello that begins with `"RGNL"`, which is answered by another such one and the way.
//!
//! Where both ends speak version 3, a parent may send a frame without its body, by a [`Reference`]:
//! `'D' | label u16 | item u32 | length u32 | head | digest`. A child that makes this body itself
//! acknowledges the frame; else it asks for the whole one, `'N' | label u16`, which follows.
//!
//! Where both ends speak version 4, a child may report only what changed since its last report on
//! the connection, in the same message; and a parent which lacks that report asks for a whole one,
//! `'Q'`. What the bytes of a report are is left to the agents: the links do not depend on it.
//!
//! An end that is refused is told `"RGNL" | version u8`, and behind it why, `0xff | reason u8`, if
//! it has shown its certificate: each [`Refusal`] has a byte. The same behind a `'W'` ends a link.
//! Then the connection ends. So whoever knows no reasons has the beginning of a message, of which
//! the rest never comes.
//!
//! Each end speaks a range of versions, and both the highest that they have in common. A hello of
//! any version has the form above. Whoever begins a connection says version 2, which all know that
//! look, and its [range](Hello::versions) in place of the label: in a look, as its answer does, and
//! where it is the parent. What follows has the version in common.
//!
//! Version 5 is fixed, and not spoken yet: `docs/FORMATS.md` has it.
//!
//! All these bytes are read and written by proved calls. What is too long for its message is
//! written as no bytes.
//!
//! ```
//! use rignolda_machine::net::wire::{self, Expect, Message};
//! use rignolda_machine::net::Body;
//!
//! let body = Body::of(b"colour = red".to_vec());
//! let mut stream = wire::frame(3, &body);
//! stream.extend_from_slice(&body.bytes);
//! stream.push(b'F'); // (and what has come of the next one)
//! match wire::take(&mut stream, Expect::Frames)? {
//!     Some(Message::Frame(label, it)) => assert_eq!((label, &*it), (3, &body)),
//!     other => panic!("{:?}", other),
//! }
//! assert_eq!(wire::take(&mut stream, Expect::Frames)?, None);
//! # Ok::<(), wire::WireError>(())
//! ```
use super::parents::{Way, NAMES};
pub(super) use super::proved::reports;
use super::proved::{self, Found, Message as Shown};
use super::{error::error, Body, Refusal, NAME_BYTES};
use crate::prelude::*;
use alloc::sync::Arc;
use core::ops::RangeInclusive;

/// The newest version of the protocol.
pub const VERSION: u8 = 4;
/// The oldest one that is spoken: to those that know no other.
pub const OLD: u8 = 1;
/// The one by which a connection begins where it is not known what the other end speaks.
pub const FIRST: u8 = 2;
/// The oldest one with [references](Reference).
pub(super) const REFERS: u8 = 3;
/// The oldest one with reports of what changed, and [requests](REPORT_REQUEST) of whole ones.
pub(super) const CHANGES: u8 = 4;
/// How many bytes of a body a reference has, from its front.
pub const HEAD_BYTES: usize = 9;
/// The longest report, in bytes.
pub const REPORT_BYTES: usize = 1 << 20;
/// The longest way, in bytes: each name with a line feed.
pub const WAY_BYTES: usize = NAMES * (NAME_BYTES + 1);
pub(super) const FRAME_HEAD: usize = 11;

/// What an end says first.
#[derive(Clone, Debug, PartialEq, Eq)]
pub struct Hello {
    /// Which version of the protocol the end speaks here.
    pub version: u8,
    /// A number that the process drew when it began. A parent that comes after another
    /// one is told a further one. A look has the rank of a root instead, or 0.
    pub life: u64,
    /// What the receiver remembers; or, in a look and where a parent begins, the
    /// [range](Hello::range) of versions.
    pub label: u16,
    /// The end's own name.
    pub from: String,
    /// The other end's. Empty where the end was not told how it is called.
    pub to: String,
}

/// What a connection brings.
#[derive(Clone, Debug, PartialEq, Eq)]
#[non_exhaustive]
pub enum Message {
    /// What an end says first.
    Hello(Hello),
    /// What an end says first that looks at a candidate, or answers: no link begins.
    Look(Hello),
    /// A parent's way.
    Way(Way),
    /// A frame: its label, and the body with its item.
    Frame(u16, Arc<Body>),
    /// A frame without its body.
    Reference(u16, Reference),
    /// A child cannot make the body of this frame.
    Lacks(u16),
    /// An acknowledgement: its label.
    Ack(u16),
    /// What a child reports: what there is to watch, the furthest number and the depth below it.
    Report(Vec<u8>),
    /// A parent asks for a whole report.
    ReportRequest,
    /// A child takes another parent.
    Goodbye,
}

/// What stands for a body in a frame without it: the child may have all that is in it, in its files
/// or its memory. What it makes of that is compared with this, so nothing of it has to be right.
#[derive(Clone, Debug, PartialEq, Eq)]
pub struct Reference {
    /// The item, and the length of the body.
    pub item: u32,
    /// See `item`.
    pub length: u32,
    /// How the body begins: of a table, its kind and number, which are others in each round.
    pub head: [u8; HEAD_BYTES],
    /// The SHA-256 of the body.
    pub digest: [u8; 32],
}

/// What may come next on a connection.
#[derive(Clone, Copy, Debug, PartialEq, Eq)]
#[non_exhaustive]
#[repr(u8)]
pub enum Expect {
    /// The first message.
    Hello = b'H',
    /// The way of a candidate.
    Way = b'W',
    /// The messages of a parent.
    Frames = b'F',
    /// Those of a child.
    Acks = b'A',
}

error! {
    /// Why what a connection brings is no message.
    WireError {
        /// It does not begin as a hello.
        NoHello = "it is no hello",
        /// A hello has a version that nobody speaks.
        NoVersion = "its version of the protocol is none",
        /// A name of a hello is [none of an agent](super::is_name).
        NoName = "a name of its hello is none",
        /// It is none of the messages that may come next.
        NoMessage = "it is no message",
        /// A body has more than [`BODY_BYTES`](super::BODY_BYTES).
        LongBody = "a body is too long",
        /// A way has more than [`WAY_BYTES`], or too many names.
        LongWay = "a way is too long",
        /// A name of a way is [none of an agent](super::is_name).
        NoNameOfWay = "a name of a way is none",
        /// A report has more than [`REPORT_BYTES`].
        LongReport = "a report is too long",
    }
}

impl Hello {
    /// The bytes to write.
    pub fn bytes(&self) -> Vec<u8> {
        proved::bytes(&self.shown(b'H'), self.names())
    }

    /// The same as a look.
    pub fn look(&self) -> Vec<u8> {
        proved::bytes(&self.shown(b'L'), self.names())
    }

    /// What stands for a range of versions in the place of a label: its ends, a byte each.
    pub fn range(versions: RangeInclusive<u8>) -> u16 {
        proved::rignolda_versions_range(*versions.start(), *versions.end())
    }

    /// The versions that its sender speaks, where this is a look or a parent begins; else it says
    /// one alone. (One of version 2 has no range there: 0, or a label, which is below 256.)
    pub fn versions(&self) -> RangeInclusive<u8> {
        let range = proved::rignolda_versions_read(self.version, self.label);
        let [oldest, newest] = range.to_be_bytes();
        oldest..=newest
    }

    fn shown(&self, kind: u8) -> Shown {
        Shown { life: self.life, version: self.version, ..labelled(kind, self.label) }
    }

    fn names(&self) -> [&[u8]; 2] {
        [self.from.as_bytes(), self.to.as_bytes()]
    }

    fn of(Shown { life, label, version, .. }: Shown, [from, to, _]: [&[u8]; 3]) -> Hello {
        let [from, to] = [from, to].map(|name| text(name).into());
        Hello { version, life, label, from, to }
    }
}

/// What is read as a name, or as names, is text.
fn text(bytes: &[u8]) -> &str {
    core::str::from_utf8(bytes).unwrap_or_default()
}

fn labelled(kind: u8, label: u16) -> Shown {
    Shown { kind, label, ..Shown::default() }
}

/// The bytes of a message that ends with a text, if that is not too long.
fn with_text(it: &Shown, text: &[u8]) -> Vec<u8> {
    let mut bytes = proved::bytes(it, [text, &[]]);
    if !bytes.is_empty() {
        bytes.extend_from_slice(text);
    }
    bytes
}

/// The head of a frame: its body follows.
pub fn frame(label: u16, body: &Body) -> Vec<u8> {
    frame_head(label, body).to_vec()
}

pub(super) fn frame_head(label: u16, body: &Body) -> [u8; FRAME_HEAD] {
    let mut bytes = [0; FRAME_HEAD];
    let it = Shown { item: body.item, ..labelled(b'F', label) };
    proved::write(&mut bytes, &it, [&body.bytes, &[], &[]]);
    bytes
}

/// A frame without its body.
pub fn reference(label: u16, it: &Reference) -> Vec<u8> {
    let shown = Shown { item: it.item, body_length: it.length, ..labelled(b'D', label) };
    proved::bytes(&shown, [&it.head, &it.digest])
}

/// The body of this frame is lacking.
pub fn lacks(label: u16) -> Vec<u8> {
    proved::bytes(&labelled(b'N', label), [&[]; 2])
}

/// An acknowledgement.
pub fn ack(label: u16) -> Vec<u8> {
    proved::bytes(&labelled(b'A', label), [&[]; 2])
}

/// A way.
pub fn way(way: &Way) -> Vec<u8> {
    with_text(&labelled(b'W', way.cost), way.names.join("\n").as_bytes())
}

/// A report.
pub fn report(report: &[u8]) -> Vec<u8> {
    with_text(&labelled(b'R', 0), report)
}

/// A parent asks for a whole report.
pub const REPORT_REQUEST: &[u8] = b"Q";

/// The last word of a child that takes another parent.
pub const GOODBYE: &[u8] = b"G";

/// What an end is told that is refused before a link begins. (So much says that this is no end of
/// version 1.)
pub fn refusal(why: Refusal) -> Vec<u8> {
    proved::refusal(Expect::Hello, why)
}

/// The same of a child whose link ends.
pub fn last_refusal(why: Refusal) -> Vec<u8> {
    proved::refusal(Expect::Frames, why)
}

/// Why the other end refuses this one, where that is all of what came before it closed the
/// connection.
pub fn refused(rest: &[u8], expect: Expect) -> Option<Refusal> {
    proved::refused(expect, rest)
}

/// The label and the item of the frame that begins here, and the length of its body, if its head is
/// there.
pub(super) fn head(bytes: &[u8]) -> Option<(u16, u32, usize)> {
    proved::frame_head(bytes).map(|it| (it.label, it.item, it.body_length as usize))
}

/// What a child's word shows in a store: its hello, and how often it has set its report.
pub(super) fn up(hello: &Hello, reports: u32) -> Vec<u8> {
    proved::up(&hello.shown(b'H'), hello.names(), reports)
}

/// The hello of such a word, or of a parent's, and what is behind it.
pub(super) fn word(bytes: &[u8]) -> Option<(Hello, &[u8])> {
    proved::word(bytes).map(|(it, names, rest)| (Hello::of(it, names), rest))
}

/// Takes the next message from the front of what came: nothing where more has to come.
///
/// # Errors
///
/// Why it is no message: the connection is to be closed.
pub fn take(input: &mut Vec<u8>, expect: Expect) -> Result<Option<Message>, WireError> {
    let Some((message, rest)) = message(input, expect)? else { return Ok(None) };
    let used = input.len() - rest.len();
    input.drain(..used);
    Ok(Some(message))
}

/// The same of bytes that stay, and what is behind it.
pub(super) fn message(bytes: &[u8], expect: Expect) -> Result<Option<(Message, &[u8])>, WireError> {
    Ok(proved::message(expect, bytes)?.map(of))
}

fn of((it, texts @ [first, second, _], rest): Found<'_>) -> (Message, &[u8]) {
    let Shown { label, item, body_length: length, .. } = it;
    let message = match it.kind {
        b'H' => Message::Hello(Hello::of(it, texts)),
        b'L' => Message::Look(Hello::of(it, texts)),
        b'W' => {
            let names = text(first).split('\n').map(String::from).collect();
            Message::Way(Way { cost: label, names })
        }
        b'F' => Message::Frame(label, Arc::new(Body { item, bytes: first.to_vec() })),
        b'D' => {
            let (head, digest) = (first.try_into(), second.try_into());
            let (head, digest) = (head.unwrap_or_default(), digest.unwrap_or_default());
            Message::Reference(label, Reference { item, length, head, digest })
        }
        b'Q' => Message::ReportRequest,
        b'A' => Message::Ack(label),
        b'N' => Message::Lacks(label),
        b'R' => Message::Report(first.to_vec()),
        _ => Message::Goodbye,
    };
    (message, rest)
}

rignolda::spoils! { Hello { version, life, label, from, to } }
rignolda::spoils! { Reference { item, length, head, digest } }

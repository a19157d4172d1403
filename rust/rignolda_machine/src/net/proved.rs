//! The calls of the proved library about messages, as `include/rignolda_settings.h` declares them.
//!
//! They ask for nothing but that each reference is one. What they say of the bytes is proved; here
//! is what they are lent, and what becomes of the numbers that they return.
use super::wire::{Expect, WireError};
use super::{ParentError, Refusal};
use crate::prelude::*;

/// No head of a message is longer, and no word of a child.
const LONGEST: usize = 160;

/// `rignolda_message`.
#[repr(C)]
#[derive(Default)]
pub(super) struct Message {
    pub(super) life: u64,
    pub(super) table: u64,
    pub(super) item: u32,
    pub(super) body_length: u32,
    pub(super) label: u16,
    pub(super) version: u8,
    pub(super) kind: u8,
    /// Where each of its texts begins, and how long it is; the last one is a signature.
    pub(super) texts: [[usize; 2]; 3],
    pub(super) end: usize,
}

const _: () = assert!(core::mem::size_of::<Message>() == 88);

/// `rignolda_way_asked`: what an agent knows when a candidate says its way.
#[repr(C)]
pub(super) struct WayAsked {
    pub(super) names: usize,
    pub(super) said: u16,
    pub(super) price: u16,
    pub(super) own: u16,
    pub(super) has_own_name: bool,
    pub(super) has_parent: bool,
    pub(super) is_parent: bool,
    pub(super) is_sole: bool,
    pub(super) has_children: bool,
    pub(super) was_in_circle: bool,
    pub(super) head_is_smaller: bool,
}

const _: () = assert!(core::mem::size_of::<WayAsked>() == 24);

impl WayAsked {
    /// What it does: it takes that way, or why not.
    pub(super) fn answer(&self) -> Result<(), ParentError> {
        // SAFETY: the call reads what it is lent.
        why(unsafe { rignolda_way_answer(self) })
    }

    /// Whether the candidate may take the place of a parent that is to be left.
    pub(super) fn is_fit(&self) -> Result<(), ParentError> {
        // SAFETY: the call reads what it is lent.
        why(unsafe { rignolda_way_unfit(self) })
    }
}

fn why(code: u8) -> Result<(), ParentError> {
    match code {
        0 => Ok(()),
        1 | 5 => Err(ParentError::Circle),
        2 | 6 => Err(ParentError::LongWay),
        3 => Err(ParentError::NoRoot),
        _ => Err(ParentError::NoBetter),
    }
}

type Bytes = *const u8;

unsafe extern "C" {
    fn rignolda_is_name(bytes: Bytes, length: usize) -> bool;
    fn rignolda_message_read(expect: u8, bytes: Bytes, length: usize, it: &mut Message) -> u8;
    fn rignolda_message_write(
        buffer: *mut u8,
        size: usize,
        it: &Message,
        first: Bytes,
        first_length: usize,
        second: Bytes,
        second_length: usize,
        signature: Bytes,
        signature_length: usize,
    ) -> usize;
    fn rignolda_frame_head(bytes: Bytes, length: usize, it: &mut Message) -> bool;
    fn rignolda_refusal_read(expect: u8, bytes: Bytes, length: usize) -> u8;
    fn rignolda_refusal_write(buffer: *mut u8, size: usize, expect: u8, why: u8) -> usize;
    // (they take numbers alone)
    pub(super) safe fn rignolda_versions_range(oldest: u8, newest: u8) -> u16;
    pub(super) safe fn rignolda_versions_read(version: u8, label: u16) -> u16;
    fn rignolda_way_answer(it: &WayAsked) -> u8;
    fn rignolda_way_unfit(it: &WayAsked) -> u8;
    pub(super) safe fn rignolda_way_over(said: u16, price: u16) -> u16;
    fn rignolda_word_read(bytes: Bytes, length: usize, it: &mut Message) -> bool;
    fn rignolda_word_reports(bytes: Bytes, length: usize, count: &mut u32) -> bool;
    fn rignolda_word_write(
        buffer: *mut u8,
        size: usize,
        hello: &Message,
        from: Bytes,
        from_length: usize,
        to: Bytes,
        to_length: usize,
        reports: u32,
    ) -> usize;
}

/// A message that is in front of some bytes, its texts as they lie there, and the bytes after it.
pub(super) type Found<'a> = (Message, [&'a [u8]; 3], &'a [u8]);

fn found(it: Message, bytes: &[u8]) -> Found<'_> {
    let texts = it.texts.map(|[at, length]| bytes.get(at..at + length).unwrap_or_default());
    let rest = bytes.get(it.end..).unwrap_or_default();
    (it, texts, rest)
}

/// The message in front of the bytes; nothing where more has to come.
pub(super) fn message(expect: Expect, bytes: &[u8]) -> Result<Option<Found<'_>>, WireError> {
    let mut it = Message::default();
    // SAFETY: the bytes and the message are lent for the call.
    match unsafe { rignolda_message_read(expect as u8, bytes.as_ptr(), bytes.len(), &mut it) } {
        0 => Ok(Some(found(it, bytes))),
        1 => Ok(None),
        2 => Err(WireError::NoHello),
        3 => Err(WireError::NoVersion),
        4 => Err(WireError::NoName),
        5 => Err(WireError::NoMessage),
        6 => Err(WireError::LongBody),
        7 => Err(WireError::LongWay),
        8 => Err(WireError::NoNameOfWay),
        _ => Err(WireError::LongReport),
    }
}

/// The hello of a word of a store.
pub(super) fn word(bytes: &[u8]) -> Option<Found<'_>> {
    let mut it = Message::default();
    // SAFETY: the bytes and the message are lent for the call.
    let is_there = unsafe { rignolda_word_read(bytes.as_ptr(), bytes.len(), &mut it) };
    is_there.then(|| found(it, bytes))
}

/// What the frame in front has before its body.
pub(super) fn frame_head(bytes: &[u8]) -> Option<Message> {
    let mut it = Message::default();
    // SAFETY: the bytes and the message are lent for the call.
    unsafe { rignolda_frame_head(bytes.as_ptr(), bytes.len(), &mut it) }.then_some(it)
}

/// How often a child has set its report, by what is behind the hello of its word.
pub(super) fn reports(bytes: &[u8]) -> Option<u32> {
    let mut count = 0;
    // SAFETY: the bytes and the count are lent for the call.
    unsafe { rignolda_word_reports(bytes.as_ptr(), bytes.len(), &mut count) }.then_some(count)
}

/// Why the other end refuses this one, where these are all the bytes that came.
pub(super) fn refused(expect: Expect, bytes: &[u8]) -> Option<Refusal> {
    // SAFETY: the bytes are lent for the call.
    Refusal::of(unsafe { rignolda_refusal_read(expect as u8, bytes.as_ptr(), bytes.len()) })
}

/// Whether these bytes may be the name of an agent.
pub(super) fn is_name(bytes: &[u8]) -> bool {
    // SAFETY: the bytes are lent for the call.
    unsafe { rignolda_is_name(bytes.as_ptr(), bytes.len()) }
}

/// Writes a message with these texts, all of it but the text at the end of a way, a frame or a
/// report. Where its end is, or 0 where it has no spelling or no room.
pub(super) fn write(buffer: &mut [u8], it: &Message, texts: [&[u8]; 3]) -> usize {
    let (to, size) = (buffer.as_mut_ptr(), buffer.len());
    let [(a, len_a), (b, len_b), (c, len_c)] = texts.map(|text| (text.as_ptr(), text.len()));
    // SAFETY: all of these are lent for the call, which writes into the buffer alone.
    unsafe { rignolda_message_write(to, size, it, a, len_a, b, len_b, c, len_c) }
}

/// What a call writes into a buffer with ample room.
fn written(write: impl FnOnce(&mut [u8]) -> usize) -> Vec<u8> {
    let mut buffer = [0; LONGEST];
    let end = write(&mut buffer);
    buffer[..end].to_vec()
}

/// The same, as bytes, without a signature.
pub(super) fn bytes(it: &Message, [first, second]: [&[u8]; 2]) -> Vec<u8> {
    written(|buffer| write(buffer, it, [first, second, &[]]))
}

/// The word of a child.
pub(super) fn up(hello: &Message, [from, to]: [&[u8]; 2], reports: u32) -> Vec<u8> {
    written(|buffer| {
        let (at, size) = (buffer.as_mut_ptr(), buffer.len());
        let (one, other) = (from.as_ptr(), to.as_ptr());
        // SAFETY: all of these are lent for the call, which writes into the buffer alone.
        unsafe { rignolda_word_write(at, size, hello, one, from.len(), other, to.len(), reports) }
    })
}

/// What an end is told that expects this and is refused.
pub(super) fn refusal(expect: Expect, why: Refusal) -> Vec<u8> {
    let (expect, why) = (expect as u8, why as u8);
    // SAFETY: the buffer is lent for the call.
    written(|it| unsafe { rignolda_refusal_write(it.as_mut_ptr(), it.len(), expect, why) })
}

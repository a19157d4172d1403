//! The calls of the proved library of settings, as `include/rignolda_settings.h` declares them.
//!
//! They ask for nothing but that each reference is one: every bit pattern of a struct is a state.
use super::{Entry, Heard};
use crate::prelude::*;

/// What a root remembers of what it published.
#[repr(C)]
#[derive(Debug, Default)]
pub(super) struct Publisher {
    number: u64,
    items: u64,
    bytes: u64,
    table_bytes: u64,
    left: u64,
    rounds_turn: u8,
    table_first: u8,
    held: u8,
}

/// The body to publish next.
#[repr(C)]
#[derive(Debug, Default)]
pub(super) struct NextBody {
    pub(super) number: u64,
    pub(super) entries: u64,
    pub(super) kind: u8,
}

/// The numbers of what waits beside a key.
#[repr(C)]
#[derive(Debug, Default)]
pub(super) struct Waits {
    pub(super) first: u64,
    pub(super) last: u64,
    pub(super) is_there: u8,
}

const _: () = assert!(core::mem::size_of::<Publisher>() == 48);
const _: () = assert!(core::mem::size_of::<NextBody>() == 24);
const _: () = assert!(core::mem::size_of::<Waits>() == 24);

extern "C" {
    fn rignolda_publisher_init(publisher: &mut Publisher, number: u64);
    fn rignolda_publisher_begin_round(publisher: &mut Publisher, harmless: u32);
    fn rignolda_publisher_go_above(publisher: &mut Publisher, number: u64) -> bool;
    fn rignolda_publisher_is_in_a_round(publisher: &Publisher) -> bool;
    fn rignolda_publisher_hold(publisher: &mut Publisher, holds: u8);
    fn rignolda_publisher_waits(publisher: &Publisher, changes: u64) -> bool;
    fn rignolda_publisher_next(
        publisher: &Publisher,
        changes: u64,
        settings: u64,
        limit: u64,
        body: &mut NextBody,
    );
    fn rignolda_publisher_publish(
        publisher: &mut Publisher,
        changes: u64,
        limit: u64,
        bytes: u64,
    ) -> u8;
    fn rignolda_waits_on_change(waits: &mut Waits, first: u64, last: u64) -> bool;
    fn rignolda_waits_on_left_out(waits: &mut Waits, first: u64, last: u64) -> bool;
}

// SAFETY, of all these: a call reads and writes the structs that it is lent, and nothing else.
impl Publisher {
    pub(super) fn new(number: u64) -> Publisher {
        let mut publisher = Publisher::default();
        unsafe { rignolda_publisher_init(&mut publisher, number) };
        publisher
    }

    pub(super) fn is_table_first(&self) -> bool {
        self.table_first != 0
    }

    pub(super) fn begin_round(&mut self, harmless: u32) {
        unsafe { rignolda_publisher_begin_round(self, harmless) }
    }

    pub(super) fn go_above(&mut self, number: u64) -> bool {
        unsafe { rignolda_publisher_go_above(self, number) }
    }

    pub(super) fn is_in_a_round(&self) -> bool {
        unsafe { rignolda_publisher_is_in_a_round(self) }
    }

    pub(super) fn hold(&mut self, holds: bool) {
        unsafe { rignolda_publisher_hold(self, holds.into()) }
    }

    pub(super) fn waits(&self, changes: usize) -> bool {
        unsafe { rignolda_publisher_waits(self, changes as u64) }
    }

    pub(super) fn next(&self, changes: usize, settings: usize, limit: u64) -> NextBody {
        let mut body = NextBody::default();
        let (changes, settings) = (changes as u64, settings as u64);
        unsafe { rignolda_publisher_next(self, changes, settings, limit, &mut body) };
        body
    }

    pub(super) fn publish(&mut self, changes: usize, limit: u64, bytes: usize) {
        unsafe { rignolda_publisher_publish(self, changes as u64, limit, bytes as u64) };
    }
}

impl Waits {
    /// A change of the key comes: whether its value takes the place of the one that waits.
    pub(super) fn on_change(&mut self, first: u64, last: u64) -> bool {
        unsafe { rignolda_waits_on_change(self, first, last) }
    }

    /// A whole table leaves the key out: whether it is to be unset.
    pub(super) fn on_left_out(&mut self, first: u64, last: u64) -> bool {
        unsafe { rignolda_waits_on_left_out(self, first, last) }
    }
}

/// `rignolda_body_head`.
#[repr(C)]
#[derive(Default)]
pub(crate) struct BodyHead {
    pub(crate) number: u64,
    pub(crate) count: u32,
    pub(crate) kind: u32,
}

/// `rignolda_body_entry`.
#[repr(C)]
#[derive(Default)]
struct BodyEntry {
    key: usize,
    key_length: usize,
    value: usize,
    value_length: usize,
}

extern "C" {
    fn rignolda_checksum(bytes: *const u8, length: usize) -> u32;
    fn rignolda_body_check(item: u32, bytes: *const u8, length: usize, head: &mut BodyHead) -> u8;
    fn rignolda_body_read(bytes: *const u8, length: usize, at: usize, entry: &mut BodyEntry) -> u8;
    fn rignolda_body_begin(
        buffer: *mut u8,
        size: usize,
        kind: u8,
        number: u64,
        count: u32,
    ) -> usize;
    fn rignolda_body_set(
        buffer: *mut u8,
        size: usize,
        at: usize,
        key: *const u8,
        key_length: usize,
        value: *const u8,
        value_length: usize,
    ) -> usize;
    fn rignolda_body_unset(
        buffer: *mut u8,
        size: usize,
        at: usize,
        key: *const u8,
        key_length: usize,
    ) -> usize;
}

/// The checksum CRC-32.
pub(crate) fn checksum(bytes: &[u8]) -> u32 {
    // SAFETY: the bytes are lent for the call.
    unsafe { rignolda_checksum(bytes.as_ptr(), bytes.len()) }
}

/// The head of the bytes beside an item, where they are a body that fits it.
pub(crate) fn body_head(item: u32, bytes: &[u8]) -> Option<BodyHead> {
    let mut head = BodyHead::default();
    // SAFETY: the bytes and the head are lent for the call.
    let fault = unsafe { rignolda_body_check(item, bytes.as_ptr(), bytes.len(), &mut head) };
    (fault == 0).then_some(head)
}

/// The entry that begins at this place of a body, and where the next one does.
pub(crate) fn body_entry(bytes: &[u8], at: usize) -> Option<(Entry<'_>, usize)> {
    let mut it = BodyEntry::default();
    // SAFETY: the bytes and the entry are lent for the call.
    let mark = unsafe { rignolda_body_read(bytes.as_ptr(), bytes.len(), at, &mut it) };
    let end = it.value + it.value_length;
    let value = match mark {
        b'S' => Some(bytes.get(it.value..end)?),
        b'U' => None,
        _ => return None,
    };
    let key = bytes.get(it.key..it.key + it.key_length)?;
    // SAFETY: what is read as a key has the bytes of one alone, which are all below 128.
    Some(((unsafe { core::str::from_utf8_unchecked(key) }, value), end))
}

/// The bytes of a body of this kind, of which there are so many at most; none where it has no
/// spelling in so many bytes.
pub(crate) fn body(kind: u8, number: u64, entries: &[Entry<'_>], size: usize) -> Vec<u8> {
    let mut bytes = Vec::with_capacity(size);
    let to = bytes.as_mut_ptr();
    // SAFETY: each call writes within these bytes, which are reserved, from the end of the last one
    // on, and says where its own end is.
    unsafe {
        let mut at = rignolda_body_begin(to, size, kind, number, entries.len() as u32);
        for (key, value) in entries {
            if at == 0 {
                break;
            }
            let (key, length) = (key.as_ptr(), key.len());
            at = match value {
                Some(it) => rignolda_body_set(to, size, at, key, length, it.as_ptr(), it.len()),
                None => rignolda_body_unset(to, size, at, key, length),
            };
        }
        bytes.set_len(at);
    }
    bytes
}

/// What an agent remembers of the numbers of bodies. It takes each body that is newer than the
/// last, and applies it unless its files are from a later one: an agent that begins anew waits
/// until it has caught up with its files. So nothing older ever follows what is newer.
#[repr(C)]
#[derive(Clone, Copy, Debug, Default, PartialEq, Eq)]
pub struct Taker {
    /// The number of the last body that was taken; 0 before the first.
    pub number: u64,
    /// The number up to which the files are, or may be. The disk keeps it.
    pub floor: u64,
    whole: u8,
    in_a_round: u8,
}

/// `rignolda_taker_heard`.
#[repr(C)]
#[derive(Default)]
struct TakerHeard {
    taken: u8,
    drops: u8,
    applied: u8,
    fills: u8,
    looks: u8,
}

const _: () = assert!(core::mem::size_of::<Taker>() == 24);
const _: () = assert!(core::mem::size_of::<TakerHeard>() == 5);

extern "C" {
    fn rignolda_taker_init(taker: &mut Taker, floor: u64);
    fn rignolda_taker_hears(taker: &mut Taker, kind: u8, number: u64, heard: &mut TakerHeard);
    fn rignolda_taker_misses(taker: &mut Taker);
    fn rignolda_room_change(room: &mut Room, had: u64, has: u64);
    fn rignolda_room_fits(room: &Room) -> bool;
    fn rignolda_may_mark(marker: u64, number: u64) -> bool;
    fn rignolda_number_is_newer(than: u64, number: u64) -> bool;
    fn rignolda_number_next(number: u64) -> u64;
    fn rignolda_number_further(from: u64, number: u64, other: u64) -> u64;
}

impl Taker {
    /// That of a process which starts, whose files have this number, or 0 where it is not known.
    pub fn new(floor: u64) -> Taker {
        let mut taker = Taker::default();
        // SAFETY: the taker is lent for the call.
        unsafe { rignolda_taker_init(&mut taker, floor) };
        taker
    }

    /// Whether a whole table came, and nothing was left out since.
    pub fn is_whole(&self) -> bool {
        self.whole != 0
    }

    /// What it was told was left out, so that something is missing.
    pub(crate) fn misses(&mut self) {
        // SAFETY: the taker is lent for the call.
        unsafe { rignolda_taker_misses(self) }
    }

    /// What to do with a body that came now, which begins with this byte. One that is not newer
    /// changes nothing: it came by a link that began anew, or lay somewhere.
    pub fn hears(&mut self, kind: u8, number: u64) -> Heard {
        let mut heard = TakerHeard::default();
        // SAFETY: the taker and what is heard are lent for the call.
        unsafe { rignolda_taker_hears(self, kind, number, &mut heard) };
        Heard {
            takes: heard.taken != 0,
            drops: heard.drops != 0,
            applies: heard.applied != 0,
            fills: heard.fills != 0,
            looks: heard.looks != 0,
        }
    }
}

/// What a whole table takes: how many settings it has, and how many bytes their entries have.
#[repr(C)]
#[derive(Clone, Copy, Debug, Default, PartialEq, Eq)]
pub(crate) struct Room {
    settings: u64,
    bytes: u64,
}

const _: () = assert!(core::mem::size_of::<Room>() == 16);

impl Room {
    /// A setting is set or unset, whose entry had so many bytes, and has so many now; 0 where it is
    /// not there.
    pub(crate) fn change(&mut self, had: usize, has: usize) {
        // SAFETY: the room is lent for the call.
        unsafe { rignolda_room_change(self, had as u64, has as u64) }
    }

    /// With so many settings beside these, which take so many bytes.
    pub(crate) fn beside(self, settings: usize, bytes: usize) -> Room {
        let settings = self.settings.saturating_add(settings as u64);
        Room { settings, bytes: self.bytes.saturating_add(bytes as u64) }
    }

    /// Whether all these settings are one whole table.
    pub(crate) fn fits(&self) -> bool {
        // SAFETY: the room is lent for the call.
        unsafe { rignolda_room_fits(self) }
    }
}

/// What settings take whose entries have so many bytes.
impl FromIterator<usize> for Room {
    fn from_iter<I: IntoIterator<Item = usize>>(all: I) -> Room {
        let mut room = Room::default();
        all.into_iter().for_each(|bytes| room.change(0, bytes));
        room
    }
}

/// Whether a folder whose marker has this number may be marked with that one.
pub(crate) fn may_mark(marker: u64, number: u64) -> bool {
    // SAFETY: it takes numbers alone.
    unsafe { rignolda_may_mark(marker, number) }
}

/// Whether the second number is newer than the first.
pub(crate) fn is_newer(than: u64, number: u64) -> bool {
    // SAFETY: it takes numbers alone.
    unsafe { rignolda_number_is_newer(than, number) }
}

/// The number after this one.
pub(crate) fn next(number: u64) -> u64 {
    // SAFETY: it takes numbers alone.
    unsafe { rignolda_number_next(number) }
}

/// Of two numbers the one that is further ahead of the first.
pub(crate) fn further(from: u64, number: u64, other: u64) -> u64 {
    // SAFETY: they are numbers alone.
    unsafe { rignolda_number_further(from, number, other) }
}

rignolda::spoils! { Publisher {
    number, items, bytes, table_bytes, left, rounds_turn, table_first, held
} }
rignolda::spoils! { Taker { number, floor, whole, in_a_round } }
rignolda::spoils! { Room { settings, bytes } }

//! The calls of the C library, as `include/rignolda.h` declares them.
//!
//! They ask for nothing but that each reference is one: every bit pattern of a struct is a state.

/// `rignolda_params`.
#[repr(C)]
#[derive(Clone, Copy, Debug, PartialEq, Eq)]
pub(crate) struct Params {
    pub(crate) capacity: u16,
    pub(crate) labels: u16,
}

/// `rignolda_frame`.
#[repr(C)]
#[derive(Clone, Copy, Default)]
pub(crate) struct Frame {
    pub(crate) item: u32,
    pub(crate) label: u16,
    pub(crate) unused: u16,
}

/// `rignolda_sender`.
#[repr(C)]
#[derive(Debug, Default)]
pub(crate) struct Sender {
    pub(crate) item: u32,
    pub(crate) label: u16,
    pub(crate) holding: u8,
    pub(crate) closed: u8,
}

/// `rignolda_receiver`.
#[repr(C)]
#[derive(Debug, Default)]
pub(crate) struct Receiver {
    pub(crate) label: u16,
    pub(crate) closed: u16,
}

/// `rignolda_node`.
#[repr(C)]
#[derive(Debug, Default)]
pub(crate) struct Node {
    pub(crate) above: Receiver,
    pub(crate) length: u64,
    pub(crate) forgotten: u64,
    pub(crate) old_frames: u64,
}

/// `rignolda_child`.
#[repr(C)]
#[derive(Debug, Default)]
pub(crate) struct Child {
    pub(crate) sender: Sender,
    pub(crate) offered: u64,
    pub(crate) acknowledged: u64,
    pub(crate) ignored: u64,
}

/// `rignolda_session`.
#[repr(C)]
#[derive(Debug, Default)]
pub(crate) struct Session {
    pub(crate) number: u64,
    pub(crate) there: u32,
    pub(crate) turn: u32,
}

const _: () = assert!(core::mem::size_of::<Params>() == 4);
const _: () = assert!(core::mem::size_of::<Frame>() == 8);
const _: () = assert!(core::mem::size_of::<Sender>() == 8);
const _: () = assert!(core::mem::size_of::<Receiver>() == 4);
const _: () = assert!(core::mem::size_of::<Node>() == 32);
const _: () = assert!(core::mem::size_of::<Child>() == 32);
const _: () = assert!(core::mem::size_of::<Session>() == 16);

extern "C" {
    pub(crate) fn rignolda_params_check(params: &Params) -> u8;

    pub(crate) fn rignolda_sender_init(sender: &mut Sender, label: u16);
    pub(crate) fn rignolda_sender_offer(sender: &mut Sender, item: u32) -> bool;
    pub(crate) fn rignolda_sender_frame(sender: &Sender, frame: &mut Frame) -> bool;
    pub(crate) fn rignolda_sender_on_ack(sender: &mut Sender, params: &Params, label: u16) -> bool;
    pub(crate) fn rignolda_sender_close(sender: &mut Sender);

    pub(crate) fn rignolda_receiver_init(receiver: &mut Receiver, label: u16);
    pub(crate) fn rignolda_receiver_is_fresh(receiver: &Receiver, frame: &Frame) -> bool;
    pub(crate) fn rignolda_receiver_on_frame(
        receiver: &mut Receiver,
        frame: &Frame,
        item: &mut u32,
    ) -> bool;
    pub(crate) fn rignolda_receiver_ack(receiver: &Receiver, label: &mut u16) -> bool;
    pub(crate) fn rignolda_receiver_close(receiver: &mut Receiver);

    pub(crate) fn rignolda_node_init(node: &mut Node, label: u16, opening: u64);
    pub(crate) fn rignolda_child_init_at(
        child: &mut Child,
        node: &Node,
        size: usize,
        label: u16,
        place: u64,
    ) -> bool;
    pub(crate) fn rignolda_node_publish(
        node: &mut Node,
        list: *mut u32,
        size: usize,
        item: u32,
    ) -> bool;
    pub(crate) fn rignolda_node_on_frame(
        node: &mut Node,
        list: *mut u32,
        size: usize,
        frame: &Frame,
    ) -> bool;
    pub(crate) fn rignolda_node_poll(
        node: &Node,
        child: &mut Child,
        list: *const u32,
        size: usize,
        frame: &mut Frame,
    ) -> bool;
    pub(crate) fn rignolda_child_on_ack(child: &mut Child, params: &Params, label: u16) -> bool;
    pub(crate) fn rignolda_node_backlog(node: &Node, child: &Child, size: usize) -> u64;
    pub(crate) fn rignolda_child_needs(node: &Node, child: &Child, place: u64) -> u64;
    pub(crate) fn rignolda_node_forget(node: &mut Node, place: u64);
    pub(crate) fn rignolda_node_left_behind(node: &Node, child: &Child, size: usize) -> bool;

    pub(crate) fn rignolda_session_init(session: &mut Session);
    pub(crate) fn rignolda_session_made(session: &mut Session) -> u64;
    pub(crate) fn rignolda_session_accepted(session: &mut Session) -> u64;
    pub(crate) fn rignolda_session_has(session: &Session, number: u64) -> bool;
    pub(crate) fn rignolda_session_ended(session: &mut Session, number: u64) -> bool;
    pub(crate) fn rignolda_session_send(
        sender: &Sender,
        session: &mut Session,
        frame: &mut Frame,
    ) -> bool;
    pub(crate) fn rignolda_session_on_ack(
        sender: &mut Sender,
        session: &mut Session,
        params: &Params,
        number: u64,
        label: u16,
    ) -> bool;
    pub(crate) fn rignolda_session_on_frame(
        receiver: &mut Receiver,
        session: &mut Session,
        number: u64,
        frame: &Frame,
        item: &mut u32,
    ) -> bool;
    pub(crate) fn rignolda_session_ack(
        receiver: &Receiver,
        session: &mut Session,
        label: &mut u16,
    ) -> bool;
    pub(crate) fn rignolda_session_poll(
        node: &Node,
        child: &mut Child,
        session: &mut Session,
        list: *const u32,
        size: usize,
        frame: &mut Frame,
    ) -> bool;
    pub(crate) fn rignolda_session_child_on_ack(
        child: &mut Child,
        session: &mut Session,
        params: &Params,
        number: u64,
        label: u16,
    ) -> bool;
    pub(crate) fn rignolda_session_node_on_frame(
        node: &mut Node,
        session: &mut Session,
        number: u64,
        list: *mut u32,
        size: usize,
        frame: &Frame,
    ) -> bool;

    pub(crate) fn rignolda_word_of_frame(frame: &Frame) -> u64;
    pub(crate) fn rignolda_word_frame(word: u64, frame: &mut Frame) -> bool;
    pub(crate) fn rignolda_word_of_label(label: u16) -> u64;
    pub(crate) fn rignolda_word_label(word: u64, label: &mut u16) -> bool;
}

crate::spoils! { Params { capacity, labels } }
crate::spoils! { Sender { item, label, holding, closed } }
crate::spoils! { Receiver { label, closed } }
crate::spoils! { Node { above, length, forgotten, old_frames } }
crate::spoils! { Child { sender, offered, acknowledged, ignored } }
crate::spoils! { Session { number, there, turn } }

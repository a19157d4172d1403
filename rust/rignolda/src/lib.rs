//! The two ends of a self-stabilizing link, and a node of a tree of such links.
//!
//! A [`Sender`] hands items of 32 bits to a [`Receiver`] over a line that is first in, first out,
//! and that may lose messages and repeat the one at its front. The line may contain anything when
//! the ends begin, and they may begin with any labels. As long as at most `capacity` messages are
//! under way in each direction, this holds of what the receiver delivers: first come at most
//! `capacity` strays, frames that were in the line at the start; then come offered items in their
//! order, each at most once; and none that is acknowledged is missing, except among the first
//! `2 * capacity + 1`.
//!
//! A [`Node`] is a receiver, a list, and a [`Child`] for each link below it. It keeps of its list
//! what a child still needs, in a ring that it owns. In a tree of nodes, with a line like this for
//! each link, the list of a node is at most C + E strays and after them published items in their
//! order, each at most once; and before its last one none is missing, except among the first M. C,
//! M and E are sums over the node's path from the root: of `capacity` and of `2 * capacity + 1`
//! over the links, and over the inner nodes of the most items that their lists may begin with.
//!
//! Each call is one of the C library that this crate links, whose code is proved: it is a step of
//! the definitions that these laws are about, from every bit pattern of its structs. So from there
//! the bounds hold; that items arrive is so [where more is called](crate#when-nothing-comes). None
//! waits, reads a clock, or panics, and none takes memory but those that make a [`Node`]. What goes
//! over a line, and when, is the caller's. The header `include/rignolda.h` names the laws.
//!
//! ```
//! use rignolda::{Params, Receiver, Sender};
//!
//! let params = Params::new(1, 4)?;
//! let mut sender = Sender::new(params, 2);
//! let mut receiver = Receiver::new(65535);
//!
//! assert!(sender.offer(7));
//! let frame = sender.frame().expect("it is holding an item");
//! // (the frame travels, perhaps more than once)
//! assert_eq!(receiver.on_frame(frame), Some(7));
//! assert_eq!(receiver.on_frame(frame), None);
//! let label = receiver.ack().expect("it is open");
//! assert!(sender.on_ack(label));
//! assert_eq!(sender.frame(), None);
//! # Ok::<(), rignolda::ParamsError>(())
//! ```
//!
//! # A count
//!
//! The laws hold within one count of a link, in which it has one [`Sender`] or [`Child`] and one
//! [`Receiver`] or [`Node`]. It begins with them, and ends where one of them is made again: what
//! was delivered before may then come again. A copy of an end would break the laws, since a
//! receiver that took items 7 and 8 takes 7 once more from a sender of before. So no end can be
//! cloned. Where the children of a node begin at different items, the law of the tree holds of each
//! path by itself.
//!
//! What a node forgets changes no count: the laws speak of its whole list. A child that is made
//! anew by [`Node::child`] begins one: it gets at most `capacity` strays, then the list of its node
//! from its place on, in its order, each item at most once; and none that it acknowledged is
//! missing, except among the first `2 * capacity + 1`.
//!
//! # When nothing comes
//!
//! Whatever bits a [`Session`] of a [`Child`] and of a [`Node`] hold, and whatever is under way,
//! items arrive again where connections are made again and each end does what stands here. No
//! sound end is led to what begins a new count (*), but a sender whose child is left behind.
//!
//! | An end sees | It calls |
//! |---|---|
//! | it has a backlog, and nothing comes in the time that you allow | [`Session::ended`], and another connection |
//! | the same on some connections | that alone: it is the network, and no end |
//! | [`Session::made`] or [`Session::accepted`] gives none | closes all that it has open, and makes session and end anew * |
//! | [`Session::poll`] gives none [in turn](Session::is_in_turn), though there is a backlog | [`Session::renew`] with a [`Node::child`] * |
//! | [`Session::ack`] gives none in turn | [`Session::open`] * |
//! | [`Node::length`] is [`u64::MAX`] | makes the node anew, and its children * |
//!
//! Let each node [forget](Node::forget) before it takes a frame or publishes. What was closed by
//! you stays closed.
//!
//! # What is proved
//!
//! The header `include/rignolda.h` says what each law asks for; the laws are functions of the crate
//! `stab_line`, which no program calls; each call has clauses of its own, in the crate `stab_c`.
//!
//! | Law | What it is about here |
//! |---|---|
//! | `two_ends_on_a_line_are_a_link`, `two_ends_on_a_line_obey_the_link_law` | [`Sender`] and [`Receiver`] |
//! | `a_tree_of_nodes_obeys_the_tree_law`, `calls_of_nodes_are_acts_of_the_tree` | [`Node`] and [`Child`] |
//! | `a_tree_of_whole_lists_obeys_the_tree_law`, `a_child_made_anew_gets_the_list_from_its_place` | [`Node::forget`] and [`Node::child`] |
//! | `connections_are_a_line`, `connections_obey_the_link_law`, `restarts_leave_connections_in_turn` | [`Session`] of a [`Sender`] and of a [`Receiver`] |
//! | `a_tree_over_connections_obeys_the_tree_law`, `calls_of_sessions_are_acts_of_the_tree` | [`Session`] of a [`Child`] and of a [`Node`] |
//! | `numbers_tell_the_newest_connection`, `numbers_may_mean_any_connections` | [`Connection`] |
//! | `a_new_connection_acknowledges_the_item`, `each_exchange_hands_on_an_item`, `a_path_hands_on_everything_from_any_state` | what [arrives again](crate#when-nothing-comes) |
//! | `registers_are_a_line`, `registers_obey_the_law_of_their_start` | [`word`] |
//! | `a_tree_of_mixed_links_obeys_the_tree_law` | a tree in which each link goes its own way |
//!
//! Not proved: this crate itself, which hands each call to the C library's. All its types are
//! [`Send`] and [`Sync`]: what a call may change it has for itself, and it keeps nothing elsewhere.
//!
//! # Agents over a network
//!
//! What an agent needs beside these calls, its connections, links with bodies and settings, is the
//! crate `rignolda_machine`, without sockets, files and clocks as well.
#![no_std]
#![warn(missing_debug_implementations, missing_docs)]

extern crate alloc;
#[cfg(feature = "trial")]
extern crate std;

mod calls;
#[cfg(not(feature = "trial"))]
mod no_trial;
mod node;
mod session;
#[cfg(feature = "trial")]
#[doc(hidden)]
pub mod trial;
pub mod word;

pub use node::{Child, Node};
pub use session::{Connection, Session};

use core::fmt;

/// What a link is set up with: its capacity and its number of labels.
///
/// Both ends of a link, and whoever chose the line, have to mean the same ones.
#[derive(Clone, Copy, Debug, PartialEq, Eq)]
pub struct Params(calls::Params);

impl Params {
    /// Parameters for a line with at most `capacity` messages under way in each direction, 1 to
    /// 64, and with `labels` labels, from `2 * capacity + 2` to 1000.
    ///
    /// # Errors
    ///
    /// The first limit that is broken, in the order of [`ParamsError`].
    ///
    /// ```
    /// use rignolda::{Params, ParamsError};
    ///
    /// assert!(Params::new(64, 130).is_ok());
    /// assert_eq!(Params::new(0, 0), Err(ParamsError::CapacityOutOfRange));
    /// assert_eq!(Params::new(1, 3), Err(ParamsError::LabelsTooFew));
    /// assert_eq!(Params::new(1, 1001), Err(ParamsError::LabelsTooMany));
    /// ```
    pub fn new(capacity: u16, labels: u16) -> Result<Params, ParamsError> {
        let params = calls::Params { capacity, labels };
        // SAFETY: the call only reads the parameters.
        match unsafe { calls::rignolda_params_check(&params) } {
            0 => Ok(Params(params)),
            1 => Err(ParamsError::CapacityOutOfRange),
            2 => Err(ParamsError::LabelsTooFew),
            _ => Err(ParamsError::LabelsTooMany),
        }
    }

    /// The most messages under way in each direction.
    pub fn capacity(self) -> u16 {
        self.0.capacity
    }

    /// The number of labels.
    pub fn labels(self) -> u16 {
        self.0.labels
    }
}

/// Why parameters are refused, in the order of the checks.
#[derive(Clone, Copy, Debug, PartialEq, Eq)]
#[non_exhaustive]
pub enum ParamsError {
    /// The capacity is not 1 to 64.
    CapacityOutOfRange,
    /// There are fewer than twice the capacity and two labels.
    LabelsTooFew,
    /// There are more than 1000 labels.
    LabelsTooMany,
}

impl fmt::Display for ParamsError {
    fn fmt(&self, to: &mut fmt::Formatter<'_>) -> fmt::Result {
        to.write_str(match self {
            ParamsError::CapacityOutOfRange => "capacity out of range",
            ParamsError::LabelsTooFew => "too few labels",
            ParamsError::LabelsTooMany => "too many labels",
        })
    }
}

impl core::error::Error for ParamsError {}

/// A message of a sender: its item under its label.
#[derive(Clone, Copy, Debug, PartialEq, Eq)]
pub struct Frame {
    /// The label, which may be any number in what a line brings.
    pub label: u16,
    /// The item.
    pub item: u32,
}

impl Frame {
    fn of(raw: calls::Frame) -> Frame {
        Frame {
            label: raw.label,
            item: raw.item,
        }
    }

    fn raw(self) -> calls::Frame {
        calls::Frame {
            item: self.item,
            label: self.label,
            unused: 0,
        }
    }
}

/// The sender's end of a link: a label, and at most one item.
///
/// Nothing of it has to be saved: after a restart it may begin with any label. It cannot be cloned,
/// [since a link has one](crate#a-count):
///
/// ```compile_fail,E0599
/// let sender = rignolda::Sender::new(rignolda::Params::new(1, 4)?, 2);
/// let copy = sender.clone();
/// # Ok::<(), rignolda::ParamsError>(())
/// ```
#[derive(Debug)]
pub struct Sender {
    raw: calls::Sender,
    params: Params,
}

impl Sender {
    /// An idle sender with this label, which may be any.
    pub fn new(params: Params, label: u16) -> Sender {
        let mut raw = calls::Sender::default();
        // SAFETY: the call writes this sender alone.
        unsafe { calls::rignolda_sender_init(&mut raw, label) };
        Sender { raw, params }
    }

    /// Offers an item: whether the sender took it. It refuses one, and stays as it was, while it
    /// is holding another, and when it is closed.
    #[must_use = "an item that is refused is to be offered again"]
    pub fn offer(&mut self, item: u32) -> bool {
        // SAFETY: the call has this sender for itself.
        unsafe { calls::rignolda_sender_offer(&mut self.raw, item) }
    }

    /// The frame to send now, if the sender is holding an item and is open. It may be sent at any
    /// time and any number of times, until its acknowledgement has come.
    pub fn frame(&self) -> Option<Frame> {
        let mut frame = calls::Frame::default();
        // SAFETY: the call reads this sender, and writes the frame alone.
        unsafe { calls::rignolda_sender_frame(&self.raw, &mut frame) }.then_some(Frame::of(frame))
    }

    /// Handles an acknowledgement: whether it was that of the item that the sender is holding. Then
    /// the sender is idle, and has the next label; otherwise it stays as it was.
    pub fn on_ack(&mut self, label: u16) -> bool {
        // SAFETY: the call has this sender for itself, and only reads the parameters.
        unsafe { calls::rignolda_sender_on_ack(&mut self.raw, &self.params.0, label) }
    }

    /// Closes this end for good.
    pub fn close(&mut self) {
        // SAFETY: the call has this sender for itself.
        unsafe { calls::rignolda_sender_close(&mut self.raw) }
    }

    /// The label.
    pub fn label(&self) -> u16 {
        self.raw.label
    }

    /// The item that waits for its acknowledgement.
    pub fn held(&self) -> Option<u32> {
        (self.raw.holding != 0).then_some(self.raw.item)
    }
}

/// The receiver's end of a link: the label that it remembers. It cannot be cloned,
/// [since a link has one](crate#a-count).
///
/// ```
/// use rignolda::{Frame, Receiver};
///
/// let mut receiver = Receiver::new(3);
/// assert_eq!(receiver.on_frame(Frame { label: 3, item: 8 }), None);
/// assert_eq!(receiver.on_frame(Frame { label: 0, item: 8 }), Some(8));
/// receiver.close();
/// assert_eq!(receiver.on_frame(Frame { label: 1, item: 9 }), None);
/// assert_eq!(receiver.ack(), None);
/// ```
#[derive(Debug)]
pub struct Receiver {
    raw: calls::Receiver,
}

impl Receiver {
    /// A receiver that remembers this label, which may be any.
    pub fn new(label: u16) -> Receiver {
        let mut raw = calls::Receiver::default();
        // SAFETY: the call writes this receiver alone.
        unsafe { calls::rignolda_receiver_init(&mut raw, label) };
        Receiver { raw }
    }

    /// Whether [`Receiver::on_frame`] would deliver the item of this frame.
    pub fn is_fresh(&self, frame: Frame) -> bool {
        // SAFETY: the call only reads.
        unsafe { calls::rignolda_receiver_is_fresh(&self.raw, &frame.raw()) }
    }

    /// Handles a frame: its item, if its label is not the remembered one. Then that label is
    /// remembered. An old frame, and any frame after the close, changes nothing.
    #[must_use = "an item that came does not come again"]
    pub fn on_frame(&mut self, frame: Frame) -> Option<u32> {
        let mut item = 0;
        // SAFETY: the call has this receiver and the item for itself, and only reads the frame.
        unsafe { calls::rignolda_receiver_on_frame(&mut self.raw, &frame.raw(), &mut item) }
            .then_some(item)
    }

    /// The label to acknowledge now, unless this end is closed. Every frame should be
    /// acknowledged, an old one too: its sender may still wait.
    pub fn ack(&self) -> Option<u16> {
        let mut label = 0;
        // SAFETY: the call reads this receiver, and writes the label alone.
        unsafe { calls::rignolda_receiver_ack(&self.raw, &mut label) }.then_some(label)
    }

    /// Closes this end for good.
    pub fn close(&mut self) {
        // SAFETY: the call has this receiver for itself.
        unsafe { calls::rignolda_receiver_close(&mut self.raw) }
    }

    /// The label that this end remembers.
    pub fn label(&self) -> u16 {
        self.raw.label
    }
}

crate::spoils! { Params { 0 } }

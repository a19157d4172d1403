//! A node of a tree, with a ring for the part of its list that is still needed.
use crate::{calls, Frame, Params};
use alloc::boxed::Box;
use alloc::vec::Vec;
use core::sync::atomic::{AtomicUsize, Ordering};

/// A node: a receiver above, a list, and below it a [`Child`] for each link.
///
/// The list is what the node begins with, its opening, and then what came: published items at the
/// root, elsewhere what the receiver delivered. Each child is offered the list in its order.
///
/// The list is all that the node ever had; its counts have 64 bits. The node keeps the end of it,
/// in a ring that it owns, until it is told to [forget](Node::forget). A node that keeps as many
/// items as it has room for takes no fresh frame, as if the line had lost it. What holds of the
/// list in a tree is said at the head of this crate.
///
/// ```
/// use rignolda::{Node, Params};
///
/// let params = Params::new(1, 4)?;
/// let mut root = Node::new(0, 2);
/// let mut link = root.child(params, 0, 0);
/// let mut leaf = Node::new(65535, 2);
///
/// for item in 0..1000 {
///     assert!(root.publish(item));
///     while let Some(frame) = root.poll(&mut link) {
///         assert!(leaf.on_frame(frame));
///         link.on_ack(leaf.ack().expect("it is open"));
///     }
///     assert_eq!(leaf.items().last(), Some(item));
///     // (the child has it, and the leaf has no child)
///     root.forget([&link]);
///     leaf.forget([]);
/// }
/// assert_eq!((leaf.length(), leaf.forgotten()), (1000, 1000));
/// # Ok::<(), rignolda::ParamsError>(())
/// ```
///
/// # A child that does not take
///
/// Only the children that [`Node::forget`] is given hold the list back. Leave one out that takes
/// nothing, so that its siblings go on. When the item that it needs next is forgotten, it is [left
/// behind](Node::left_behind) for good: it is sent what its sender holds, and offered nothing more.
/// When it is back, make it anew by [`Node::child`], at any place of what is kept. A child that no
/// backlog is left for has it all; so of one that is left behind the backlog is [`u64::MAX`].
///
/// ```
/// use rignolda::{Node, Params};
///
/// let params = Params::new(1, 4)?;
/// let mut root = Node::new(0, 3);
/// let mut dead = root.child(params, 0, 0);
/// for item in 0..10 {
///     assert!(root.publish(item));
///     if item >= 2 {
///         // (no other child lacks any item)
///         root.forget([]);
///     }
/// }
/// assert!(root.left_behind(&dead) && root.backlog(&dead) == u64::MAX);
///
/// assert!(root.publish(10) && root.publish(11));
/// dead = root.child(params, 3, 2);
/// assert_eq!(root.poll(&mut dead).map(|frame| frame.item), Some(10));
/// # Ok::<(), rignolda::ParamsError>(())
/// ```
#[derive(Debug)]
pub struct Node {
    pub(crate) raw: calls::Node,
    pub(crate) list: Box<[u32]>,
    id: usize,
}

/// How many nodes were made, so that a child can know its own.
static NODES: AtomicUsize = AtomicUsize::new(0);

impl Node {
    /// A node whose receiver remembers this label, which may be any, whose list is empty, and which
    /// has room for `room` items that a child still needs.
    pub fn new(label: u16, room: usize) -> Node {
        Node::with_opening(label, room, &[])
    }

    /// The same with a list that begins with these items. There is room for them in any case.
    pub fn with_opening(label: u16, room: usize, opening: &[u32]) -> Node {
        let mut list = Vec::with_capacity(room.max(opening.len()));
        list.extend_from_slice(opening);
        list.resize(room.max(opening.len()), 0);
        let mut raw = calls::Node::default();
        // SAFETY: the call writes this node alone.
        unsafe { calls::rignolda_node_init(&mut raw, label, opening.len() as u64) };
        Node {
            raw,
            list: list.into_boxed_slice(),
            id: NODES.fetch_add(1, Ordering::Relaxed),
        }
    }

    /// For how many items that a child still needs it has room.
    pub fn room(&self) -> usize {
        self.list.len()
    }

    /// At the root: puts an item at the back of the list. Whether there was room. No law speaks of
    /// an item that another node puts into its list.
    #[must_use = "an item for which there is no room is not in the list"]
    pub fn publish(&mut self, item: u32) -> bool {
        let (list, size) = (self.list.as_mut_ptr(), self.list.len());
        // SAFETY: the call has this node and its list for itself, which has `size` items.
        unsafe { calls::rignolda_node_publish(&mut self.raw, list, size, item) }
    }

    /// Handles a frame from above: whether it brought an item, which then is the last of the list.
    /// An old frame is counted, and nothing else changes; nor does anything where there is no room
    /// or the node is closed.
    pub fn on_frame(&mut self, frame: Frame) -> bool {
        let (list, size) = (self.list.as_mut_ptr(), self.list.len());
        // SAFETY: the call has this node and its list for itself, which has `size` items.
        unsafe { calls::rignolda_node_on_frame(&mut self.raw, list, size, &frame.raw()) }
    }

    /// The label to acknowledge to the parent now, unless the node is closed.
    pub fn ack(&self) -> Option<u16> {
        let mut label = 0;
        // SAFETY: the call reads this node, and writes the label alone.
        unsafe { calls::rignolda_receiver_ack(&self.raw.above, &mut label) }.then_some(label)
    }

    /// A child that begins `backlog` items before the end of the list, or with all that is kept
    /// where that is less, and an idle sender of this label, which may be any.
    ///
    /// It is offered the list from there on. A new count of its link begins: see [the
    /// crate](crate#a-count). At any time a link is to have one child alone.
    pub fn child(&self, params: Params, label: u16, backlog: u64) -> Child {
        let place = self.raw.length - backlog.min(self.kept() as u64);
        let mut raw = calls::Child::default();
        // SAFETY: the call writes this child alone, and only reads the node.
        let begins = unsafe {
            calls::rignolda_child_init_at(&mut raw, &self.raw, self.list.len(), label, place)
        };
        debug_assert!(begins, "the place is kept");
        Child {
            raw,
            params,
            node: self.id,
        }
    }

    /// Offers a child the next item, if its sender has none; the frame to send to it now, if any.
    /// There is none for a child of another node, which stays as it was.
    #[must_use = "the frame is to be sent"]
    pub fn poll(&self, child: &mut Child) -> Option<Frame> {
        if !self.has(child) {
            return None;
        }
        let mut frame = calls::Frame::default();
        let (list, size) = (self.list.as_ptr(), self.list.len());
        // SAFETY: the call has the child and the frame for itself, and only reads the node and its
        // list, which has `size` items.
        unsafe { calls::rignolda_node_poll(&self.raw, &mut child.raw, list, size, &mut frame) }
            .then_some(Frame::of(frame))
    }

    /// Forgets what each of these children was offered: the front of the list up to the first item
    /// that one of them lacks, or all of it where there are none. A child that is [left
    /// behind](Node::left_behind) already, or is another node's, holds nothing back.
    ///
    /// What one of the children given lacks stays; what another child lacks may go, and then it is
    /// left behind. An item that a child's sender holds is in the child.
    pub fn forget<'a>(&mut self, children: impl IntoIterator<Item = &'a Child>) {
        let mut place = self.raw.length;
        for child in children {
            // (the call is not told what the list has room for)
            if !self.left_behind(child) {
                // SAFETY: the call only reads.
                place = unsafe { calls::rignolda_child_needs(&self.raw, &child.raw, place) };
            }
        }
        // SAFETY: the call has this node for itself.
        unsafe { calls::rignolda_node_forget(&mut self.raw, place) }
    }

    /// Whether the item that this child would be offered next is forgotten, or its count is past
    /// the end of the list. It is offered nothing more then, until it is made anew by
    /// [`Node::child`]. So it is with a child of another node.
    pub fn left_behind(&self, child: &Child) -> bool {
        // SAFETY: the call only reads.
        !self.has(child)
            || unsafe { calls::rignolda_node_left_behind(&self.raw, &child.raw, self.list.len()) }
    }

    /// How many items a child has not acknowledged, of those that it was offered and those that it
    /// is still to be offered: what the `h` of a restart bounds. It is 0 just where the child has
    /// acknowledged the whole list, and [`u64::MAX`] where it is [left behind](Node::left_behind).
    pub fn backlog(&self, child: &Child) -> u64 {
        if !self.has(child) {
            return u64::MAX;
        }
        // SAFETY: the call only reads.
        unsafe { calls::rignolda_node_backlog(&self.raw, &child.raw, self.list.len()) }
    }

    /// Closes the link from above for good: no connection opens it again, but [`Node::open`].
    pub fn close(&mut self) {
        // SAFETY: the call has this receiver for itself.
        unsafe { calls::rignolda_receiver_close(&mut self.raw.above) }
    }

    /// Opens the link from above anew, with the label that the receiver remembers. The list stays
    /// as it is, and [a new count](crate#a-count) of the link begins.
    ///
    /// ```
    /// use rignolda::{Frame, Node};
    ///
    /// let mut leaf = Node::new(3, 2);
    /// leaf.close();
    /// assert_eq!(leaf.ack(), None);
    /// leaf.open();
    /// assert_eq!(leaf.ack(), Some(3));
    /// assert!(leaf.on_frame(Frame { label: 0, item: 7 }));
    /// ```
    pub fn open(&mut self) {
        let label = self.raw.above.label;
        // SAFETY: the call has this receiver for itself.
        unsafe { calls::rignolda_receiver_init(&mut self.raw.above, label) }
    }

    /// Whether there is room for one more item. While there is none, frames are better left unread.
    pub fn has_room(&self) -> bool {
        self.kept() < self.list.len() && self.raw.length < u64::MAX
    }

    /// How many items the list ever had.
    pub fn length(&self) -> u64 {
        self.raw.length
    }

    /// How many of them, from the front, are forgotten.
    pub fn forgotten(&self) -> u64 {
        self.raw.forgotten
    }

    /// The items that are kept: the list from the first that is not forgotten to its end.
    pub fn items(&self) -> impl DoubleEndedIterator<Item = u32> + '_ {
        let (front, back) = self.as_slices();
        front.iter().chain(back).copied()
    }

    /// The same as two slices, one after the other.
    pub fn as_slices(&self) -> (&[u32], &[u32]) {
        let (size, kept) = (self.list.len(), self.kept());
        if kept == 0 {
            return (&[], &[]);
        }
        let begin = ((self.raw.length - kept as u64) % size as u64) as usize;
        if kept <= size - begin {
            (&self.list[begin..begin + kept], &[])
        } else {
            (&self.list[begin..], &self.list[..kept - (size - begin)])
        }
    }

    /// How many frames were old.
    pub fn old_frames(&self) -> u64 {
        self.raw.old_frames
    }

    /// Whether this node made the child.
    pub(crate) fn has(&self, child: &Child) -> bool {
        child.node == self.id
    }

    /// How many items are kept, whatever the counts hold.
    fn kept(&self) -> usize {
        let kept = self.raw.length.saturating_sub(self.raw.forgotten);
        kept.min(self.list.len() as u64) as usize
    }
}

/// A link to a child, at its sender's end, and what of its node's list it was offered.
///
/// [`Node::child`] makes it, and it belongs to that node. It cannot be cloned, [since a link has
/// one](crate#a-count).
#[derive(Debug)]
pub struct Child {
    pub(crate) raw: calls::Child,
    pub(crate) params: Params,
    node: usize,
}

impl Child {
    /// Handles an acknowledgement, as [`Sender::on_ack`](crate::Sender::on_ack), and counts it.
    pub fn on_ack(&mut self, label: u16) -> bool {
        // SAFETY: the call has this child for itself, and only reads the parameters.
        unsafe { calls::rignolda_child_on_ack(&mut self.raw, &self.params.0, label) }
    }

    /// Closes this link for good.
    pub fn close(&mut self) {
        // SAFETY: the call has this sender for itself.
        unsafe { calls::rignolda_sender_close(&mut self.raw.sender) }
    }

    /// The place in the list of the item that is to be offered next: how many items were offered,
    /// and how many came before the place at which the child began.
    pub fn offered(&self) -> u64 {
        self.raw.offered
    }

    /// How many acknowledgements were taken.
    pub fn acknowledged(&self) -> u64 {
        self.raw.acknowledged
    }

    /// How many acknowledgements changed nothing.
    pub fn ignored(&self) -> u64 {
        self.raw.ignored
    }

    /// The label of the sender.
    pub fn label(&self) -> u16 {
        self.raw.sender.label
    }
}

crate::spoils! { Node { raw, list, id } }
crate::spoils! { Child { raw, params, node } }

//! Ends of links over connections that are made again.
use crate::{calls, Child, Frame, Node, Params, Receiver, Sender};
use core::num::NonZeroU64;

/// The number of a connection in one [`Session`], to be kept beside its socket.
///
/// Each session numbers its own connections, and gives no number twice. Nothing of it is on the
/// wire.
#[derive(Clone, Copy, Debug, PartialEq, Eq, Hash, PartialOrd, Ord)]
pub struct Connection(NonZeroU64);

/// An end of a link, and what it remembers of its connections: a [`Sender`], a [`Receiver`], a
/// [`Child`] or a [`Node`] with its link above.
///
/// Either end of a link may make connections, over TCP or anything like it, and both may. An end
/// has one at a time, the newest that it made or accepted; when it makes or accepts the next one,
/// it leaves the one before for ever. On a connection the two ends take turns, one message each,
/// and the end that accepted it begins. So capacity is 1, whatever the network does: it may break
/// connections, bring them late, in another order or never, and lose what is under way. No rule of
/// time matters to the bounds; when an end leaves a connection on which nothing comes is the
/// caller's choice.
///
/// The end is inside, so that nothing is sent or handled out of turn. That an end accepts only what
/// the link's own other end made, that each message is written whole and once, and that the
/// connection which an end leaves is closed, is the caller's to see to.
///
/// ```
/// use rignolda::{Params, Receiver, Sender, Session};
///
/// let mut above = Session::new(Sender::new(Params::new(1, 4)?, 2));
/// let mut below = Session::new(Receiver::new(65535));
/// // (the receiver's end connects, and the sender's end accepts: it has the first turn)
/// let made = below.made().expect("a number is left");
/// let accepted = above.accepted().expect("a number is left");
///
/// assert!(above.offer(7));
/// let frame = above.send().expect("it has the turn, and an item");
/// assert_eq!(above.send(), None, "the turn is away");
/// assert_eq!(below.on_frame(made, frame), Some(7));
/// let label = below.ack().expect("it has the turn");
/// assert!(above.on_ack(accepted, label));
///
/// // (what comes by a connection that an end has left changes nothing)
/// assert!(below.ended(made));
/// assert_eq!(below.on_frame(made, frame), None);
/// # Ok::<(), rignolda::ParamsError>(())
/// ```
#[derive(Debug)]
pub struct Session<End> {
    end: End,
    raw: calls::Session,
}

impl<End> Session<End> {
    /// A session of an end that never had a connection. An end that takes the place of an earlier
    /// one of the same link goes into that one's session, by [`Session::renew`]: a session of its
    /// own would give the numbers of connections again that may still be open.
    pub fn new(end: End) -> Session<End> {
        let mut raw = calls::Session::default();
        // SAFETY: the call writes this session alone.
        unsafe { calls::rignolda_session_init(&mut raw) };
        Session { end, raw }
    }

    /// Begins a connection that this end is about to make: its number, unless none is left. The one
    /// that the end had is left, and is to be closed. Where none is left, close all that the end
    /// has open, and make this session anew, with its end.
    #[must_use = "the number belongs to the connection"]
    pub fn made(&mut self) -> Option<Connection> {
        // SAFETY: the call has this session for itself.
        NonZeroU64::new(unsafe { calls::rignolda_session_made(&mut self.raw) }).map(Connection)
    }

    /// The same for a connection that this end has accepted. It has the first turn.
    #[must_use = "the number belongs to the connection"]
    pub fn accepted(&mut self) -> Option<Connection> {
        // SAFETY: the call has this session for itself.
        NonZeroU64::new(unsafe { calls::rignolda_session_accepted(&mut self.raw) }).map(Connection)
    }

    /// Whether this is the connection that the end has.
    pub fn has(&self, connection: Connection) -> bool {
        // SAFETY: the call only reads.
        unsafe { calls::rignolda_session_has(&self.raw, connection.0.get()) }
    }

    /// Whether the end has a connection, and the turn there. What it is then asked for it gives, or
    /// [it is closed or left behind](crate#when-nothing-comes), or has nothing to send.
    pub fn is_in_turn(&self) -> bool {
        self.raw.there != 0 && self.raw.turn != 0
    }

    /// Leaves a connection that ended, or that this end gives up: whether the end had it.
    pub fn ended(&mut self, connection: Connection) -> bool {
        // SAFETY: the call has this session for itself.
        unsafe { calls::rignolda_session_ended(&mut self.raw, connection.0.get()) }
    }

    /// Takes another end in place of the one that it had, which it gives back: a child that is made
    /// anew, say. The connection that it had is left, and is to be closed; the numbers go on, so
    /// none of before is given again. [A new count](crate#a-count) begins.
    pub fn renew(&mut self, end: End) -> End {
        let number = self.raw.number;
        // SAFETY: the call has this session for itself.
        unsafe { calls::rignolda_session_ended(&mut self.raw, number) };
        core::mem::replace(&mut self.end, end)
    }

    /// The end, to be read. What is to be sent comes from this session alone.
    pub fn end(&self) -> &End {
        &self.end
    }

    /// Whether no number is left for a next connection: then neither [`Session::made`] nor
    /// [`Session::accepted`] gives one, and session and end are to be made anew.
    pub fn is_spent(&self) -> bool {
        self.raw.number == u64::MAX
    }

    /// Whether the end has no connection, so that its link may lie in words of a store.
    fn is_free(&self) -> bool {
        // SAFETY: the call only reads.
        !unsafe { calls::rignolda_session_has(&self.raw, self.raw.number) }
    }
}

impl Session<Sender> {
    /// Offers an item, as [`Sender::offer`].
    #[must_use = "an item that is refused is to be offered again"]
    pub fn offer(&mut self, item: u32) -> bool {
        self.end.offer(item)
    }

    /// The frame to write now on the connection that the end has, if it has one, its turn and an
    /// item. It is to be written whole and once; the turn is given away.
    #[must_use = "the turn is given away by it"]
    pub fn send(&mut self) -> Option<Frame> {
        let mut frame = calls::Frame::default();
        // SAFETY: the call has the session and the frame for itself, and only reads the sender.
        unsafe { calls::rignolda_session_send(&self.end.raw, &mut self.raw, &mut frame) }
            .then_some(Frame::of(frame))
    }

    /// Handles an acknowledgement that came by this connection, as [`Sender::on_ack`]. By one that
    /// the end has left, nothing changes; else the turn is the end's own.
    pub fn on_ack(&mut self, connection: Connection, label: u16) -> bool {
        let (sender, params) = (&mut self.end.raw, &self.end.params.0);
        let number = connection.0.get();
        // SAFETY: the call has the sender and the session for itself, and reads the parameters.
        unsafe { calls::rignolda_session_on_ack(sender, &mut self.raw, params, number, label) }
    }

    /// Closes this end for good.
    pub fn close(&mut self) {
        self.end.close();
    }
}

impl Session<Receiver> {
    /// Handles a frame that came by this connection, as [`Receiver::on_frame`]. By one that the end
    /// has left, nothing changes; else the turn is the end's own.
    #[must_use = "an item that came does not come again"]
    pub fn on_frame(&mut self, connection: Connection, frame: Frame) -> Option<u32> {
        let mut item = 0;
        let number = connection.0.get();
        // SAFETY: the call has the receiver, the session and the item for itself, and reads the
        // frame.
        unsafe {
            calls::rignolda_session_on_frame(
                &mut self.end.raw,
                &mut self.raw,
                number,
                &frame.raw(),
                &mut item,
            )
        }
        .then_some(item)
    }

    /// The label to write now on the connection that the end has, if it has one and its turn, and
    /// is open. It is to be written whole and once; the turn is given away.
    #[must_use = "the turn is given away by it"]
    pub fn ack(&mut self) -> Option<u16> {
        ack(&self.end.raw, &mut self.raw)
    }

    /// Closes this end for good.
    pub fn close(&mut self) {
        self.end.close();
    }
}

impl Session<Child> {
    /// Offers the child the node's next item, if its sender has none, and gives the frame to write
    /// now, as [`Session::send`]. Where the end may not send, nothing is offered; nor where the
    /// child is another node's.
    #[must_use = "the turn is given away by it"]
    pub fn poll(&mut self, node: &Node) -> Option<Frame> {
        if !node.has(&self.end) {
            return None;
        }
        let mut frame = calls::Frame::default();
        let (list, size) = (node.list.as_ptr(), node.list.len());
        // SAFETY: the call has the child, the session and the frame for itself, and only reads the
        // node and its list, which has `size` items.
        unsafe {
            calls::rignolda_session_poll(
                &node.raw,
                &mut self.end.raw,
                &mut self.raw,
                list,
                size,
                &mut frame,
            )
        }
        .then_some(Frame::of(frame))
    }

    /// Handles an acknowledgement that came by this connection, as [`Child::on_ack`]. By one that
    /// the end has left, nothing changes; else the turn is the end's own.
    pub fn on_ack(&mut self, connection: Connection, label: u16) -> bool {
        let (child, params) = (&mut self.end.raw, &self.end.params.0);
        let number = connection.0.get();
        // SAFETY: the call has the child and the session for itself, and reads the parameters.
        unsafe { calls::rignolda_session_child_on_ack(child, &mut self.raw, params, number, label) }
    }

    /// For a link in [words](crate::word) of a store: offers the child the node's next item, if its
    /// sender has none, and gives the frame to set, as [`Node::poll`]. Nothing while the end has a
    /// connection: where a link changes its way, a new count of it begins.
    #[must_use = "the frame is to be set"]
    pub fn poll_word(&mut self, node: &Node) -> Option<Frame> {
        match self.is_free() {
            true => node.poll(&mut self.end),
            false => None,
        }
    }

    /// Handles an acknowledgement that a word shows, as [`Child::on_ack`], under the same
    /// condition.
    pub fn on_word(&mut self, label: u16) -> bool {
        self.is_free() && self.end.on_ack(label)
    }

    /// Closes this link for good: a child that is made anew has an open one.
    pub fn close(&mut self) {
        self.end.close();
    }

    /// As [`Child::offered`].
    pub fn offered(&self) -> u64 {
        self.end.offered()
    }

    /// As [`Child::acknowledged`].
    pub fn acknowledged(&self) -> u64 {
        self.end.acknowledged()
    }

    /// As [`Child::ignored`].
    pub fn ignored(&self) -> u64 {
        self.end.ignored()
    }
}

impl Session<Node> {
    /// Handles a frame that came by this connection, as [`Node::on_frame`]. By one that the end has
    /// left, nothing changes. A fresh frame for which the node has no room is lost, and the turn
    /// with it, until an end leaves this connection: so while there is none, better read nothing.
    pub fn on_frame(&mut self, connection: Connection, frame: Frame) -> bool {
        let (list, size) = (self.end.list.as_mut_ptr(), self.end.list.len());
        let number = connection.0.get();
        // SAFETY: the call has the node, its list, which has `size` items, and the session for
        // itself, and reads the frame.
        unsafe {
            calls::rignolda_session_node_on_frame(
                &mut self.end.raw,
                &mut self.raw,
                number,
                list,
                size,
                &frame.raw(),
            )
        }
    }

    /// The label to write now to the parent, as [`Session::ack`].
    #[must_use = "the turn is given away by it"]
    pub fn ack(&mut self) -> Option<u16> {
        ack(&self.end.raw.above, &mut self.raw)
    }

    /// For a link in [words](crate::word) of a store: handles a frame that a word shows, as
    /// [`Node::on_frame`]. The label to set is that of [`Node::ack`]. Nothing changes while the end
    /// has a connection: where a link changes its way, a new count of it begins.
    pub fn on_word(&mut self, frame: Frame) -> bool {
        self.is_free() && self.end.on_frame(frame)
    }

    /// Closes the link from above for good: no connection opens it again, but [`Session::open`].
    pub fn close(&mut self) {
        self.end.close();
    }

    /// Opens the link from above anew, as [`Node::open`]: to be called where the end may send and
    /// has no label to write, and nobody closed it.
    pub fn open(&mut self) {
        self.end.open();
    }

    /// As [`Node::forget`].
    pub fn forget<'a>(&mut self, children: impl IntoIterator<Item = &'a Child>) {
        self.end.forget(children);
    }

    /// As [`Node::child`].
    pub fn child(&self, params: Params, label: u16, backlog: u64) -> Child {
        self.end.child(params, label, backlog)
    }

    /// As [`Node::left_behind`].
    pub fn left_behind(&self, child: &Child) -> bool {
        self.end.left_behind(child)
    }

    /// As [`Node::backlog`].
    pub fn backlog(&self, child: &Child) -> u64 {
        self.end.backlog(child)
    }

    /// As [`Node::has_room`].
    pub fn has_room(&self) -> bool {
        self.end.has_room()
    }

    /// As [`Node::length`].
    pub fn length(&self) -> u64 {
        self.end.length()
    }

    /// As [`Node::forgotten`].
    pub fn forgotten(&self) -> u64 {
        self.end.forgotten()
    }

    /// As [`Node::items`].
    pub fn items(&self) -> impl DoubleEndedIterator<Item = u32> + '_ {
        self.end.items()
    }
}

/// The label to write now, if the end may send.
fn ack(receiver: &calls::Receiver, session: &mut calls::Session) -> Option<u16> {
    let mut label = 0;
    // SAFETY: the call has the session and the label for itself, and only reads the receiver.
    unsafe { calls::rignolda_session_ack(receiver, session, &mut label) }.then_some(label)
}

crate::spoils! { Session<End> { end, raw } }

#[cfg(feature = "trial")]
impl crate::trial::Spoil for Connection {
    fn spoil(&mut self, by: &mut crate::trial::Spoils<'_>) {
        self.0.spoil(by);
    }

    fn any(by: &mut crate::trial::Spoils<'_>) -> Option<Connection> {
        NonZeroU64::any(by).map(Connection)
    }
}

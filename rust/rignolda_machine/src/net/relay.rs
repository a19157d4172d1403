//! A node of the tree with the bodies of its items, and its children.
use super::{Body, BODY_BYTES};
use crate::prelude::*;
use crate::Time;
use alloc::collections::{BTreeMap, VecDeque};
use alloc::sync::Arc;
use core::cell::Cell;
use core::time::Duration;
use rignolda::{Child, Connection, Frame, Node, Params, Session};

mod below;
mod fault;

/// How many labels a sender counts through.
const LABELS: u16 = 255;
/// How many bytes of bodies are kept at most: room for a whole table, for as much that came since,
/// and for the next table, twice over.
const KEPT_BYTES: usize = 4 * BODY_BYTES;
/// How many earlier lives of a child are remembered.
const LIVES: usize = 8;

/// What came of a frame.
#[derive(Clone, Debug, Default, PartialEq, Eq)]
#[must_use = "an item that came is to be handled"]
#[non_exhaustive]
pub struct Came {
    /// Whether it brought an item.
    pub is_fresh: bool,
    /// The children that were left behind, so that there is room.
    pub left_behind: Vec<String>,
}

/// The root's node has no link above it, and it alone publishes.
#[derive(Debug)]
enum Above {
    Root(Node),
    Below(Session<Node>),
}

impl Above {
    fn node(&self) -> &Node {
        match self {
            Above::Root(node) => node,
            Above::Below(session) => session.end(),
        }
    }
}

/// A node of the tree with the bodies of its items, and with children that have names.
///
/// Each step of a link is a call that is proved. What is done here beside it: the body of each item
/// that the node keeps lies at the same place as the item; the node keeps all from the last whole
/// table on, so that a child that begins anew is offered that table and what came since; and where
/// there is no room, the child that is furthest behind is left behind.
///
/// ```
/// use rignolda_machine::net::{Body, Relay};
/// use std::sync::Arc;
/// use rignolda_machine::Time;
///
/// let now = Time::default();
/// let (mut root, mut leaf) = (Relay::root(8), Relay::below(8));
/// root.add("leaf", now);
/// root.publish(&Arc::new(Body::of(b"a whole table".to_vec())));
/// root.last_is_a_table();
/// // (the leaf connects, and says its life and its label in its hello)
/// let below = leaf.made().expect("it has a link above it");
/// let (above, anew) = root.greeted("leaf", 1, leaf.label(), None, now).expect("it is a child");
/// assert!(anew);
/// let (label, body) = root.poll("leaf", now).expect("there is a table to send");
/// assert!(leaf.on_frame(Some(below), label, &body).is_fresh);
/// assert!(root.on_ack("leaf", Some(above), leaf.ack().expect("it has the turn"), now));
/// assert_eq!(root.poll("leaf", now), None);
/// ```
#[derive(Debug)]
pub struct Relay {
    params: Params,
    above: Above,
    room: u64,
    /// Whether children may connect, so that the last whole table is kept for them.
    keeps: bool,
    /// The bodies of the items that the node keeps.
    bodies: VecDeque<Arc<Body>>,
    bytes: usize,
    /// A child that is never sent to: its place is the last whole table.
    table: Option<Child>,
    children: BTreeMap<String, Link>,
    /// Whether more may be forgotten than was; and how many children lacked the first item that was
    /// kept then, and have not been offered it since. While there is one, nothing more may.
    moved: bool,
    front: usize,
    /// The place that a connected child has acknowledged furthest, where that is known, and there
    /// is such a child.
    quickest: Cell<Option<Option<u64>>>,
}

/// What is to be sent to a child now.
pub(super) struct Polled {
    pub(super) label: u16,
    pub(super) body: Arc<Body>,
    /// How often its frame was given to be sent, this time with it.
    pub(super) times: u64,
    /// How long an answer of the child took, and how often it was late, as its link says.
    pub(super) took: Duration,
    pub(super) late: u32,
}

/// What a step of a link to a child needs of the rest of the relay.
struct List<'a> {
    node: &'a Node,
    bodies: &'a VecDeque<Arc<Body>>,
    moved: &'a mut bool,
    front: &'a mut usize,
    quickest: &'a Cell<Option<Option<u64>>>,
}

/// The link to a child.
#[derive(Debug)]
pub struct Link {
    session: Session<Child>,
    connection: Option<Connection>,
    /// The body of the item that the sender holds, and how often its frame was given to be sent.
    held: Option<Arc<Body>>,
    times: u64,
    /// The life of the child's process with which this link began, and then those of the processes
    /// that it had before; none where it never began.
    lives: VecDeque<u64>,
    /// How often one of before came back: no process does, so two of them have one name.
    pub clashes: u64,
    left: bool,
    /// Whether it lies in words of a store, and the child's is there.
    words: bool,
    /// Since when it is connected, or away.
    pub since: Time,
    /// When its frame was sent.
    pub sent: Option<Time>,
    /// How many connections it had.
    pub connections: u64,
    /// How many were left since nothing came in time.
    pub timeouts: u64,
    /// How many of these came after the last answer to a frame.
    pub late: u32,
    /// How long that answer took, or nearly so long as one before it.
    pub took: Duration,
    /// At how many looks in turn it lacked an item, and had acknowledged no more than this.
    idle: u64,
    seen: u64,
    /// What was counted in earlier counts of the link.
    acknowledged: u64,
    ignored: u64,
}

impl Link {
    /// Whether the child has a connection, or its word lies in a store that answers.
    pub fn is_connected(&self) -> bool {
        self.connection.is_some() || self.words
    }

    /// Whether the child's process has this life.
    pub(super) fn is_of(&self, life: u64) -> bool {
        self.lives.front() == Some(&life)
    }

    /// How many acknowledgements were taken.
    pub fn acknowledged(&self) -> u64 {
        self.acknowledged + self.session.acknowledged()
    }

    /// How many acknowledgements changed nothing.
    pub fn ignored(&self) -> u64 {
        self.ignored + self.session.ignored()
    }

    /// What was sent is answered, if that was a frame. (After a slow answer another one soon may be
    /// as slow.)
    fn answered(&mut self, now: Time) {
        if let Some(sent) = self.sent.take() {
            self.late = 0;
            self.took = (now - sent).max(self.took - self.took / 32);
        }
    }
}

impl Relay {
    /// The node of a root, with room for so many items.
    pub fn root(room: u64) -> Relay {
        Relay::new(room, Above::Root)
    }

    /// A node below the root, with room for so many items.
    pub fn below(room: u64) -> Relay {
        Relay::new(room, |node| Above::Below(Session::new(node)))
    }

    /// The same node, which keeps the last whole table before it has children. (From the first one
    /// on each node does.)
    #[must_use]
    pub fn keeping(mut self) -> Relay {
        self.keeps = true;
        self
    }

    fn new(room: u64, above: impl FnOnce(Node) -> Above) -> Relay {
        // (the label is none of a sender's: so the first frame is fresh)
        let above = above(Node::new(LABELS, room as usize));
        Relay {
            params: Params::new(1, LABELS).expect("capacity 1 may have 4 to 1000 labels"),
            above,
            room,
            keeps: false,
            bodies: VecDeque::new(),
            bytes: 0,
            table: None,
            children: BTreeMap::new(),
            moved: false,
            front: 0,
            quickest: Cell::new(None),
        }
    }

    /// The link above.
    fn link(&mut self) -> Option<&mut Session<Node>> {
        match &mut self.above {
            Above::Root(_) => None,
            Above::Below(session) => Some(session),
        }
    }

    /// Whether it is the root's.
    pub(crate) fn is_root(&self) -> bool {
        matches!(self.above, Above::Root(_))
    }

    /// How many items it has room for.
    pub fn room(&self) -> u64 {
        self.room
    }

    /// How many items are kept, and how many bytes their bodies have.
    pub fn kept(&self) -> (u64, usize) {
        (self.bodies.len() as u64, self.bytes)
    }

    /// How many frames were old.
    pub fn old_frames(&self) -> u64 {
        self.above.node().old_frames()
    }

    // ---- The link above

    /// The label that the receiver remembers.
    pub fn label(&self) -> u16 {
        self.above.node().ack().unwrap_or(LABELS)
    }

    /// Begins a connection to the parent. The one that there was is left.
    #[must_use = "the number belongs to the connection"]
    pub fn made(&mut self) -> Option<Connection> {
        self.link()?.made()
    }

    /// The same for a connection that the parent made. An acknowledgement is to be sent first.
    #[must_use = "the number belongs to the connection"]
    pub fn accepted(&mut self) -> Option<Connection> {
        self.link()?.accepted()
    }

    /// Leaves the connection to the parent.
    pub fn ended(&mut self, connection: Connection) {
        if let Some(session) = self.link() {
            session.ended(connection);
        }
    }

    /// Takes a frame of the parent that came by this connection, or, by none, that its word in a
    /// store shows: whether it brought an item. Those that were left behind for it are named.
    pub fn on_frame(&mut self, by: Option<Connection>, label: u16, body: &Arc<Body>) -> Came {
        let (left_behind, item) = (self.make_room(), body.item);
        let frame = Frame { label, item };
        let is_fresh = self.link().is_some_and(|session| match by {
            Some(connection) => session.on_frame(connection, frame),
            None => session.on_word(frame),
        });
        if is_fresh {
            self.keep(body);
        }
        Came { is_fresh, left_behind }
    }

    /// The label to acknowledge now.
    #[must_use = "the turn is given away by it"]
    pub fn ack(&mut self) -> Option<u16> {
        self.link()?.ack()
    }

    // ---- The list

    /// At the root: puts a body at the end of the list. Those that were left behind are named.
    pub fn publish(&mut self, body: &Arc<Body>) -> Vec<String> {
        let left = self.make_room();
        if let Above::Root(node) = &mut self.above {
            if node.publish(body.item) {
                self.keep(body);
            }
        }
        left
    }

    /// The last item of the list is a whole table: what came before it is no longer kept for a
    /// child that begins anew.
    pub fn last_is_a_table(&mut self) {
        let table = || self.above.node().child(self.params, 0, 1);
        self.table = self.keeps.then(table);
        self.forget();
    }

    /// The last whole table, if it is kept, and then what came since.
    pub fn since_last_table(&self) -> impl Iterator<Item = &Arc<Body>> {
        let first = self.table.as_ref().map(Child::offered);
        let first = first.and_then(|at| at.checked_sub(self.above.node().forgotten()));
        let first = first.map_or(usize::MAX, |first| first as usize);
        self.bodies.iter().skip(first)
    }

    /// How many items there are from the last whole table on, or, without one, that are kept.
    fn since_table(&self) -> u64 {
        let (kept, length) = (self.bodies.len() as u64, self.above.node().length());
        let table = self.table.as_ref();
        table.map_or(kept, |table| length - table.offered())
    }

    /// Forgets what neither a child lacks nor a table has to be kept for.
    fn forget(&mut self) {
        self.moved = false;
        let lacking = self.children.values().filter(|link| !link.left);
        let lacking = lacking.map(|link| link.session.end()).chain(&self.table);
        match &mut self.above {
            Above::Root(node) => node.forget(lacking),
            Above::Below(session) => session.forget(lacking),
        }
        let node = self.above.node();
        let first = |link: &&Link| !link.left && link.session.offered() == node.forgotten();
        self.front = self.children.values().filter(first).count();
        // (where the list is spoilt, these are not those of its items, which is looked at)
        let kept = node.length().saturating_sub(node.forgotten()) as usize;
        let dropped = self.bodies.drain(..self.bodies.len().saturating_sub(kept));
        let bytes = dropped.map(|body| body.bytes.len()).sum();
        self.bytes = self.bytes.saturating_sub(bytes);
    }

    fn keep(&mut self, body: &Arc<Body>) {
        self.bytes += body.bytes.len();
        self.bodies.push_back(body.clone());
    }

    /// Makes room for one item: whoever is furthest behind is left behind.
    fn make_room(&mut self) -> Vec<String> {
        let mut names = Vec::new();
        self.forget();
        while self.bodies.len() as u64 >= self.room || self.bytes > KEPT_BYTES {
            let all = self.children.iter().filter(|(_, link)| !link.left);
            let all = all.map(|(name, link)| (link.session.offered(), name));
            let table = self.table.as_ref().map_or(u64::MAX, Child::offered);
            let last = all.min().filter(|(offered, _)| *offered <= table);
            match last.map(|(_, name)| name.clone()) {
                Some(name) => {
                    self.leave_behind(&name);
                    names.push(name);
                }
                None if self.table.is_none() => break,
                None => self.table = None,
            }
            self.forget();
        }
        names
    }
}

rignolda::spoils! { Relay {
    params, above, room, keeps, bodies, bytes, table, children, moved, front, quickest
} }
rignolda::spoils! { Link {
    session, connection, held, times, lives, clashes, left, words, since, sent, connections,
    timeouts, late, took, idle, seen, acknowledged, ignored
} }
rignolda::spoils_one_of! { Above {} Root(node), Below(session) }

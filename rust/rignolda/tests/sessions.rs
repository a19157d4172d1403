//! Links over connections that are made again, by the public calls.
use rignolda::{Child, Connection, Frame, Node, Params, Receiver, Sender, Session};
use std::collections::VecDeque;

/// Drawn numbers that are the same in every run.
struct Draw(u64);

impl Draw {
    fn below(&mut self, bound: usize) -> usize {
        self.0 = self
            .0
            .wrapping_mul(6364136223846793005)
            .wrapping_add(1442695040888963407);
        (self.0 >> 33) as usize % bound
    }
}

/// What one end has of a connection, and what is under way to it.
#[derive(Clone)]
struct Half<Message> {
    number: Option<Connection>,
    to_it: VecDeque<Message>,
}

/// A connection that one end made. The other end may accept it at any time later, or never.
struct Wire {
    sender: Half<u16>,
    receiver: Half<Frame>,
    is_broken: bool,
}

/// A sender, a receiver, and all connections that they ever made.
struct Link {
    sender: Session<Sender>,
    receiver: Session<Receiver>,
    wires: Vec<Wire>,
    offered: u32,
    acked: u32,
    delivered: Vec<u32>,
}

impl Link {
    fn new(draw: &mut Draw) -> Link {
        let (send, recv) = (draw.below(5) as u16, draw.below(5) as u16);
        Link {
            sender: Session::new(Sender::new(Params::new(1, 4).unwrap(), send)),
            receiver: Session::new(Receiver::new(recv)),
            wires: Vec::new(),
            offered: 0,
            acked: 0,
            delivered: Vec::new(),
        }
    }

    fn make(&mut self, by_sender: bool) {
        let number = if by_sender {
            self.sender.made()
        } else {
            self.receiver.made()
        };
        let (mine, none) = (number, None);
        self.wires.push(Wire {
            sender: Half {
                number: if by_sender { mine } else { none },
                to_it: VecDeque::new(),
            },
            receiver: Half {
                number: if by_sender { none } else { mine },
                to_it: VecDeque::new(),
            },
            is_broken: false,
        });
    }

    fn accept(&mut self, at: usize) {
        let wire = &mut self.wires[at];
        if wire.sender.number.is_none() {
            wire.sender.number = self.sender.accepted();
        } else if wire.receiver.number.is_none() {
            wire.receiver.number = self.receiver.accepted();
        }
    }

    /// Breaks a connection. Only the sender's end sees that.
    fn lose(&mut self, at: usize) {
        self.wires[at].is_broken = true;
        if let Some(number) = self.wires[at].sender.number {
            self.sender.ended(number);
        }
    }

    /// Each end writes what it may to the connection that it has, and the offers go on.
    fn write(&mut self) {
        if self.sender.offer(self.offered) {
            self.offered += 1;
        }
        for wire in &mut self.wires {
            if wire.sender.number.is_some_and(|it| self.sender.has(it)) {
                if let Some(frame) = self.sender.send() {
                    if !wire.is_broken {
                        wire.receiver.to_it.push_back(frame);
                    }
                }
            }
            if wire.receiver.number.is_some_and(|it| self.receiver.has(it)) {
                if let Some(label) = self.receiver.ack() {
                    if !wire.is_broken {
                        wire.sender.to_it.push_back(label);
                    }
                }
            }
            assert!(wire.receiver.to_it.len() <= 1 && wire.sender.to_it.len() <= 1);
        }
    }

    fn read(&mut self, at: usize) {
        let wire = &mut self.wires[at];
        if let (Some(number), Some(frame)) = (wire.receiver.number, wire.receiver.to_it.pop_front())
        {
            self.delivered.extend(self.receiver.on_frame(number, frame));
        }
        if let (Some(number), Some(label)) = (wire.sender.number, wire.sender.to_it.pop_front()) {
            self.acked += u32::from(self.sender.on_ack(number, label));
        }
    }
}

/// Whatever the network does to the connections, nothing stray is delivered, since nothing is under
/// way at the start; items come in order, each once; and none is missing but among the first 3.
#[test]
fn connections_that_break_and_come_late_are_a_line() {
    let mut delivered = 0;
    for seed in 0..3000 {
        let mut draw = Draw(seed);
        let mut link = Link::new(&mut draw);
        for _ in 0..400 {
            // (most often one of the last, or nothing would arrive)
            let wires = link.wires.len();
            let last = wires.saturating_sub(1 + draw.below(3));
            match draw.below(40) {
                0 => link.make(true),
                1 => link.make(false),
                2 if wires > 0 => link.accept(draw.below(wires)),
                3 if wires > 0 => link.lose(draw.below(wires)),
                4..=9 if wires > 0 => link.accept(last),
                _ if wires > 0 => {
                    link.write();
                    link.read(last);
                }
                _ => (),
            }
        }
        assert!(
            link.delivered.windows(2).all(|pair| pair[0] < pair[1]),
            "seed {seed}"
        );
        assert!(
            link.delivered.iter().all(|&item| item < link.offered),
            "seed {seed}"
        );
        for item in 3..link.acked {
            assert!(
                link.delivered.contains(&item),
                "seed {seed}: {item} is missing"
            );
        }
        delivered += link.delivered.len();
    }
    assert!(
        delivered > 30_000,
        "too few of these links deliver anything: {delivered}"
    );
}

/// A root and a leaf: what is published arrives, and a connection that was left brings nothing.
#[test]
fn a_tree_over_connections() {
    let mut root = Node::new(0, 8);
    let mut link = Session::new(root.child(Params::new(1, 4).unwrap(), 0, 0));
    let mut leaf = Session::new(Node::new(65535, 8));
    assert!(root.publish(7) && root.publish(8));

    assert_eq!(link.poll(&root), None, "there is no connection");
    assert_eq!(link.end().offered(), 0, "and so nothing was offered");
    let (left, at_leaf) = (link.accepted().unwrap(), leaf.made().unwrap());
    let frame = link.poll(&root).unwrap();
    assert_eq!(link.poll(&root), None, "the turn is away");

    // the leaf makes another connection before it reads
    let (now, at_leaf_now) = (link.accepted().unwrap(), leaf.made().unwrap());
    assert!(
        !leaf.on_frame(at_leaf, frame),
        "it has left that connection"
    );
    assert_eq!(leaf.ack(), None, "the end that accepted begins");
    while let Some(frame) = link.poll(&root) {
        assert!(leaf.on_frame(at_leaf_now, frame));
        let label = leaf.ack().unwrap();
        assert!(
            !link.on_ack(left, label),
            "the root has left that connection too"
        );
        assert!(link.on_ack(now, label));
    }
    assert!(leaf.items().eq([7, 8]));
    assert_eq!(root.backlog(link.end()), 0);
    leaf.forget([]);
    assert_eq!((leaf.length(), leaf.forgotten()), (2, 2));
}

/// A child that was left behind is made anew: it leaves its connection, and no number comes again.
#[test]
fn a_child_that_comes_back_leaves_its_connection() {
    let params = Params::new(1, 4).unwrap();
    let mut root = Node::new(0, 2);
    let mut link = Session::new(root.child(params, 0, 0));
    let first = link.accepted().unwrap();
    assert!(root.publish(7) && root.publish(8));
    assert_eq!(link.poll(&root).map(|frame| frame.item), Some(7));
    root.forget([link.end()]);
    assert!(!root.left_behind(link.end()), "the next item is kept");
    root.forget([]);
    assert!(root.left_behind(link.end()) && root.backlog(link.end()) == u64::MAX);
    assert!(!link.is_in_turn() && link.on_ack(first, 0) && link.is_in_turn());
    assert_eq!(link.poll(&root), None, "it is offered nothing more");

    assert!(root.publish(9));
    let before = link.renew(root.child(params, 3, 2));
    assert_eq!((before.acknowledged(), link.offered()), (1, 2));
    assert!(!link.has(first) && !link.on_ack(first, 3));
    assert_eq!(link.poll(&root), None, "there is no connection");
    assert_ne!(link.accepted(), Some(first));
    assert_eq!(link.poll(&root).map(|frame| frame.item), Some(9));
}

/// An end that may send, and does not, says that it is closed: made anew it takes items again.
#[test]
fn a_closed_end_is_seen_in_its_turn() {
    let params = Params::new(1, 4).unwrap();
    let mut root = Node::new(0, 2);
    let mut link = Session::new(root.child(params, 0, 0));
    let mut leaf = Session::new(Node::new(3, 2));
    link.close();
    leaf.close();
    assert!(root.publish(7));

    // (the leaf accepts, and has the first turn)
    let (at_root, at_leaf) = (link.made().unwrap(), leaf.accepted().unwrap());
    assert!(leaf.is_in_turn() && leaf.ack().is_none());
    leaf.open();
    let label = leaf.ack().unwrap();
    assert!(!leaf.is_in_turn() && !link.is_in_turn());
    assert!(!link.on_ack(at_root, label) && link.is_in_turn());
    assert!(link.poll(&root).is_none() && root.backlog(link.end()) == 1);

    link.renew(root.child(params, 0, 1));
    assert!(leaf.ended(at_leaf));
    let (at_root, at_leaf) = (link.accepted().unwrap(), leaf.made().unwrap());
    assert!(leaf.on_frame(at_leaf, link.poll(&root).unwrap()));
    assert!(link.on_ack(at_root, leaf.ack().unwrap()));
    assert!(leaf.items().eq([7]) && root.backlog(link.end()) == 0);
}

/// The types can be moved to and shared with other threads.
#[test]
fn nodes_ends_and_sessions_are_send_and_sync() {
    fn check<T: Send + Sync>() {}
    check::<Node>();
    check::<Child>();
    check::<Session<Sender>>();
    check::<Session<Receiver>>();
    check::<Session<Child>>();
    check::<Session<Node>>();
    check::<Connection>();
}

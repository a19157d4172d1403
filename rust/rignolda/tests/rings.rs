//! Nodes that forget, beside a model that keeps the whole list.
use rignolda::{Child, Node, Params};

/// Drawn numbers that are the same in every run.
struct Draw(u64);

impl Draw {
    fn below(&mut self, bound: u64) -> u64 {
        self.0 = self
            .0
            .wrapping_mul(6364136223846793005)
            .wrapping_add(1442695040888963407);
        (self.0 >> 33) % bound
    }
}

/// A child, and what the model says of it: the place of its next item, and the item that it holds.
struct Beside {
    child: Child,
    place: usize,
    held: Option<u32>,
    is_given: bool,
}

impl Beside {
    fn new(node: &Node, label: u16, backlog: u64) -> Beside {
        let child = node.child(Params::new(1, 4).unwrap(), label, backlog);
        let place = child.offered() as usize;
        Beside {
            child,
            place,
            held: None,
            is_given: true,
        }
    }
}

/// Each child is offered the whole list from its place on, however the node forgets and its ring
/// goes round, until the item that it needs next is forgotten.
#[test]
fn children_are_offered_the_whole_list() {
    let (mut behind, mut sent) = (0, 0);
    for seed in 0..500 {
        let mut draw = Draw(seed);
        let room = 1 + draw.below(6) as usize;
        let opening: Vec<u32> = (0..draw.below(room as u64 + 1) as u32).collect();
        let mut node = Node::with_opening(0, room, &opening);
        let mut whole = opening.clone();
        let mut forgotten = 0;
        let mut children: Vec<Beside> = (0..3)
            .map(|n| Beside::new(&node, n, draw.below(room as u64 + 2)))
            .collect();
        for _ in 0..300 {
            let at = draw.below(3) as usize;
            let beside = &mut children[at];
            match draw.below(10) {
                0..=3 => {
                    let item = draw.below(1 << 32) as u32;
                    assert_eq!(node.has_room(), whole.len() - forgotten < room);
                    assert_eq!(node.publish(item), whole.len() - forgotten < room);
                    if whole.len() - forgotten < room {
                        whole.push(item);
                    }
                }
                4 | 5 => {
                    if beside.held.is_none() && beside.place >= forgotten {
                        beside.held = whole.get(beside.place).copied();
                        beside.place += usize::from(beside.held.is_some());
                    }
                    let frame = node.poll(&mut beside.child);
                    assert_eq!(frame.map(|frame| frame.item), beside.held);
                    sent += usize::from(frame.is_some());
                }
                6 => {
                    let waits = beside.held.take().is_some();
                    assert_eq!(beside.child.on_ack(beside.child.label()), waits);
                }
                7 => beside.is_given = draw.below(4) > 0,
                8 if beside.place < forgotten => {
                    let backlog = draw.below(room as u64 + 2);
                    *beside = Beside::new(&node, draw.below(4) as u16, backlog);
                    let kept = whole.len() - forgotten;
                    assert_eq!(beside.place, whole.len() - kept.min(backlog as usize));
                }
                _ => {
                    let given = children.iter().filter(|it| it.is_given);
                    node.forget(given.clone().map(|it| &it.child));
                    let needed = given.filter(|it| it.place >= forgotten).map(|it| it.place);
                    forgotten = needed.min().unwrap_or(whole.len()).max(forgotten);
                }
            }
            for beside in &children {
                let is_behind = beside.place < forgotten;
                behind += usize::from(is_behind);
                assert_eq!(node.left_behind(&beside.child), is_behind);
                let backlog = if is_behind {
                    u64::MAX
                } else {
                    (whole.len() - beside.place + usize::from(beside.held.is_some())) as u64
                };
                assert_eq!(node.backlog(&beside.child), backlog);
                assert_eq!(beside.child.offered(), beside.place as u64);
            }
            assert_eq!(node.length(), whole.len() as u64);
            assert_eq!(node.forgotten(), forgotten as u64);
            assert!(node.items().eq(whole[forgotten..].iter().copied()));
        }
    }
    assert!(behind > 10_000 && sent > 10_000, "{behind} {sent}");
}

/// A child of another node is nobody's: it is offered nothing, and holds nothing back.
#[test]
fn a_child_belongs_to_its_node() {
    let params = Params::new(1, 4).unwrap();
    let (mut node, mut other) = (Node::new(0, 4), Node::new(0, 4));
    let mut own = node.child(params, 0, 0);
    let mut foreign = other.child(params, 0, 0);
    assert!(node.publish(7) && other.publish(8));
    assert_eq!(node.poll(&mut foreign), None);
    assert!(node.left_behind(&foreign) && !node.left_behind(&own));
    assert_eq!((node.backlog(&foreign), foreign.offered()), (u64::MAX, 0));
    node.forget([&foreign, &own]);
    assert_eq!(node.forgotten(), 0);
    assert_eq!(node.poll(&mut own).map(|frame| frame.item), Some(7));
    node.forget([&foreign, &own]);
    assert_eq!(node.forgotten(), 1);
    assert_eq!(other.poll(&mut foreign).map(|frame| frame.item), Some(8));
}

/// A node without room takes nothing, and an opening has room in any case.
#[test]
fn room_for_nothing() {
    let mut node = Node::new(3, 0);
    assert!(!node.publish(1) && node.items().next().is_none());
    node.forget([]);
    assert_eq!((node.length(), node.forgotten()), (0, 0));
    let mut opened = Node::with_opening(3, 0, &[4, 5]);
    assert!(opened.items().eq([4, 5]) && !opened.publish(6));
    let mut child = opened.child(Params::new(1, 4).unwrap(), 0, 9);
    assert_eq!(opened.poll(&mut child).map(|frame| frame.item), Some(4));
    opened.forget([&child]);
    assert!(opened.publish(6) && opened.items().eq([5, 6]));
}

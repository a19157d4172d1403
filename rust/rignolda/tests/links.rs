//! Links of the two halves, by their public calls.
use rignolda::{Frame, Node, Params, ParamsError, Receiver, Sender};

fn params(capacity: u16, labels: u16) -> Params {
    Params::new(capacity, labels).expect("lawful parameters")
}

#[test]
fn parameters_are_lawful_just_within_the_limits() {
    for capacity in 0..=70 {
        for labels in 0..=1010 {
            let wanted = if !(1..=64).contains(&capacity) {
                Some(ParamsError::CapacityOutOfRange)
            } else if labels < 2 * capacity + 2 {
                Some(ParamsError::LabelsTooFew)
            } else if labels > 1000 {
                Some(ParamsError::LabelsTooMany)
            } else {
                None
            };
            let found = Params::new(capacity, labels);
            assert_eq!(found.err(), wanted, "{capacity} {labels}");
        }
    }
}

/// One stray is delivered, and three acknowledged items never arrive.
#[test]
fn the_worst_start() {
    let mut sender = Sender::new(params(1, 4), 0);
    let mut receiver = Receiver::new(1);
    let stray = Frame { label: 2, item: 99 };

    assert!(sender.offer(10) && sender.on_ack(0));
    assert!(sender.offer(11) && sender.on_ack(receiver.ack().unwrap()));
    assert_eq!(receiver.on_frame(stray), Some(99));
    assert!(sender.offer(12) && sender.on_ack(receiver.ack().unwrap()));
    assert!(sender.offer(13));
    let frame = sender.frame().unwrap();
    assert_eq!(frame, Frame { label: 3, item: 13 });
    assert_eq!(receiver.on_frame(frame), Some(13));
    assert!(sender.on_ack(receiver.ack().unwrap()));
    assert_eq!((sender.label(), sender.held()), (0, None));
}

#[test]
fn a_sender_steps_only_on_its_own_label() {
    for label in (0..=65535).step_by(7) {
        let mut sender = Sender::new(params(64, 1000), label);
        assert!(!sender.on_ack(label), "an idle sender ignores");
        assert!(sender.offer(5) && !sender.offer(6));
        assert!(!sender.on_ack(label ^ 1) && sender.held() == Some(5));
        assert!(sender.on_ack(label));
        assert_eq!(sender.label(), if label < 999 { label + 1 } else { 0 });
    }
}

#[test]
fn nothing_happens_after_a_close() {
    let mut sender = Sender::new(params(1, 4), 3);
    assert!(sender.offer(7));
    sender.close();
    assert!(!sender.offer(8) && !sender.on_ack(3));
    assert_eq!(
        (sender.frame(), sender.label(), sender.held()),
        (None, 3, Some(7))
    );
    let mut receiver = Receiver::new(2);
    receiver.close();
    assert_eq!(receiver.on_frame(Frame { label: 0, item: 1 }), None);
    assert_eq!((receiver.ack(), receiver.label()), (None, 2));
}

#[test]
fn a_full_node_takes_no_fresh_frame() {
    let mut node = Node::with_opening(9, 2, &[50]);
    assert!(node.on_frame(Frame { label: 0, item: 7 }));
    assert!(!node.on_frame(Frame { label: 1, item: 8 }));
    assert_eq!((node.ack(), node.as_slices().0), (Some(0), &[50, 7][..]));
    assert!(!node.on_frame(Frame { label: 0, item: 7 }));
    assert_eq!((node.old_frames(), node.publish(3)), (1, false));
    node.forget([]);
    assert!(node.on_frame(Frame { label: 1, item: 8 }));
    assert_eq!((node.as_slices().0, node.length()), (&[8][..], 3));
}

/// A chain of three hands its list on in its order, though each frame is repeated.
#[test]
fn a_chain_hands_its_list_on() {
    let mut root = Node::new(0, 64);
    let mut inner = Node::new(65535, 64);
    let mut leaf = Node::new(65535, 64);
    let mut upper = root.child(params(2, 6), 0, 0);
    let mut lower = inner.child(params(1, 4), 0, 0);
    for item in 0..50 {
        assert!(root.publish(item));
    }
    while root.backlog(&upper) > 0 || inner.backlog(&lower) > 0 {
        if let Some(frame) = root.poll(&mut upper) {
            assert!(inner.on_frame(frame) && !inner.on_frame(frame));
            assert!(upper.on_ack(inner.ack().unwrap()) && !upper.on_ack(frame.label));
        }
        if let Some(frame) = inner.poll(&mut lower) {
            leaf.on_frame(frame);
            lower.on_ack(leaf.ack().unwrap());
        }
    }
    assert!(leaf.items().eq(0..50));
    assert_eq!(
        (upper.acknowledged(), upper.ignored(), lower.offered()),
        (50, 50, 50)
    );
}

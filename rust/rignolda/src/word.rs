//! A link in two places of a store that hold a number each, such as two keys of a database.
//!
//! The sender's end sets the one place and gets the other, and the receiver's end the other way
//! round. What an end has got it gives to its half before it does anything else, and it waits until
//! a set is done before it gets or sets again. Where each get and each set takes effect at one
//! moment (the store is linearizable), such a link is a line of capacity 1, whatever the two places
//! hold at first.
//!
//! ```
//! use rignolda::{word, Params, Receiver, Sender};
//!
//! let mut sender = Sender::new(Params::new(1, 4)?, 2);
//! let mut receiver = Receiver::new(65535);
//! // (what a store holds that nobody has set yet)
//! let (mut frames, mut acks) = (0, 0);
//!
//! assert!(sender.offer(7));
//! frames = sender.frame().map_or(frames, word::of_frame);
//! assert_eq!(word::frame(frames).and_then(|it| receiver.on_frame(it)), Some(7));
//! acks = receiver.ack().map_or(acks, word::of_label);
//! assert!(word::label(acks).map_or(false, |it| sender.on_ack(it)));
//! # Ok::<(), rignolda::ParamsError>(())
//! ```
use crate::{calls, Frame};

/// The word to set for a frame: 2^48 + label * 2^32 + item.
pub fn of_frame(frame: Frame) -> u64 {
    // SAFETY: the call only reads.
    unsafe { calls::rignolda_word_of_frame(&frame.raw()) }
}

/// The frame that a word shows. Any other number shows none, such as 0.
pub fn frame(word: u64) -> Option<Frame> {
    let mut frame = calls::Frame::default();
    // SAFETY: the call writes the frame alone.
    unsafe { calls::rignolda_word_frame(word, &mut frame) }.then_some(Frame::of(frame))
}

/// The word to set for the acknowledgement of a label: 2^16 + label.
pub fn of_label(label: u16) -> u64 {
    // SAFETY: the call touches nothing.
    unsafe { calls::rignolda_word_of_label(label) }
}

/// The label that a word acknowledges. Any other number acknowledges none, such as 0.
pub fn label(word: u64) -> Option<u16> {
    let mut label = 0;
    // SAFETY: the call writes the label alone.
    unsafe { calls::rignolda_word_label(word, &mut label) }.then_some(label)
}

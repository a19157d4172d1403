//! What an agent of a tree decides, without sockets, files and clocks: all comes to it from
//! outside, and what is to be done goes out.
//!
//! Each step of a link is a call of the proved library [`rignolda`]. Here is what an agent needs
//! beside these: [`net`] are its connections, byte for byte, and the bodies of its items;
//! [`settings`] are keys and values that travel so. What messages and bodies say, which bodies are
//! published, taken and applied is asked of proved calls too; what is around all these is tested.
//!
//! When something comes is said by a [`Time`]. The crate has nothing of the standard library but
//! what takes memory: so a compiler refuses a clock, a socket, a file or a thread in it.
#![no_std]
#![deny(unsafe_code)]
#![warn(missing_debug_implementations)]

extern crate alloc;
#[cfg(any(test, feature = "trial"))]
extern crate std;

pub mod apply;
pub mod below;
pub mod came;
pub mod config;
pub mod control;
mod fact;
pub mod machine;
pub mod net;
pub mod outside;
mod prelude;
pub mod published;
mod refused;
pub mod renews;
pub mod repeats;
pub mod restarts;
pub mod root;
pub mod settings;
pub mod sha;
pub mod standby;
mod ticket;
mod time;

pub use fact::Fact;
pub use refused::Refused;
#[cfg(feature = "trial")]
#[doc(hidden)]
pub use rignolda::trial;
pub use sha::Sha256;
pub use ticket::Ticket;
pub use time::Time;

/// Of the first of these that holds what follows from it.
pub fn first_of<T, const N: usize>(all: [(bool, T); N]) -> Option<T> {
    all.into_iter().find(|(holds, _)| *holds).map(|(_, it)| it)
}

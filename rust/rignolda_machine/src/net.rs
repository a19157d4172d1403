//! What an agent over a network needs beside the calls of its links, without its sockets.
//!
//! An item of a link has 32 bits. Here it is the checksum of a [`Body`], which travels in the same
//! frame: so an agent sends texts, tables or programs of up to 16 MiB. A body that does not fit its
//! item is handed on as it came, and whoever takes it looks. That finds accidents alone: whoever
//! wants to can make another body that fits.
//!
//! - [`wire`] is what goes over a connection, byte for byte.
//! - A [`Relay`] is a node with the bodies of its items, and with children that have names.
//! - [`Peers`] are all the connections of an agent: who connects to whom, what each end says first,
//!   who is waited for, and what is sent when. Its caller has the sockets, certificates and clocks.
//! - [`parents`] is by what rule an agent chooses its parent.
//! - A [`Turn`] is what is asked of a store where a link lies in place of a connection.
//! - [`Turns`] say whose work is done next, where anybody may bring it.
//!
//! Each step of a link is a call that is proved, and so is what the bytes of a message say. That a
//! body lies beside its item, and all that is done about connections and stores, is tested alone.
#![warn(missing_docs)]
use crate::prelude::*;
mod address;
mod error;
mod origin;
pub mod parents;
mod peers;
#[allow(unsafe_code)]
mod proved;
mod refusal;
mod relay;
mod store;
mod turns;
pub mod wire;

pub use address::{Address, AddressError};
pub use origin::{Origin, Shown};
pub use parents::{ParentError, Parents, Way};
pub use peers::{
    Call, ChildError, Children, Chunk, End, Fault, Output, Parent, Peers, ReportKind, Setup, Whom,
};
pub use refusal::Refusal;
pub use relay::{Came, Link, Relay};
pub use store::Turn;
pub use turns::Turns;

/// The longest body, in bytes.
pub const BODY_BYTES: usize = 16 << 20;
/// The longest name of an agent, in bytes.
pub const NAME_BYTES: usize = 64;

/// A body and its item, which need not fit it: whoever takes one looks.
#[derive(Debug, PartialEq, Eq)]
pub struct Body {
    /// What the link carries.
    pub item: u32,
    /// What it stands for.
    pub bytes: Vec<u8>,
}

impl Body {
    /// A body of these bytes, with its item.
    ///
    /// ```
    /// let mut body = rignolda_machine::net::Body::of(b"any bytes".to_vec());
    /// assert!(body.fits());
    /// body.bytes[3] ^= 1;
    /// assert!(!body.fits());
    /// ```
    pub fn of(bytes: Vec<u8>) -> Body {
        let item = checksum(&bytes);
        Body { item, bytes }
    }

    /// Whether the item is the checksum of the bytes.
    pub fn fits(&self) -> bool {
        self.item == checksum(&self.bytes)
    }
}

/// The checksum CRC-32 of some bytes, as zlib and others have it.
///
/// ```
/// assert_eq!(rignolda_machine::net::checksum(b"123456789"), 0xcbf4_3926);
/// ```
pub fn checksum(bytes: &[u8]) -> u32 {
    crate::settings::proved::checksum(bytes)
}

/// Whether this may be the name of an agent: letters, digits, `.`, `_` and `-`, and no dot or
/// hyphen in front.
pub fn is_name(text: &str) -> bool {
    proved::is_name(text.as_bytes())
}

rignolda::spoils! { Body {
    item, bytes } copied |it| Body { item: it.item, bytes: it.bytes.clone()
} }

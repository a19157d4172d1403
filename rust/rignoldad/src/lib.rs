//! A daemon that carries settings down a tree of machines, over the proved library `rignolda`.
//!
//! Each step that the laws speak of is a call of the library, and its module `net` has what goes
//! over a connection. Here is the shell around it: sockets, files and watching.
#![forbid(unsafe_code)]

pub mod answers;
pub mod asked;
pub mod batch;
pub mod check;
pub mod config;
pub mod control;
pub mod depth;
pub mod disk;
pub mod hooks;
pub mod journal;
pub mod kept;
pub mod label;
pub mod lines;
pub mod metrics;
pub mod operators;
pub mod page;
pub mod place;
pub mod reach;
pub mod shell;
pub mod sockets;
pub mod system;
pub mod threads;
pub mod workers;

pub use rignolda_tls::serve;

//! What an operator asks a running agent of rignoldad over its Unix socket, what the agent answers,
//! and [who asks](ask).
//!
//! A request is one line of JSON, and so is its answer; a connection may carry one after the other.
//! Who may connect is decided by the permissions of the socket's file.
#![forbid(unsafe_code)]
#![warn(missing_debug_implementations)]
use openssl::sha::Sha256;
use std::time::{SystemTime, UNIX_EPOCH};

pub mod ask;
mod error;
pub mod files;
pub mod probe;
pub mod source;
pub mod text;
pub mod tree;

pub use error::{at, ErrorAt};
pub use rignolda_machine::control::*;
pub use rignolda_machine::settings::harmless_for;
pub use rignolda_machine::sha::{is_sha256, of_setting, short};

/// The digest of a setting: the first 8 bytes of [its SHA-256](of_setting).
pub fn digest(key: &str, value: Option<&[u8]>) -> u64 {
    short(&of_setting(sha256, key, value))
}

/// The SHA-256 of these bytes, one part behind the other.
pub fn sha256(parts: &[&[u8]]) -> [u8; 32] {
    let mut sha = Sha256::new();
    parts.iter().for_each(|it| sha.update(it));
    sha.finish()
}

/// Seconds since 1970, by the clock of the machine.
pub fn unix_now() -> u64 {
    SystemTime::now().duration_since(UNIX_EPOCH).map_or(0, |it| it.as_secs())
}

/// A whole number with `ms`, `s`, `m` or `h`.
pub fn milliseconds(text: &str) -> Option<u64> {
    let end = text.find(|c: char| !c.is_ascii_digit())?;
    let unit = match &text[end..] {
        "ms" => 1,
        "s" => 1_000,
        "m" => 60_000,
        "h" => 3_600_000,
        _ => return None,
    };
    text[..end].parse::<u64>().ok()?.checked_mul(unit)
}

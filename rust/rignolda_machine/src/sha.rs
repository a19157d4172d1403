//! SHA-256, which whoever runs an agent has, and what is made of it here.
use crate::prelude::*;

/// Makes the SHA-256 of these bytes, one part behind the other.
pub type Sha256 = fn(&[&[u8]]) -> [u8; 32];

/// The SHA-256 of a setting: of a byte with the length of its key, a byte 1, the key and the value.
/// Where it has no value, as its file cannot be read, 0 is that byte. So no other one has it.
pub fn of_setting(sha: Sha256, key: &str, value: Option<&[u8]>) -> [u8; 32] {
    let head = [key.len() as u8, value.is_some().into()];
    sha(&[&head, key.as_bytes(), value.unwrap_or(&[])])
}

/// The first 8 bytes of one.
pub fn short(sha: &[u8; 32]) -> u64 {
    let [a, b, c, d, e, f, g, h, ..] = *sha;
    u64::from_be_bytes([a, b, c, d, e, f, g, h])
}

/// One in hexadecimal digits.
pub fn hexadecimal(sha: &[u8; 32]) -> String {
    sha.iter().map(|byte| format!("{byte:02x}")).collect()
}

/// Whether this may be one in hexadecimal digits.
pub fn is_sha256(text: &str) -> bool {
    text.len() == 64 && text.bytes().all(|byte| byte.is_ascii_hexdigit())
}

/// That of the tests.
#[cfg(test)]
pub fn sha256(parts: &[&[u8]]) -> [u8; 32] {
    openssl::sha::sha256(&parts.concat())
}

//! How single members are written.

/// A digest as 16 hexadecimal digits, or as none where it is 0: as a number it would be too large
/// for many readers of JSON.
pub(super) mod digits {
    use crate::prelude::*;
    use serde::{de::Error, Deserialize, Deserializer, Serializer};

    pub fn serialize<S: Serializer>(digest: &u64, to: S) -> Result<S::Ok, S::Error> {
        match digest {
            0 => to.serialize_str(""),
            _ => to.collect_str(&format_args!("{digest:016x}")),
        }
    }

    pub fn deserialize<'de, D: Deserializer<'de>>(from: D) -> Result<u64, D::Error> {
        let text = Cow::<str>::deserialize(from)?;
        match &*text {
            "" => Ok(0),
            digits => u64::from_str_radix(digits, 16).map_err(D::Error::custom),
        }
    }
}

/// A bool that is true or false, also after a fault of memory put another byte there. What is
/// compiled for a bool may count with its byte, as for the length of its text: then what is made as
/// JSON is none.
///
/// No rule of the language says what becomes of such a byte. In practice it is this: the byte is
/// copied, the compiler knows nothing of what [`black_box`](core::hint::black_box) returns, so what
/// comes is compared with 0.
pub mod sound {
    use serde::Serializer;

    pub fn is(it: bool) -> bool {
        core::hint::black_box(u8::from(it)) != 0
    }

    pub fn serialize<S: Serializer>(it: &bool, to: S) -> Result<S::Ok, S::Error> {
        to.serialize_bool(is(*it))
    }
}

/// What is 0 is not written.
pub(super) fn is_zero(number: &u32) -> bool {
    *number == 0
}

/// A version as text, its three numbers with dots between them, or as none where it is 0. (A report
/// has many, and no room for any text; what is none is taken for 0.)
pub mod dotted {
    use crate::prelude::*;
    use serde::{Deserialize, Deserializer, Serializer};

    const BITS: u32 = 10;

    pub fn read(text: &str) -> u32 {
        let part = |text: &str| text.parse::<u32>().ok().filter(|it| *it < 1 << BITS);
        let parts: Option<Vec<u32>> = text.split('.').take(4).map(part).collect();
        match parts.as_deref() {
            Some([first, second, third]) => first << (2 * BITS) | second << BITS | third,
            _ => 0,
        }
    }

    pub fn text(version: u32) -> String {
        let part = |at: u32| version >> (at * BITS) & ((1 << BITS) - 1);
        match version {
            0 => String::new(),
            _ => format!("{}.{}.{}", part(2), part(1), part(0)),
        }
    }

    pub fn serialize<S: Serializer>(version: &u32, to: S) -> Result<S::Ok, S::Error> {
        to.serialize_str(&text(*version))
    }

    pub fn deserialize<'de, D: Deserializer<'de>>(from: D) -> Result<u32, D::Error> {
        Ok(read(&Cow::<str>::deserialize(from)?))
    }
}

/// Bytes as hexadecimal digits.
pub(super) mod hexadecimal {
    use crate::prelude::*;
    use serde::{de::Error, Deserialize, Deserializer, Serializer};

    pub fn serialize<S: Serializer>(bytes: &[u8], to: S) -> Result<S::Ok, S::Error> {
        let digit = |half: u8| char::from(b"0123456789abcdef"[usize::from(half)]);
        let digits: String = bytes.iter().flat_map(|b| [digit(b >> 4), digit(b & 15)]).collect();
        to.serialize_str(&digits)
    }

    pub fn deserialize<'de, D: Deserializer<'de>>(from: D) -> Result<Vec<u8>, D::Error> {
        let text = Cow::<str>::deserialize(from)?;
        let digit = |b: u8| char::from(b).to_digit(16).map(|digit| digit as u8);
        let pair = |pair: &[u8]| match pair {
            [high, low] => Some(digit(*high)? << 4 | digit(*low)?),
            _ => None,
        };
        let bytes: Option<Vec<u8>> = text.as_bytes().chunks(2).map(pair).collect();
        bytes.ok_or_else(|| D::Error::custom("value: pairs of hexadecimal digits are expected"))
    }
}

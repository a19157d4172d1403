//! What a folder of settings was found to have.
use super::KEY_BYTES;
use crate::prelude::*;

/// How many faults are named.
const NAMED: usize = 64;

/// What of some settings is none, or cannot be read, and why.
#[derive(Debug, Default, PartialEq, Eq)]
pub struct Faults {
    /// How many there are.
    pub count: u64,
    /// The first ones, each with its name.
    pub texts: BTreeSet<String>,
}

/// All settings that could be read.
#[derive(Debug, Default)]
pub struct Found {
    /// Their keys and values.
    pub settings: BTreeMap<String, Vec<u8>>,
    /// The keys that are there and could not be read, and whether each may be a setting all the
    /// same.
    pub unread: BTreeMap<String, bool>,
    /// What is wrong.
    pub faults: Faults,
}

impl Faults {
    /// One more. It is a line, whatever names are in it.
    pub fn add(&mut self, text: String) {
        self.count += 1;
        if self.texts.len() < NAMED {
            self.texts.insert(in_a_line(&text));
        }
    }
}

/// A text without a control character, each of which is written as in JSON: so it is in one line.
fn in_a_line(text: &str) -> String {
    let code = |c: char| match c.is_control() {
        true => format!("\\u{:04x}", u32::from(c)),
        false => c.into(),
    };
    text.chars().map(code).collect()
}

/// What is said of a name that is none of a setting.
pub fn no_key(name: &str) -> String {
    let name = in_a_line(name);
    format!(
        "`{name}` is no key: that is 1 to {KEY_BYTES} letters, digits, `.`, `_` or `-`, the first \
         one no dot or hyphen, and for a group `KEY@GROUP`, where no two dots stand together",
    )
}

rignolda::spoils! { Faults { count, texts } }

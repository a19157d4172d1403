//! What is wrong with a configuration.
use std::fmt;

/// How much of a text is shown.
const TEXT_CHARS: usize = 500;

/// What is wrong with a configuration, and where.
#[derive(Clone, Debug, PartialEq)]
pub struct Fault {
    /// From 1; 0 where the fault is in no line.
    pub line: usize,
    pub key: String,
    pub text: String,
    /// Whether all works now, and may not later, or not all that one may want.
    pub is_warning: bool,
}

impl Fault {
    /// One that is of no key.
    pub(super) fn of(line: usize, text: impl Into<String>) -> Fault {
        Fault { line, key: String::new(), text: text.into(), is_warning: false }
    }
}

impl fmt::Display for Fault {
    fn fmt(&self, f: &mut fmt::Formatter<'_>) -> fmt::Result {
        if self.is_warning {
            f.write_str("warning: ")?;
        }
        if self.line > 0 {
            write!(f, "line {}: ", self.line)?;
        }
        if !self.key.is_empty() {
            write!(f, "{}: ", plain(&self.key))?;
        }
        f.write_str(&plain(&self.text))
    }
}

/// A text for a person, of which nothing acts on a terminal, and not too long for a line.
pub fn plain(text: &str) -> String {
    // (and no letter is shown behind the one after it)
    let acts = |c: char| c.is_control() || c.escape_debug().len() > 2;
    text.chars().take(TEXT_CHARS).map(|c| if acts(c) { '?' } else { c }).collect()
}

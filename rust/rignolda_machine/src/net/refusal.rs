//! Why an end is refused, as it is told.
use super::error::error;

error! {
    /// Why the other end refuses this one, in words of this one. Who has shown no certificate is
    /// told [nothing of it](Refusal::NotSaid).
    Refusal {
        /// It does not say.
        NotSaid = "it refuses this agent: why, its `status` and journal say",
        /// Its name is not the one that this end says.
        OtherName = "it refuses this agent: it has another name than this agent calls it",
        /// No child of this name may connect to it.
        NoChild = "it refuses this agent: its `children` do not name it",
        /// No parent of this name may connect to it.
        NoParent = "it refuses this agent: its `parents` do not name it",
        /// It has an address of this end.
        Calls = "it refuses this agent: it is set up to connect to this agent itself",
        /// The certificate of this end has not the name that this end says.
        Certificate = "it refuses this agent: the certificate of this agent has another name",
        /// It has as many children as it may have.
        Full = "it refuses this agent: it has as many children as it may have",
        /// Another process with the name of this end has connected to it.
        Twin = "another process with the name of this agent has connected to it",
    }
}

/// Each, in the place of its byte.
const ALL: [Refusal; 8] = [
    Refusal::NotSaid,
    Refusal::OtherName,
    Refusal::NoChild,
    Refusal::NoParent,
    Refusal::Calls,
    Refusal::Certificate,
    Refusal::Full,
    Refusal::Twin,
];

impl Refusal {
    /// What a byte stands for.
    pub(super) fn of(byte: u8) -> Option<Refusal> {
        ALL.get(usize::from(byte)).copied()
    }

    /// The same in the words of the end that refuses.
    pub(super) fn own_words(self) -> &'static str {
        match self {
            Refusal::NotSaid => "it is refused",
            Refusal::OtherName => "it means another agent",
            Refusal::NoChild | Refusal::NoParent => "its name is none of a child",
            Refusal::Calls => "this agent is set up to connect to it",
            Refusal::Certificate => "its certificate has another name",
            Refusal::Full => "there are as many children as there may be",
            Refusal::Twin => "it connected anew",
        }
    }
}

rignolda::spoils_one_of! { Refusal { NotSaid, OtherName, NoChild, NoParent, Calls, Full, Twin } }

#[cfg(test)]
mod tests {
    use super::*;
    use crate::net::wire::{last_refusal, refused, Expect};
    use crate::prelude::*;

    #[test]
    fn each_has_a_byte_of_its_own() {
        let told = |byte| refused(&[b'W', 255, byte], Expect::Frames);
        for (byte, it) in (0..).zip(ALL) {
            assert_eq!((last_refusal(it), told(byte)), (vec![b'W', 255, byte], Some(it)));
        }
        assert_eq!(told(ALL.len() as u8), Some(Refusal::NotSaid));
        assert_eq!(told(255), Some(Refusal::NotSaid));
    }
}

//! What stands for somebody who waits for an answer.

/// A request that is to be answered, once.
#[derive(Clone, Copy, Debug, PartialEq, Eq, PartialOrd, Ord, Hash)]
pub struct Ticket(u64);

impl Ticket {
    /// That of this number, which its caller gives once.
    pub const fn of_number(number: u64) -> Ticket {
        Ticket(number)
    }

    /// Its number.
    pub const fn number(self) -> u64 {
        self.0
    }
}

rignolda::spoils! { Ticket { 0 } }

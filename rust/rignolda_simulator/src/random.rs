//! Drawn numbers that are the same in every run of a seed.

/// A stream of drawn numbers. Each agent, each line and the faults have one of their own, so that
/// one number more in one of them changes nothing in the others.
#[derive(Clone, Debug)]
pub struct Random(u64);

impl Random {
    /// The stream of this seed that has this name.
    pub fn new(seed: u64, name: &str, number: u64) -> Random {
        let start = name.bytes().fold(seed ^ number.rotate_left(32), |it, byte| {
            (it ^ u64::from(byte)).wrapping_mul(0x0000_0100_0000_01b3)
        });
        Random(start)
    }

    /// The next number.
    pub fn number(&mut self) -> u64 {
        self.0 = self.0.wrapping_add(0x9e37_79b9_7f4a_7c15);
        let mixed = (self.0 ^ self.0 >> 30).wrapping_mul(0xbf58_476d_1ce4_e5b9);
        let mixed = (mixed ^ mixed >> 27).wrapping_mul(0x94d0_49bb_1331_11eb);
        mixed ^ mixed >> 31
    }

    /// One below this bound, which is no 0.
    pub fn below(&mut self, bound: u64) -> u64 {
        self.number() % bound
    }

    /// The same of a place in a list.
    pub fn at(&mut self, length: usize) -> usize {
        self.below(length as u64) as usize
    }

    /// One of these.
    pub fn of<T: Copy>(&mut self, all: &[T]) -> T {
        all[self.at(all.len())]
    }

    /// What is so once in this many times.
    pub fn once_in(&mut self, times: u64) -> bool {
        self.below(times) == 0
    }
}

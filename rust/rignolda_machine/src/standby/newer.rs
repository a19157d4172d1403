//! Whether a root that begins stands by, since its children have what another root published.
use crate::prelude::*;
use crate::settings::is_newer;

/// What the children of a root say that begins.
#[derive(Clone, Copy, Debug, PartialEq, Eq)]
pub enum Says {
    /// Too few of them have said anything yet.
    TooLittle,
    /// Nothing of another root.
    Nothing,
    /// So many have what this root never published.
    Newer(usize),
}

/// What the children of a root say that begins. `may`: up to which number it may have published in
/// earlier lives, where it knows that; `said`: the numbers that its children have, 0 where one has
/// none; `children`: how many there are; `waits`: whether there is time for others to say it.
///
/// A number above what it may have published is another root's. More than half of those that have
/// a number have to say so, and two of them at least where there are two: whoever lies is one of
/// these, however many agents it invents below it.
pub fn says(may: Option<u64>, said: &[u64], children: usize, waits: bool) -> Says {
    let Some(may) = may else { return Says::Nothing };
    let some: Vec<u64> = said.iter().copied().filter(|number| *number != 0).collect();
    let newer = some.iter().filter(|number| is_newer(**number, may)).count();
    if waits && said.len() * 2 < children {
        Says::TooLittle
    } else if newer * 2 > some.len() && newer >= children.min(2) {
        Says::Newer(newer)
    } else {
        Says::Nothing
    }
}

#[cfg(test)]
mod tests {
    use super::*;

    #[test]
    fn most_children_have_to_have_what_it_never_published() {
        let (own, new) = (100, 101);
        for (said, children, expected) in [
            (&[][..], 0, Says::Nothing),
            (&[], 1, Says::TooLittle),
            (&[own], 1, Says::Nothing),
            (&[new], 1, Says::Newer(1)),
            (&[0], 1, Says::Nothing),
            (&[new], 2, Says::Nothing),
            (&[new, 0], 2, Says::Nothing),
            (&[new, own], 2, Says::Nothing),
            (&[new, new], 2, Says::Newer(2)),
            (&[new, new], 5, Says::TooLittle),
            (&[new, new, own], 5, Says::Newer(2)),
            (&[new, new, own, own], 5, Says::Nothing),
            (&[new, new, own, 0, 0, 0], 9, Says::Newer(2)),
        ] {
            assert_eq!(says(Some(100), said, children, true), expected, "{said:?} of {children}");
            // (what it does not know of itself it compares with nothing)
            assert_eq!(says(None, said, children, true), Says::Nothing);
        }
        // (numbers go round)
        assert_eq!(says(Some(u64::MAX), &[5], 1, true), Says::Newer(1));
        assert_eq!(says(Some(5), &[u64::MAX], 1, true), Says::Nothing);
        // (when the time is up, one of several is still too few, and two that agree are not)
        let late = |said: &[u64]| says(Some(own), said, 9, false);
        assert_eq!([late(&[]), late(&[new]), late(&[new, own])], [Says::Nothing; 3]);
        assert_eq!(late(&[new, new]), Says::Newer(2));
    }
}

//! Faults of memory, for trials: one drawn field of a state is set to any value.
//!
//! What a struct has is listed at the end of its file, once; so a trial reaches each field of an
//! agent, and no product has anything of it.
use core::num::NonZeroU64;
use std::boxed::Box;
use std::cell::Cell;
use std::collections::{BTreeMap, BTreeSet, VecDeque};
use std::ops::Range;
use std::path::PathBuf;
use std::string::String;
use std::sync::Arc;
use std::time::Duration;
pub use std::vec::Vec;

/// One fault: what it is drawn from, and which field it struck.
#[allow(missing_debug_implementations)]
pub struct Spoils<'a> {
    draw: &'a mut dyn FnMut() -> u64,
    now: Duration,
    may_forge: bool,
    path: String,
    strikes: bool,
    forges: bool,
}

impl<'a> Spoils<'a> {
    /// A fault from these numbers, each of which is any. Unless it `may_forge`, no text and no value
    /// of a setting is struck.
    pub fn new(draw: &'a mut dyn FnMut() -> u64, now: Duration, may_forge: bool) -> Spoils<'a> {
        Spoils {
            draw,
            now,
            may_forge,
            path: String::new(),
            strikes: false,
            forges: false,
        }
    }

    /// Which field was struck, as a path.
    pub fn path(&self) -> &str {
        &self.path
    }

    /// Whether it struck one. (A list that is empty has nothing to be struck.)
    pub fn strikes(&self) -> bool {
        self.strikes
    }

    /// This field is struck.
    pub fn strike<T>(&mut self, field: &mut T, to: T) {
        *field = to;
        self.strikes = true;
    }

    /// Whether it may have made a setting that nobody published.
    pub fn forges(&self) -> bool {
        self.forges
    }

    /// When it is, by the clock of the state.
    pub fn now(&self) -> Duration {
        self.now
    }

    /// Any number.
    pub fn number(&mut self) -> u64 {
        (self.draw)()
    }

    /// One below this bound; 0 if that is 0.
    pub fn below(&mut self, bound: u64) -> u64 {
        self.number() % bound.max(1)
    }

    /// The same of a place in a list.
    pub fn at(&mut self, length: usize) -> usize {
        self.below(length as u64) as usize
    }

    /// What is so once in this many times.
    pub fn once_in(&mut self, times: u64) -> bool {
        self.below(times) == 0
    }

    /// The fault goes to this field.
    pub fn enters(&mut self, name: &str) {
        let dot = if self.path.is_empty() { "" } else { "." };
        self.path.push_str(dot);
        self.path.push_str(name);
    }

    /// Whether a text may be struck, which is noted.
    fn may_strike_text(&mut self) -> bool {
        self.forges |= self.may_forge;
        self.may_forge
    }

    /// One of these fields is struck: more often one that has more.
    pub fn one_of(&mut self, fields: &mut [(&str, &mut dyn Spoil)]) {
        let weight = |it: &(&str, &mut dyn Spoil)| (it.1.size() as f64).sqrt().ceil() as u64;
        let mut left = self.below(fields.iter().map(weight).sum());
        for it in fields {
            let weight = weight(it);
            if left < weight {
                self.enters(it.0);
                return it.1.spoil(self);
            }
            left -= weight;
        }
    }
}

/// A state, or a part of one.
pub trait Spoil {
    /// Sets one drawn field of it to another value, if it has any.
    fn spoil(&mut self, by: &mut Spoils<'_>);

    /// How many fields it has.
    fn size(&self) -> u64 {
        1
    }

    /// Any value of its type, if that has none that something else belongs to.
    fn any(_: &mut Spoils<'_>) -> Option<Self>
    where
        Self: Sized,
    {
        None
    }

    /// Another one of the same value, if it is one that may be copied.
    fn twin(&self) -> Option<Self>
    where
        Self: Sized,
    {
        None
    }
}

/// The fields of a struct, each of which may be struck; and how one is copied that is shared.
#[macro_export]
macro_rules! spoils {
    ($name:ident $(<$($of:ident),+>)? { $($field:tt),* $(,)? } $(copied $copy:expr)?) => {
        impl $(<$($of: $crate::trial::Spoil),+>)? $crate::trial::Spoil for $name $(<$($of),+>)? {
            /// One of its fields is struck.
            fn spoil(&mut self, by: &mut $crate::trial::Spoils<'_>) {
                by.one_of(&mut [$((stringify!($field), &mut self.$field)),*]);
            }

            /// How many fields it has.
            fn size(&self) -> u64 {
                let sizes: &[u64] = &[$($crate::trial::Spoil::size(&self.$field)),*];
                sizes.iter().sum()
            }
            $(
                /// Another one of the same value.
                fn twin(&self) -> Option<$name> {
                    let copy: fn(&$name) -> $name = $copy;
                    Some(copy(self))
                }
            )?
        }
    };
}

/// The variants of an enum: those that have nothing, and those that have something.
#[macro_export]
macro_rules! spoils_one_of {
    ($name:ident { $($unit:ident),* } $($variant:ident($($field:ident),+)),*) => {
        impl $crate::trial::Spoil for $name {
            /// It is one that has nothing, or what it has is struck.
            fn spoil(&mut self, by: &mut $crate::trial::Spoils<'_>) {
                let mut plain = $crate::trial::Vec::from([$($name::$unit),*] as [$name; 0 $(+ { let _ = stringify!($unit); 1 })*]);
                let has_nothing = match self {
                    $($name::$unit => true,)*
                    #[allow(unreachable_patterns)]
                    _ => false,
                };
                if !plain.is_empty() && (has_nothing || by.once_in(3)) {
                    by.enters("which");
                    let at = by.at(plain.len());
                    return by.strike(self, plain.swap_remove(at));
                }
                match self {
                    $($name::$variant($($field),+) => {
                        by.one_of(&mut [$((stringify!($field), $field)),+]);
                    })*
                    #[allow(unreachable_patterns)]
                    _ => (),
                }
            }

            /// How many fields it has.
            fn size(&self) -> u64 {
                match self {
                    $($name::$variant($($field),+) => {
                        let sizes: &[u64] = &[$($crate::trial::Spoil::size($field)),+];
                        1 + sizes.iter().sum::<u64>()
                    })*
                    #[allow(unreachable_patterns)]
                    _ => 1,
                }
            }
        }
    };
}

/// Numbers: any one, a near one, one with a bit flipped, or one at an end.
macro_rules! spoils_numbers {
    ($($number:ty),*) => {$(
        impl Spoil for $number {
            fn spoil(&mut self, by: &mut Spoils<'_>) {
                let near = by.below(300) as $number;
                let to = match by.below(8) {
                    0 | 1 => by.number() as $number,
                    2 => self.wrapping_add(near),
                    3 => self.wrapping_sub(near),
                    4 => by.below(9) as $number,
                    5 => <$number>::MAX - by.below(3) as $number,
                    _ => *self ^ (1 << by.below(u64::from(<$number>::BITS))),
                };
                by.strike(self, to);
            }

            fn any(by: &mut Spoils<'_>) -> Option<$number> {
                let number = by.number() as $number;
                Some(if by.once_in(2) { number } else { number % 9 })
            }

            fn twin(&self) -> Option<$number> {
                Some(*self)
            }
        }
    )*};
}

spoils_numbers!(u8, u16, u32, u64, usize);

impl Spoil for bool {
    fn spoil(&mut self, by: &mut Spoils<'_>) {
        by.strike(self, !*self);
    }

    fn any(by: &mut Spoils<'_>) -> Option<bool> {
        Some(by.once_in(2))
    }

    fn twin(&self) -> Option<bool> {
        Some(*self)
    }
}

impl Spoil for NonZeroU64 {
    fn spoil(&mut self, by: &mut Spoils<'_>) {
        let mut number = self.get();
        number.spoil(by);
        by.strike(self, NonZeroU64::new(number).unwrap_or(*self));
    }

    fn any(by: &mut Spoils<'_>) -> Option<NonZeroU64> {
        NonZeroU64::new(1 + by.below(9))
    }

    fn twin(&self) -> Option<NonZeroU64> {
        Some(*self)
    }
}

/// A time span: of no length, of milliseconds, or of up to a century.
pub fn span(by: &mut Spoils<'_>) -> Duration {
    let most = [1, 100, 3_000, 60_000, 86_400_000, 3_000_000_000_000][by.at(6)];
    match by.once_in(20) {
        true => Duration::MAX,
        false => Duration::from_millis(by.below(most)),
    }
}

impl Spoil for Duration {
    fn spoil(&mut self, by: &mut Spoils<'_>) {
        let to = span(by);
        by.strike(self, to);
    }

    fn any(by: &mut Spoils<'_>) -> Option<Duration> {
        Some(span(by))
    }

    fn twin(&self) -> Option<Duration> {
        Some(*self)
    }
}

impl Spoil for String {
    fn spoil(&mut self, by: &mut Spoils<'_>) {
        if !by.may_strike_text() {
            return;
        }
        let (mut bytes, at) = (std::mem::take(self).into_bytes(), by.at(1 << 16));
        let length = bytes.len();
        match by.below(6) {
            0 => bytes.clear(),
            1 => bytes.push(b'0' + by.below(9) as u8),
            2 => bytes.truncate(length.saturating_sub(1)),
            3 if length > 1 => bytes.swap(at % length, (at + 1) % length),
            _ if length > 0 => bytes[at % length] ^= 1 << by.below(7),
            _ => (),
        }
        by.strike(self, String::from_utf8_lossy(&bytes).into_owned());
    }

    fn twin(&self) -> Option<String> {
        Some(self.clone())
    }
}

impl Spoil for PathBuf {
    fn spoil(&mut self, by: &mut Spoils<'_>) {
        self.push(if by.once_in(2) { "spoilt" } else { "/" });
        by.strikes = true;
    }
}

impl<T: Spoil> Spoil for Option<T> {
    fn spoil(&mut self, by: &mut Spoils<'_>) {
        match self {
            Some(it) if !by.once_in(3) => it.spoil(by),
            Some(_) => by.strike(self, None),
            None => {
                let to = T::any(by);
                by.strikes |= to.is_some();
                *self = to;
            }
        }
    }

    fn size(&self) -> u64 {
        self.as_ref().map_or(1, |it| 1 + it.size())
    }

    fn any(by: &mut Spoils<'_>) -> Option<Option<T>> {
        Some(if by.once_in(2) { T::any(by) } else { None })
    }

    fn twin(&self) -> Option<Option<T>> {
        match self {
            Some(it) => it.twin().map(Some),
            None => Some(None),
        }
    }
}

impl<T: Spoil + Copy> Spoil for Cell<T> {
    fn spoil(&mut self, by: &mut Spoils<'_>) {
        self.get_mut().spoil(by);
    }

    fn size(&self) -> u64 {
        self.get().size()
    }
}

impl<T: Spoil> Spoil for Arc<T> {
    fn spoil(&mut self, by: &mut Spoils<'_>) {
        // (who has the same one keeps it as it was)
        match (**self).twin() {
            Some(mut it) => {
                it.spoil(by);
                *self = Arc::new(it);
            }
            None => Arc::get_mut(self).into_iter().for_each(|it| it.spoil(by)),
        }
    }

    fn size(&self) -> u64 {
        (**self).size()
    }

    fn twin(&self) -> Option<Arc<T>> {
        Some(self.clone())
    }
}

impl<T: Spoil> Spoil for Range<T> {
    fn spoil(&mut self, by: &mut Spoils<'_>) {
        if by.may_strike_text() {
            match by.once_in(2) {
                true => self.start.spoil(by),
                false => self.end.spoil(by),
            }
        }
    }
}

impl<T: Spoil> Spoil for [T] {
    fn spoil(&mut self, by: &mut Spoils<'_>) {
        let at = by.at(self.len());
        self.iter_mut().skip(at).take(1).for_each(|it| it.spoil(by));
    }

    fn size(&self) -> u64 {
        sizes(self)
    }
}

/// How many fields these have: of many as many as the first ones.
fn sizes<'a, T: Spoil + 'a>(all: impl IntoIterator<Item = &'a T>) -> u64 {
    let (mut count, mut sum) = (0, 0);
    for it in all {
        sum += if count < 64 { it.size() } else { 1 };
        count += 1;
        if count == 1_000 {
            break;
        }
    }
    1 + sum
}

impl<T: Spoil, const COUNT: usize> Spoil for [T; COUNT] {
    fn spoil(&mut self, by: &mut Spoils<'_>) {
        self[..].spoil(by);
    }

    fn size(&self) -> u64 {
        self[..].size()
    }
}

impl<T: Spoil> Spoil for Box<[T]> {
    fn spoil(&mut self, by: &mut Spoils<'_>) {
        let mut all = std::mem::take(self).into_vec();
        if by.once_in(4) {
            let length = by.at(all.len());
            all.truncate(length);
            by.strikes = true;
        }
        all[..].spoil(by);
        *self = all.into_boxed_slice();
    }
}

impl<T: Spoil> Spoil for Vec<T> {
    fn spoil(&mut self, by: &mut Spoils<'_>) {
        let is_of_bytes = std::any::type_name::<T>() == "u8";
        if is_of_bytes && !by.may_strike_text() {
            return;
        }
        let (at, other) = (by.at(self.len()), by.at(self.len()));
        let new = if self.is_empty() { T::any(by) } else { None };
        by.strikes |= new.is_some() || !self.is_empty();
        match by.below(8) {
            _ if self.is_empty() => self.extend(new),
            0 => drop(self.remove(at)),
            1 => {
                let twin = self[at].twin();
                twin.into_iter().for_each(|it| self.insert(other, it));
            }
            2 => self.swap(at, other),
            3 if by.once_in(2) => self.clear(),
            _ => self[at].spoil(by),
        }
    }

    fn size(&self) -> u64 {
        sizes(self)
    }

    fn twin(&self) -> Option<Vec<T>> {
        self.iter().map(Spoil::twin).collect()
    }
}

impl<T: Spoil> Spoil for VecDeque<T> {
    fn spoil(&mut self, by: &mut Spoils<'_>) {
        let mut all = Vec::from(std::mem::take(self));
        all.spoil(by);
        *self = all.into();
    }
    fn size(&self) -> u64 {
        sizes(self)
    }
}

impl<T: Spoil + Ord> Spoil for BTreeSet<T> {
    fn spoil(&mut self, by: &mut Spoils<'_>) {
        let mut all: Vec<T> = std::mem::take(self).into_iter().collect();
        all.spoil(by);
        *self = all.into_iter().collect();
    }
    fn size(&self) -> u64 {
        sizes(self)
    }
}

impl<K: Spoil + Ord, V: Spoil> Spoil for BTreeMap<K, V> {
    fn spoil(&mut self, by: &mut Spoils<'_>) {
        let (at, other) = (by.at(self.len()), by.at(self.len()));
        by.strikes |= !self.is_empty();
        match by.below(8) {
            0 => {
                let mut place = 0..;
                let mut all = std::mem::take(self).into_iter().collect::<Vec<_>>();
                all.retain(|_| place.next() != Some(at));
                self.extend(all);
            }
            1 if at != other && by.may_strike_text() => {
                let (least, most) = (at.min(other), at.max(other));
                let mut values = self.values_mut().skip(least);
                let one = values.next();
                let two = values.nth(most - least - 1);
                one.into_iter()
                    .zip(two)
                    .for_each(|(one, two)| std::mem::swap(one, two));
            }
            2 => {
                let mut all = std::mem::take(self).into_iter().collect::<Vec<_>>();
                all.iter_mut()
                    .skip(at)
                    .take(1)
                    .for_each(|it| it.0.spoil(by));
                self.extend(all);
            }
            3 if by.once_in(4) => self.clear(),
            _ => self
                .values_mut()
                .skip(at)
                .take(1)
                .for_each(|it| it.spoil(by)),
        }
    }

    fn size(&self) -> u64 {
        sizes(self.values())
    }
}

impl<A: Spoil, B: Spoil> Spoil for (A, B) {
    fn spoil(&mut self, by: &mut Spoils<'_>) {
        match by.once_in(2) {
            true => self.0.spoil(by),
            false => self.1.spoil(by),
        }
    }

    fn size(&self) -> u64 {
        self.0.size() + self.1.size()
    }

    fn any(by: &mut Spoils<'_>) -> Option<(A, B)> {
        Some((A::any(by)?, B::any(by)?))
    }

    fn twin(&self) -> Option<(A, B)> {
        Some((self.0.twin()?, self.1.twin()?))
    }
}

impl<A: Spoil, B: Spoil, C: Spoil> Spoil for (A, B, C) {
    fn spoil(&mut self, by: &mut Spoils<'_>) {
        match by.below(3) {
            0 => self.0.spoil(by),
            1 => self.1.spoil(by),
            _ => self.2.spoil(by),
        }
    }

    fn size(&self) -> u64 {
        self.0.size() + self.1.size() + self.2.size()
    }

    fn any(by: &mut Spoils<'_>) -> Option<(A, B, C)> {
        Some((A::any(by)?, B::any(by)?, C::any(by)?))
    }
}

/// A text that is a part of the program is none of its state.
impl Spoil for &'static str {
    fn spoil(&mut self, _: &mut Spoils<'_>) {}
}

//! Whose work is done next, where anybody may bring as much of it as they like.
use super::Origin;
use crate::Time;
use alloc::collections::{BTreeMap, VecDeque};
use core::time::Duration;

/// What costs no more is nothing to be late for: so little costs whoever is honest.
const FREE: Duration = Duration::from_millis(200);
/// For how many times what it cost an origin comes after all others, and for how long at most.
const TIMES: u32 = 10;
const LONGEST: Duration = Duration::from_secs(600);
/// How long all those who cost much wait at most after one of them did so again: half of the time
/// in which they could do so.
const RESTS: Duration = Duration::from_secs(10);
/// How many pieces of those that are known are done besides: one for each so many of all, and one.
const EACH: usize = 4;
/// From how many of one origin on those that nobody wants any more are looked for.
const MANY: usize = 64;

/// Pieces of work, each of which somebody brought and may cost anything.
///
/// Origins have their turns one after the other, and of each one piece is done at a time. Who cost
/// much comes after all others for a while, and of all those one piece is done at a time: so
/// neither much work nor long work of some holds the others up for longer than what is done
/// already; and after it as long nothing is done for them. For those that are known some pieces are
/// done besides: so they wait for nobody who is not, however many there are of these.
///
/// ```
/// use rignolda_machine::net::{Origin, Turns};
/// use rignolda_machine::Time;
///
/// let (mut turns, now) = (Turns::new(2), Time::default());
/// let [one, two] = [Origin::V4([127, 0, 0, 1]), Origin::V4([127, 0, 0, 2])];
/// ["a", "b", "c"].into_iter().for_each(|it| turns.add(one, it, |_| true));
/// turns.add(two, "d", |_| true);
/// let nobody = |_: &Origin| false;
/// assert_eq!(turns.next(now, nobody), Some((one, "a")));
/// assert_eq!(turns.next(now, nobody), Some((two, "d")));
/// assert_eq!(turns.next(now, nobody), None);
/// let three = Origin::V4([127, 0, 0, 3]);
/// turns.add(three, "e", |_| true);
/// assert_eq!(turns.next(now, nobody), None);
/// assert_eq!(turns.next(now, |it| *it == three), Some((three, "e")));
/// ```
#[derive(Debug)]
pub struct Turns<T> {
    most: usize,
    waiting: BTreeMap<Origin, VecDeque<T>>,
    /// The origins of what waits, in the order of their turns.
    order: VecDeque<Origin>,
    /// For whom one is done, and whether besides.
    under_way: BTreeMap<Origin, bool>,
    /// Until when who cost much comes after all others.
    late: BTreeMap<Origin, Time>,
    /// Until when nothing is done for them.
    rests: Option<Time>,
}

impl<T> Turns<T> {
    /// Nothing waits; `most`: how many pieces are done at a time.
    pub fn new(most: usize) -> Turns<T> {
        Turns {
            most,
            waiting: BTreeMap::new(),
            order: VecDeque::new(),
            under_way: BTreeMap::new(),
            late: BTreeMap::new(),
            rests: None,
        }
    }

    /// Somebody brings a piece. Those before it that nobody wants any more go now and then.
    pub fn add(&mut self, origin: Origin, it: T, is_wanted: impl Fn(&T) -> bool) {
        let waiting = self.waiting.entry(origin).or_default();
        if waiting.is_empty() {
            self.order.push_back(origin);
        }
        waiting.push_back(it);
        if waiting.len() >= MANY && waiting.len().is_power_of_two() {
            waiting.retain(is_wanted);
        }
    }

    /// The piece that is to be done now, if there is one. [`Turns::ended`] is to be told.
    pub fn next(&mut self, now: Time, is_known: impl Fn(&Origin) -> bool) -> Option<(Origin, T)> {
        if self.order.is_empty() {
            return None;
        }
        self.late.retain(|_, until| now < *until);
        self.rests = self.rests.filter(|at| now < *at && *at <= now + RESTS);
        let besides = self.under_way.values().filter(|it| **it).count();
        let has_room = self.under_way.len() - besides < self.most;
        let has_more = besides < self.most / EACH + 1;
        if !(has_room || has_more) {
            return None;
        }
        let is_late = |origin: &Origin| self.late.contains_key(origin);
        let is_full = self.rests.is_some() || self.under_way.keys().any(is_late);
        let may = |it: &&Origin| !self.under_way.contains_key(*it);
        let mut others = self.order.iter().filter(may).filter(|it| !is_late(it));
        let late = || self.order.iter().find(may).filter(|_| !is_full);
        let origin = *match has_room {
            true => others.next().or_else(late)?,
            false => others.find(|it| is_known(it))?,
        };
        self.order.retain(|it| *it != origin);
        let waiting = self.waiting.get_mut(&origin)?;
        let it = waiting.pop_front();
        match waiting.is_empty() {
            true => drop(self.waiting.remove(&origin)),
            false => self.order.push_back(origin),
        }
        self.under_way.insert(origin, !has_room);
        it.map(|it| (origin, it))
    }

    /// What was done for an origin has cost so much.
    pub fn ended(&mut self, origin: Origin, cost: Duration, now: Time) {
        self.under_way.remove(&origin);
        if cost > FREE {
            self.rests = Some(now + cost.min(RESTS));
            let until = now + (cost * TIMES).min(LONGEST);
            let late = self.late.entry(origin).or_insert(until);
            *late = until.max(*late);
        }
    }

    /// How many pieces are done now.
    pub fn under_way(&self) -> usize {
        self.under_way.len()
    }
}

#[cfg(test)]
mod tests {
    use super::*;
    use crate::prelude::*;

    fn at(last: u8) -> Origin {
        Origin::V4([127, 0, 0, last])
    }

    /// What is done next, until nothing is.
    fn all(turns: &mut Turns<u32>, now: Time) -> Vec<u32> {
        all_of(turns, now, |_| false)
    }

    /// The same, where these are known.
    fn all_of(turns: &mut Turns<u32>, now: Time, known: fn(&Origin) -> bool) -> Vec<u32> {
        core::iter::from_fn(|| turns.next(now, known).map(|it| it.1)).collect()
    }

    #[test]
    fn one_with_much_to_do_holds_nobody_up() {
        let (mut turns, now) = (Turns::new(8), Time::default());
        (0..1_000).for_each(|it| turns.add(at(1), it, |_| true));
        turns.add(at(2), 5_000, |_| true);
        assert_eq!(all(&mut turns, now), [0, 5_000]);
        turns.ended(at(1), FREE, now);
        turns.add(at(2), 5_001, |_| true);
        turns.ended(at(2), FREE, now);
        // (whose turn was longer ago comes first)
        assert_eq!(all(&mut turns, now), [1, 5_001]);
    }

    #[test]
    fn turns_go_round_and_each_brings_its_pieces_in_order() {
        let (mut turns, now) = (Turns::new(1), Time::default());
        for (origin, piece) in (1..=3).flat_map(|it| (0..4).map(move |piece| (it, piece))) {
            turns.add(at(origin), u32::from(origin) * 10 + piece, |_| true);
        }
        let done = (0..12).flat_map(|_| {
            let (origin, it) = turns.next(now, |_| false)?;
            assert_eq!((turns.under_way(), turns.next(now, |_| false)), (1, None));
            turns.ended(origin, FREE, now);
            Some(it)
        });
        let done: Vec<u32> = done.collect();
        assert_eq!(done, [10, 20, 30, 11, 21, 31, 12, 22, 32, 13, 23, 33]);
        assert_eq!((turns.waiting.len(), turns.order.len()), (0, 0));
    }

    #[test]
    fn those_who_cost_much_have_one_turn_together_for_a_while() {
        let (mut turns, now) = (Turns::new(3), Time::default());
        for origin in 1..=3 {
            turns.add(at(origin), origin.into(), |_| true);
        }
        assert_eq!(all(&mut turns, now), [1, 2, 3]);
        (1..=3).for_each(|it| turns.ended(at(it), Duration::from_secs(1), now));
        for origin in 1..=5 {
            turns.add(at(origin), origin.into(), |_| true);
        }
        let after = |seconds| now + Duration::from_secs(seconds);
        // (and none for as long as the last one took)
        assert_eq!(all(&mut turns, now), [4, 5]);
        assert_eq!(all(&mut turns, after(1)), [1]);
        turns.ended(at(4), Duration::ZERO, now);
        assert_eq!(all(&mut turns, after(1)), [0; 0], "a second one that cost much");
        turns.ended(at(5), Duration::ZERO, now);
        assert_eq!(all(&mut turns, after(10)), [2, 3]);
    }

    #[test]
    fn for_how_long_one_is_late_is_bounded_by_its_dearest_piece() {
        let (mut turns, now) = (Turns::new(1), Time::default());
        let after = |seconds| now + Duration::from_secs(seconds);
        let mut costs = |cost, at_most: [u64; 2]| {
            turns.add(at(1), 1, |_| true);
            let begun = turns.next(after(at_most[0]), |_| false);
            assert!(begun.is_some(), "{at_most:?}");
            turns.ended(at(1), cost, after(at_most[0]));
            // (a cheaper one while it is late makes it no less late)
            turns.ended(at(1), FREE * 2, after(at_most[0]));
            turns.add(at(1), 2, |_| true);
            turns.add(at(2), 3, |_| true);
            let next = |turns: &mut Turns<u32>, at| turns.next(after(at), |_| false).map(|it| it.1);
            assert_eq!(next(&mut turns, at_most[1] - 1), Some(3), "it is late");
            turns.ended(at(2), Duration::ZERO, after(at_most[1] - 1));
            turns.add(at(2), 4, |_| true);
            // (then it is as the others, and its turn was longer ago)
            assert_eq!(next(&mut turns, at_most[1]), Some(2));
            turns.ended(at(1), Duration::ZERO, after(at_most[1]));
            assert_eq!(next(&mut turns, at_most[1]), Some(4));
            turns.ended(at(2), Duration::ZERO, after(at_most[1]));
        };
        costs(Duration::from_secs(3), [0, 30]);
        costs(Duration::from_secs(100_000), [1_000, 1_600]);
    }

    #[test]
    fn all_who_are_late_rest_for_at_most_so_long() {
        let (mut turns, now) = (Turns::new(1), Time::default());
        let mut cost = |origin, seconds, from: u64| {
            turns.add(at(origin), 1, |_| true);
            let after = |seconds| now + Duration::from_secs(from + seconds);
            assert!(turns.next(after(0), |_| false).is_some());
            turns.ended(at(origin), Duration::from_secs(seconds), after(0));
            turns.add(at(origin), 1, |_| true);
            let rests = (0..).find(|it| turns.next(after(*it), |_| false).is_some());
            turns.ended(at(origin), Duration::ZERO, after(100));
            rests.unwrap_or(0)
        };
        assert_eq!([cost(1, 4, 0), cost(2, 10, 1_000), cost(3, 50_000, 2_000)], [4, 10, 10]);
        // (one that was spoiled holds nobody up)
        let mut turns = Turns::new(1);
        turns.rests = Some(now + LONGEST);
        turns.late.insert(at(1), now + LONGEST);
        turns.add(at(1), 1, |_| true);
        assert_eq!(all(&mut turns, now), [1]);
    }

    #[test]
    fn who_is_known_waits_for_nobody_who_is_not() {
        let known = |it: &Origin| matches!(it, Origin::V4([10, ..]));
        let (mut turns, now) = (Turns::new(8), Time::default());
        let stranger = |it: u32| Origin::V4([127, 0, (it >> 8) as u8, it as u8]);
        let child = |it: u32| Origin::V4([10, 0, 0, it as u8]);
        // (none of theirs ever ends)
        (0..1_000).for_each(|it| turns.add(stranger(it), it, |_| true));
        assert_eq!(all_of(&mut turns, now, known), [0, 1, 2, 3, 4, 5, 6, 7]);
        // each step of a few at once, and of all one after the other
        for step in 0..100 {
            (0..5).for_each(|it| turns.add(child(it), 5_000 + it, |_| true));
            let mut done = all_of(&mut turns, now, known);
            assert_eq!(done.len(), 3, "{step}");
            while let Some(it) = done.pop() {
                turns.ended(child(it - 5_000), FREE, now);
                done.extend(all_of(&mut turns, now, known));
            }
        }
        assert_eq!(turns.under_way(), 8);
        // who is not known gets what was left to it, and no more for it
        turns.ended(stranger(3), FREE, now);
        turns.add(child(0), 5_000, |_| true);
        assert_eq!(all_of(&mut turns, now, known), [8, 5_000]);
        // nor does who is known but cost much, as where somebody else is at its address
        turns.ended(child(0), Duration::from_secs(1), now);
        turns.add(child(0), 5_000, |_| true);
        for seconds in [0, 2, 9] {
            let now = now + Duration::from_secs(seconds);
            assert_eq!(all_of(&mut turns, now, known), [0; 0]);
        }
        let now = now + Duration::from_secs(10);
        assert_eq!(all_of(&mut turns, now, known), [5_000]);
    }

    #[test]
    fn those_who_are_known_take_nothing_from_who_is_not() {
        let known = |it: &Origin| matches!(it, Origin::V4([10, ..]));
        let (mut turns, now) = (Turns::new(4), Time::default());
        let child = |it: u32| Origin::V4([10, 0, 0, it as u8]);
        (0..100).for_each(|it| turns.add(child(it), it, |_| true));
        turns.add(at(1), 5_000, |_| true);
        let mut done = all_of(&mut turns, now, known);
        assert_eq!(done, [0, 1, 2, 3, 4, 5]);
        for round in 0.. {
            let it = done.remove(0);
            turns.ended(child(it), FREE, now);
            turns.add(child(it), it, |_| true);
            done.extend(all_of(&mut turns, now, known));
            if done.contains(&5_000) {
                break;
            }
            assert!(round < 200, "its turn does not come");
        }
    }

    #[test]
    fn what_nobody_wants_is_not_kept() {
        let mut turns = Turns::new(1);
        for it in 0..100_000 {
            turns.add(at(1), it, |other| it - other < 10);
        }
        assert!(turns.waiting[&at(1)].len() <= 2 * MANY);
    }
}
